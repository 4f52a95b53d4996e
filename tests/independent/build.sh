# Read by the scripts in tests/: goes to the repository's root and builds the independent decoder's programs, below target/ or in the folder $INDEPENDENT.
# Afterwards $programs is the folder they are in. need_console makes $console the console to be tested: $CONSOLE if set,
# else the one that the toolchain builds.

case ${CONSOLE:-/} in
    /*) ;;
    *) CONSOLE=$PWD/$CONSOLE ;;
esac

cd "$(dirname "${BASH_SOURCE[0]}")/../.." || exit 2
. tests/machine.sh

built=${INDEPENDENT:-$PWD/target/independent}
CARGO_TARGET_DIR=$built cargo build --release --offline --quiet --manifest-path tests/independent/Cargo.toml || exit 2
programs=$built/release

need_console() {
    console=${CONSOLE:-$PWD/crates/console/out/console}
    if [ -z "${CONSOLE:-}" ] && [ ! -e "$console" ]; then
        built console || exit 2
    fi
    [ -n "${CONSOLE:-}" ] || console=$(started "$console")
    if [ ! -x "$console" ]; then
        echo "there is no program $console" >&2
        exit 2
    fi
}
