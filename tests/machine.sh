# Read by the scripts that run what the toolchain makes, which is for x86-64 Linux. On such a machine it runs as it is. On another one it runs
# under an emulator, C is compiled by a cross compiler, and Rust by Debian's own compiler, which has its library for x86-64 too; the gate installs
# them there (.ci/run). Speed is measured without an emulator (bench/kit).

emulated=
if [ "$(uname -m)" != x86_64 ]; then
    emulated="qemu-x86_64 /usr/x86_64-linux-gnu/lib/ld-linux-x86-64.so.2 --library-path /usr/x86_64-linux-gnu/lib"
fi

# Proves a program and builds it as crates/NAME/out/NAME, where it has changed since; it is run once on no input.
built() { # NAME
    (cd "crates/$1" && rt run </dev/null)
}

# What starts such a program: itself, or a script that hands it to the emulator.
started() { # PROGRAM
    if [ -z "$emulated" ]; then
        echo "$1"
        return
    fi
    local script
    script=$PWD/target/emulated/$(basename "$1")
    mkdir -p target/emulated
    printf '#!/bin/sh\nexec %s %s "$@"\n' "$emulated" "$(realpath "$1")" >"$script"
    chmod +x "$script"
    echo "$script"
}
