//! Links the archive that include/archive builds, again whenever it changed: from the folder that TRACKSAFFRON_LIB names, else from the repository's target/staticlib.

fn main() {
    println!("cargo:rerun-if-env-changed=TRACKSAFFRON_LIB");
    let built = || format!("{}/../target/staticlib", std::env::var("CARGO_MANIFEST_DIR").unwrap());
    let folder = std::env::var("TRACKSAFFRON_LIB").unwrap_or_else(|_| built());
    println!("cargo:rerun-if-changed={folder}/libtracksaffron.a");
    println!("cargo:rustc-link-search=native={folder}");
}
