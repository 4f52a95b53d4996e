//! Links libtracksaffron.a, which include/archive builds: from the folder that TRACKSAFFRON_LIB names, else from the repository's target/staticlib.

use std::env;
use std::path::PathBuf;
use std::process::Command;

/// The compiler's second number: 81 of 1.81.0.
fn minor() -> Option<u32> {
    let said = Command::new(env::var_os("RUSTC")?).arg("--version").output().ok()?;
    String::from_utf8(said.stdout).ok()?.split('.').nth(1)?.parse().ok()
}

fn main() {
    // `core::error` is there from 1.81 on.
    println!("cargo:rustc-check-cfg=cfg(core_error)");
    if minor().unwrap_or(81) >= 81 {
        println!("cargo:rustc-cfg=core_error");
    }
    println!("cargo:rerun-if-env-changed=TRACKSAFFRON_LIB");
    let built = || PathBuf::from(env::var_os("CARGO_MANIFEST_DIR").unwrap()).join("../../target/staticlib");
    let folder = env::var_os("TRACKSAFFRON_LIB").map_or_else(built, PathBuf::from);
    println!("cargo:rerun-if-changed={}", folder.join("libtracksaffron.a").display());
    println!("cargo:rustc-link-search=native={}", folder.display());
    println!("cargo:rustc-link-lib=static=tracksaffron");
}
