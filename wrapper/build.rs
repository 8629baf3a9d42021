//! Finds the library to link, and for the comparison the given Rust where it was built.

use std::env;
use std::path::{Path, PathBuf};

fn main() {
    println!("cargo::rerun-if-env-changed=TOGASIPE_LIB_DIR");
    println!("cargo::rerun-if-env-changed=TOGASIPE_ORACLE_DIR");
    println!("cargo::rustc-check-cfg=cfg(togasipe_oracle)");

    let folder = library_folder();
    let archive = folder.join("libtogasipe.a");
    println!("cargo::rerun-if-changed={}", archive.display());
    if !archive.is_file() {
        println!(
            "cargo::error=there is no {}: run `tools/library.sh` in the repository, or name the folder of \
             libtogasipe.a in TOGASIPE_LIB_DIR",
            archive.display()
        );
        return;
    }
    println!("cargo::rustc-link-search=native={}", folder.display());

    // Only the tests ask for it, and only where tools/wrapper_test.sh has built it.
    if let Some(oracle) = env::var_os("TOGASIPE_ORACLE_DIR").map(PathBuf::from) {
        println!("cargo::rerun-if-changed={}", oracle.join("liboracle.rlib").display());
        println!("cargo::rustc-link-search=all={}", oracle.display());
        println!("cargo::rustc-link-search=all={}", oracle.join("stubs").display());
        println!("cargo::rustc-cfg=togasipe_oracle");
    }
}

/// The folder that TOGASIPE_LIB_DIR names, or the one that `tools/library.sh` writes to beside this package.
fn library_folder() -> PathBuf {
    if let Some(folder) = env::var_os("TOGASIPE_LIB_DIR") {
        return PathBuf::from(folder);
    }
    let package = env::var_os("CARGO_MANIFEST_DIR").expect("cargo names the package's folder");
    Path::new(&package).join("../target/staticlib")
}
