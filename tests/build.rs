//! Links the proved library: from POHELDU_LIB where set, else from ../target/staticlib.

use std::env;
use std::path::PathBuf;

fn main() {
    let folder = library_folder();
    let archive = folder.join("libcapi.a");
    println!("cargo:rerun-if-env-changed=POHELDU_LIB");
    println!("cargo:rerun-if-changed={}", archive.display());
    if !archive.exists() {
        eprintln!("{} is missing: build it first", archive.display());
        std::process::exit(1);
    }
    println!("cargo:rustc-link-search=native={}", folder.display());
    // Not within this package's own static library: what links that links both.
    println!("cargo:rustc-link-lib=static:-bundle=capi");
}

fn library_folder() -> PathBuf {
    let manifest = PathBuf::from(env::var_os("CARGO_MANIFEST_DIR").expect("set by cargo"));
    match env::var_os("POHELDU_LIB") {
        Some(folder) => manifest.join(folder),
        None => manifest.join("../target/staticlib"),
    }
}
