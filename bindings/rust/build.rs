//! Links `libsheetstore.a`: from the folder that SHEETSTORE_LIB names, else from this repository's `target/staticlib`.

use std::env;
use std::path::PathBuf;

fn main() {
    println!("cargo:rerun-if-env-changed=SHEETSTORE_LIB");
    let folder = match env::var_os("SHEETSTORE_LIB") {
        Some(folder) => PathBuf::from(folder),
        None => PathBuf::from(env::var_os("CARGO_MANIFEST_DIR").expect("cargo sets it")).join("../../target/staticlib"),
    };
    let archive = folder.join("libsheetstore.a");
    println!("cargo:rerun-if-changed={}", archive.display());
    assert!(archive.is_file(), "{} is not there: build it with `tools/build sheetstore`, or name its folder in SHEETSTORE_LIB", archive.display());
    println!("cargo:rustc-link-search=native={}", folder.display());
    println!("cargo:rustc-link-lib=static=sheetstore");
}
