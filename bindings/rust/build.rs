//! Links the proved calls: libexports.a of the folder ZESTHULL_LIB, or of target/staticlib at the
//! repository's root, where `tools/staticlib` writes it.

use std::env;
use std::path::PathBuf;

fn main() {
    println!("cargo:rerun-if-env-changed=ZESTHULL_LIB");
    let root = PathBuf::from(env::var("CARGO_MANIFEST_DIR").unwrap()).join("../..");
    let folder = match env::var("ZESTHULL_LIB") {
        Ok(given) => PathBuf::from(given),
        Err(_) => root.join("target/staticlib"),
    };
    let archive = folder.join("libexports.a");
    println!("cargo:rerun-if-changed={}", archive.display());
    assert!(archive.is_file(), "{} is missing: run `tools/staticlib`", archive.display());
    println!("cargo:rustc-link-search=native={}", folder.display());
    println!("cargo:rustc-link-lib=static=exports");
}
