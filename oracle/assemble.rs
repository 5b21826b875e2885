//! Build code shared by the packages here: where goscript's files are, and
//! the modules that name them.

use std::path::{Path, PathBuf};
use std::process::exit;
use std::{env, fs};

/// goscript's folder: `GOSCRIPT_SRC`, taken from the root of the repository.
pub fn source() -> PathBuf {
    println!("cargo:rerun-if-env-changed=GOSCRIPT_SRC");
    let Ok(given) = env::var("GOSCRIPT_SRC") else { stop("GOSCRIPT_SRC isn't set") };
    let package = PathBuf::from(env::var("CARGO_MANIFEST_DIR").unwrap());
    let folder = package.join("../..").join(given);
    folder.canonicalize().unwrap_or_else(|e| stop(&format!("GOSCRIPT_SRC: {}: {e}", folder.display())))
}

/// Ends the build with what is wrong, and what to set.
fn stop(wrong: &str) -> ! {
    eprintln!("{wrong}");
    eprintln!("Set GOSCRIPT_SRC to a folder with goscript's sources, commit e120782021: it holds parser/src/ast.rs and");
    eprintln!("types/src/check/label.rs, and the other files that oracle/README.md lists. A path that isn't absolute is");
    eprintln!("taken from the root of the repository.");
    exit(1)
}

/// The folder for files made by the build.
pub fn out() -> PathBuf {
    PathBuf::from(env::var("OUT_DIR").unwrap())
}

/// Writes a file that declares each of goscript's files as a module.
pub fn write_modules(file: &str, paths: &[PathBuf]) {
    let text: String = paths.iter().map(|path| module(path)).collect();
    fs::write(out().join(file), text).unwrap();
}

fn module(path: &Path) -> String {
    if !path.starts_with(out()) {
        println!("cargo:rerun-if-changed={}", path.display());
    }
    if !path.is_file() {
        stop(&format!("{} is missing", path.display()));
    }
    let name = path.file_stem().unwrap().to_str().unwrap();
    format!("#[path = {:?}]\npub mod {name};\n", path)
}
