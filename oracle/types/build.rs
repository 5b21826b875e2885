//! Names goscript's type checker files. The package `stock` takes all of them
//! unchanged; the package `mended` takes label.rs and returns.rs edited.

#[path = "../assemble.rs"]
mod assemble;
#[path = "edits.rs"]
mod edits;

use std::{env, fs, path::PathBuf};

const FILES: [&str; 6] = ["obj", "objects", "package", "scope", "typ", "universe"];
const CHECK: [&str; 5] = ["check", "decl", "label", "returns", "util"];

fn main() {
    let folder = assemble::source().join("types/src");
    let paths = FILES.map(|name| folder.join(name).with_extension("rs"));
    assemble::write_modules("modules.rs", &paths);

    let mended = env::var("CARGO_PKG_NAME").unwrap() == "mended";
    let paths = CHECK.map(|name| {
        let path = folder.join("check").join(name).with_extension("rs");
        match mended && edits::FILES.contains(&name) {
            true => edited(name, path),
            false => path,
        }
    });
    assemble::write_modules("check_modules.rs", &paths);
}

fn edited(name: &str, path: PathBuf) -> PathBuf {
    println!("cargo:rerun-if-changed={}", path.display());
    let text = fs::read_to_string(&path).unwrap();
    let made = assemble::out().join(name).with_extension("rs");
    fs::write(&made, edits::apply(name, text)).unwrap();
    made
}
