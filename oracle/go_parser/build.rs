//! Names goscript's parser files, compiled unchanged.

#[path = "../assemble.rs"]
mod assemble;

const FILES: [&str; 6] = ["ast", "errors", "map", "objects", "position", "token"];

fn main() {
    let folder = assemble::source().join("parser/src");
    let paths = FILES.map(|name| folder.join(name).with_extension("rs"));
    assemble::write_modules("modules.rs", &paths);
}
