//! One version: that of the archive, the header's macro, the package and the newest entry of
//! CHANGELOG.md.

use std::fs;

fn text_of(path: &str) -> String {
    let path = format!("{}/{path}", env!("CARGO_MANIFEST_DIR"));
    fs::read_to_string(&path).unwrap_or_else(|error| panic!("{path}: {error}"))
}

/// What follows `start` in the first line that has it there.
fn first_after<'a>(text: &'a str, start: &str) -> &'a str {
    text.lines().find_map(|line| line.strip_prefix(start)).expect("no such line").trim()
}

/// The number of a version written as major.minor.patch.
fn number_of(version: &str) -> u32 {
    let parts: Vec<u32> = version.split('.').map(|part| part.parse().expect(version)).collect();
    let [major, minor, patch] = parts[..] else { panic!("{version} has not three parts") };
    assert!(minor < 1000 && patch < 1000, "{version} goes over three digits");
    major * 1_000_000 + minor * 1_000 + patch
}

#[test]
fn numbers() {
    assert_eq!(number_of("0.8.0"), 8_000);
    assert_eq!(number_of("1.2.3"), 1_002_003);
}

#[test]
fn package() {
    let package = env!("CARGO_PKG_VERSION");
    assert_eq!(number_of(package), zesthull::version(), "package {package}, then the archive");
}

#[test]
fn header() {
    let header = text_of("../c/zesthull.h");
    let value: u32 = first_after(&header, "#define ZESTHULL_VERSION ").parse().unwrap();
    assert_eq!(value, zesthull::version(), "macro of c/zesthull.h, then the archive");
}

#[test]
fn changelog() {
    let changes = text_of("../../CHANGELOG.md");
    let newest = number_of(first_after(&changes, "## "));
    assert_eq!(newest, zesthull::version(), "newest entry of CHANGELOG.md, then the archive");
}
