//! Files and texts of program `marks`, and names that aren't UTF-8.

use oracle::bodies::rows::body;
use oracle::bodies::{example, random, Rng, Shape};
use oracle::text::printed;
use oracle::{file, with_utf8_names, Body};

#[test]
fn the_example_of_document_01() {
    let lines = "sheet 2\n8 7 1 0\n9 9 2 0\nbinds 1\n2 2\nplaced yes\nverdict yes\n";
    assert_eq!(printed(&file::file(&example().words())), lines);
}

#[test]
fn names_that_are_not_utf8() {
    let mut body = example();
    body.bytes = vec![0xFF, 0x80];
    let lines = "sheet 2\n8 7 1 0\n9 9 2 0\nbinds 1\n2 2\nplaced yes\nverdict yes\n";
    assert_eq!(printed(&file::file(&body.words())), lines);
}

#[test]
fn files_of_wrong_length() {
    let file = file::file(&example().words());
    let longer = [&file[..], &[0]].concat();
    let counts = [0xFF; 12];
    for wrong in [&file[..0], &file[..11], &file[..file.len() - 1], &longer, &counts] {
        assert_eq!(printed(wrong), "refused 0 0\n");
    }
    assert_eq!(printed(&[0; 12]), "refused 1 0\n");
}

#[test]
fn words_come_back_from_a_file() {
    let mut rng = Rng::new(9);
    for _ in 0..200 {
        let shape = Shape::any(&mut rng, 50);
        let body = random(&mut rng, shape);
        let words = file::words(&file::file(&body.words())).unwrap();
        assert_eq!(Body::of_words(&words), body);
    }
}

#[test]
fn utf8_names_keep_order_and_prefixes() {
    let names: Vec<[u8; 2]> = (0..=u8::MAX).map(|byte| [byte, 0xFF]).collect();
    let mapped = with_utf8_names(&body(&[], &names)).into_owned();
    let ends = mapped.name(256)[2..].to_vec();
    for number in 1..=256 {
        let name = mapped.name(number);
        assert!(std::str::from_utf8(name).is_ok() && name.len() == 4);
        assert!(name[2..] == ends && mapped.name(number - 1) < name);
    }
}

#[test]
fn the_blank_name_stays() {
    let mapped = with_utf8_names(&body(&[], &[&b"_"[..], b"__", b"\xFF"])).into_owned();
    assert_eq!((mapped.name(1), mapped.name(2)), (&b"_"[..], "\u{15F}\u{15F}".as_bytes()));
}
