//! The list: body files, each with what `marks` prints for it.

use oracle::file::file;
use oracle::text::printed;
use oracle::Words;

pub const HELP: &str = "\
sample FILE writes a list of some 3,400 body files, each with what program
`marks` prints for it by the oracle. All numbers are little-endian: for each
body a u32 length and the body file, a u32 length and the text; at the end the
u32 0xFFFFFFFF. Exit code: 0 written, 1 not written, 2 wrong arguments.";

#[derive(Default)]
pub struct List(pub Vec<Entry>);

pub struct Entry {
    pub file: Vec<u8>,
    pub text: String,
}

impl List {
    pub fn add(&mut self, words: &Words) {
        self.add_file(file(words));
    }

    pub fn add_file(&mut self, file: Vec<u8>) {
        let text = printed(&file);
        self.0.push(Entry { file, text });
    }

    pub fn bytes(&self) -> Vec<u8> {
        let mut bytes = vec![];
        for Entry { file, text } in &self.0 {
            for part in [file, text.as_bytes()] {
                bytes.extend((part.len() as u32).to_le_bytes());
                bytes.extend(part);
            }
        }
        bytes.extend(u32::MAX.to_le_bytes());
        bytes
    }
}
