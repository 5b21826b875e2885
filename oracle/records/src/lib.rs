//! The lent records of document 01, as the oracle takes and gives them.

/// A body: rows of kind, detail, position, name and size; pairs of offset
/// and length; and the name bytes.
#[derive(Clone, Debug, Default, PartialEq, Eq)]
pub struct Body {
    pub rows: Vec<[u32; 5]>,
    pub pairs: Vec<[u32; 2]>,
    pub bytes: Vec<u8>,
}

/// Row words, pair words and name bytes, of a body or not.
pub type Words = (Vec<u32>, Vec<u32>, Vec<u8>);

/// What the label call and the verdict call give: sheet rows of code,
/// position, name and other; one binding a row; and the verdict.
#[derive(Clone, Debug, Default, PartialEq, Eq)]
pub struct Answer {
    pub sheet: Vec<[u32; 4]>,
    pub bindings: Vec<u32>,
    pub terminating: bool,
}

impl Body {
    /// The body of words that aren't refused.
    pub fn of_words((rows, pairs, bytes): &Words) -> Body {
        let rows = rows.chunks_exact(5).map(|row| row.try_into().unwrap()).collect();
        let pairs = pairs.chunks_exact(2).map(|pair| pair.try_into().unwrap()).collect();
        Body { rows, pairs, bytes: bytes.clone() }
    }

    pub fn words(&self) -> Words {
        (self.rows.concat(), self.pairs.concat(), self.bytes.clone())
    }

    /// The bytes of a name number; none for 0 or a number past the last pair.
    pub fn name(&self, number: u32) -> &[u8] {
        match (number as usize).checked_sub(1).and_then(|i| self.pairs.get(i)) {
            Some(&[offset, length]) => &self.bytes[offset as usize..][..length as usize],
            None => &[],
        }
    }

    /// The rows directly below a row.
    pub fn children(&self, row: usize) -> Children<'_> {
        let end = row + self.rows[row][4] as usize;
        Children { rows: &self.rows, next: row + 1, end }
    }
}

/// Steps through the rows directly below a row, by size.
pub struct Children<'a> {
    rows: &'a [[u32; 5]],
    next: usize,
    end: usize,
}

impl Iterator for Children<'_> {
    type Item = usize;

    fn next(&mut self) -> Option<usize> {
        let row = self.next;
        if row >= self.end {
            return None;
        }
        self.next += self.rows[row][4] as usize;
        Some(row)
    }
}

/// The kinds of rows.
pub mod kind {
    pub const BAD: u32 = 0;
    pub const DECL: u32 = 1;
    pub const EMPTY: u32 = 2;
    pub const LABELED: u32 = 3;
    pub const EXPR: u32 = 4;
    pub const SEND: u32 = 5;
    pub const INC_DEC: u32 = 6;
    pub const ASSIGN: u32 = 7;
    pub const GO: u32 = 8;
    pub const DEFER: u32 = 9;
    pub const RETURN: u32 = 10;
    pub const BRANCH: u32 = 11;
    pub const BLOCK: u32 = 12;
    pub const IF: u32 = 13;
    pub const CASE: u32 = 14;
    pub const SWITCH: u32 = 15;
    pub const TYPE_SWITCH: u32 = 16;
    pub const COMM: u32 = 17;
    pub const SELECT: u32 = 18;
    pub const FOR: u32 = 19;
    pub const RANGE: u32 = 20;
}

/// The details of a Branch.
pub mod branch {
    pub const BREAK: u32 = 0;
    pub const CONTINUE: u32 = 1;
    pub const GOTO: u32 = 2;
    pub const FALLTHROUGH: u32 = 3;
}
