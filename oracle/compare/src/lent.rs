//! Buffers for sheet and bindings, lent full of a pattern.

pub struct Lent {
    pub sheet: Vec<u32>,
    pub bindings: Vec<u32>,
}

impl Lent {
    /// Buffers of these many words.
    pub fn new(sheet: usize, bindings: usize) -> Lent {
        let words = |count: usize| (0..count).map(pattern).collect();
        Lent { sheet: words(sheet), bindings: words(bindings) }
    }

    /// Whether all words past so many of each are still as they were lent.
    pub fn kept_past(&self, sheet: usize, bindings: usize) -> bool {
        let kept = |words: &[u32], written: usize| {
            words.iter().enumerate().skip(written).all(|(i, &word)| word == pattern(i))
        };
        kept(&self.sheet, sheet) && kept(&self.bindings, bindings)
    }

    pub fn unchanged(&self) -> bool {
        self.kept_past(0, 0)
    }
}

/// Never 0 and different for neighbours.
fn pattern(i: usize) -> u32 {
    0xA5A5_0001 + 7 * i as u32
}
