//! What occurs in a list, read from its texts and files.

use crate::list::{Entry, List};
use oracle::file::words;

#[derive(Default)]
pub struct Summary {
    bodies: usize,
    large: usize,
    codes: [usize; 10],
    kinds: [usize; 21],
    refusals: [usize; 11],
    placed: [usize; 2],
    verdicts: [usize; 2],
    binds: usize,
}

impl Summary {
    pub fn of(list: &List) -> Summary {
        let mut summary = Summary::default();
        for entry in &list.0 {
            summary.bodies += 1;
            summary.large += (entry.file.len() > 2_000) as usize;
            summary.count(entry);
        }
        summary
    }

    fn count(&mut self, Entry { file, text }: &Entry) {
        for line in text.lines() {
            match line.split(' ').collect::<Vec<&str>>()[..] {
                ["refused", number, _] => self.refusals[number.parse::<usize>().unwrap()] += 1,
                ["binds", count] => self.binds += count.parse::<usize>().unwrap(),
                ["placed", "yes"] => self.placed[1] += 1,
                ["placed", "no", _] => self.placed[0] += 1,
                ["verdict", verdict] => self.verdicts[(verdict == "yes") as usize] += 1,
                [code, _, _, _] => self.codes[code.parse::<usize>().unwrap()] += 1,
                _ => {}
            }
        }
        if !text.starts_with("refused") {
            words(file).unwrap().0.chunks(5).for_each(|row| self.kinds[row[0] as usize] += 1);
        }
    }

    /// What should occur and doesn't.
    pub fn missing(&self) -> Vec<String> {
        let mut missing = vec![];
        let mut look = |name: &str, first: usize, counts: &[usize]| {
            for (i, _) in counts.iter().enumerate().filter(|(_, &count)| count == 0) {
                missing.push(format!("{name} {}", first + i));
            }
        };
        look("code", 1, &self.codes[1..]);
        look("kind", 0, &self.kinds);
        // `marks` refuses no file with 7 to 9.
        look("refusal", 0, &self.refusals[..7]);
        look("refusal", 10, &self.refusals[10..]);
        look("placing (0 bad, 1 well)", 0, &self.placed);
        look("verdict (0 no, 1 yes)", 0, &self.verdicts);
        missing
    }

    pub fn show(&self, bytes: usize) {
        let Summary { bodies, large, binds, placed, verdicts, .. } = self;
        println!("{bodies} files, {large} of them over 2,000 bytes; {bytes} bytes in all");
        println!("sheet rows of the codes from 1: {:?}", &self.codes[1..]);
        println!("rows of the kinds from 0: {:?}", self.kinds);
        println!("refused with the numbers from 0: {:?}", self.refusals);
        println!("badly placed {}, well placed {}", placed[0], placed[1]);
        println!("verdict no {}, yes {}; {binds} rows bound", verdicts[0], verdicts[1]);
    }
}
