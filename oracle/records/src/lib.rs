//! The file of a program that replays test vectors, as crates/records reads it.
//!
//! File: u32 words, least byte first. The number of calls; then records, each with the number of its words in front. Word 0 of a record says where
//! its rows start; they stand one behind the other up to its end, a call each, all as wide as the program has them. Between are the lists that the rows
//! name: where one starts, counted from the record's first word, and how many entries it has; an entry is a word, a wide one of two, low half first, or a byte.
//! What a buffer has to hold is such a list and a third word: the entry that stands everywhere behind it.

/// Where a list starts, and how many entries it has.
pub type List = [u32; 2];

/// A list, and the entry behind it.
pub type Held = [u32; 3];

/// A buffer with nothing but zeros.
pub const ZEROS: Held = [0, 0, 0];

pub fn held([at, n]: List, rest: u32) -> Held {
    [at, n, rest]
}

#[derive(Default)]
pub struct Record {
    lists: Vec<u32>,
    rows: Vec<Vec<u32>>,
}

impl Record {
    fn at(&self) -> u32 {
        1 + self.lists.len() as u32
    }

    /// A list of words.
    pub fn narrow(&mut self, words: &[u32]) -> List {
        let at = self.at();
        self.lists.extend(words);
        [at, words.len() as u32]
    }

    /// A list of wide words.
    pub fn wide(&mut self, words: &[u64]) -> List {
        let at = self.at();
        self.lists.extend(words.iter().flat_map(|&w| [w as u32, (w >> 32) as u32]));
        [at, words.len() as u32]
    }

    /// A list of bytes, four to a word.
    pub fn bytes(&mut self, bytes: &[u8]) -> List {
        let at = self.at();
        let word = |four: &[u8]| four.iter().rev().fold(0, |word, &byte| word << 8 | byte as u32);
        self.lists.extend(bytes.chunks(4).map(word));
        [at, bytes.len() as u32]
    }

    /// A call, by the parts of its row.
    pub fn call(&mut self, row: &[&[u32]]) {
        self.rows.push(row.concat());
    }

    /// How many words the record has so far.
    pub fn len(&self) -> usize {
        1 + self.lists.len() + self.rows.iter().map(Vec::len).sum::<usize>()
    }
}

#[derive(Default)]
pub struct File {
    words: Vec<u32>,
    records: usize,
    calls: usize,
}

impl File {
    /// Of a record without calls nothing is kept.
    pub fn add(&mut self, record: Record) {
        let width = record.rows.first().map_or(0, Vec::len);
        assert!(record.rows.iter().all(|row| row.len() == width));
        if record.rows.is_empty() {
            return;
        }
        self.words.extend([record.len() as u32, record.at()]);
        self.words.extend(record.lists);
        self.words.extend(record.rows.concat());
        self.records += 1;
        self.calls += record.rows.len();
    }

    /// The words, and what a program that replays them has to print.
    pub fn done(self) -> (Vec<u32>, String) {
        let line = format!("{} records, {} calls, 0 differ", self.records, self.calls);
        ([vec![self.calls as u32], self.words].concat(), line)
    }
}
