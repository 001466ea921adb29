//! Random numbers, words, lent rules and buffers, from a seed.

use model::calls::Record;
use model::rewriting::{normal, Rule};

/// A small generator of numbers: the same seed gives the same calls.
pub struct Random(u64);

/// So many bytes, or fewer before it, lie around each buffer and are not lent.
const AROUND: usize = 64;

/// A buffer to lend, with bytes before its start and behind its end.
#[derive(Clone, Debug, PartialEq, Eq)]
pub struct Buffer {
    bytes: Vec<u8>,
    start: usize,
    size: usize,
}

impl Buffer {
    /// What is lent.
    pub fn lent(&mut self) -> &mut [u8] {
        &mut self.bytes[self.start..self.start + self.size]
    }
}

impl Random {
    pub fn new(seed: u64) -> Random {
        Random(seed ^ 0x9e37_79b9_7f4a_7c15)
    }

    /// The next number.
    pub fn number(&mut self) -> u64 {
        self.0 ^= self.0 << 13;
        self.0 ^= self.0 >> 7;
        self.0 ^= self.0 << 17;
        self.0.wrapping_mul(0x2545_f491_4f6c_dd1d) >> 11
    }

    /// A number below n.
    pub fn below(&mut self, n: usize) -> usize {
        (self.number() % n as u64) as usize
    }

    /// True once in n times.
    pub fn once_in(&mut self, n: usize) -> bool {
        self.below(n) == 0
    }

    /// One of these.
    pub fn one_of<T: Copy>(&mut self, all: &[T]) -> T {
        all[self.below(all.len())]
    }

    /// A number of letters: mostly few, so that words meet, at times up to 32.
    pub fn letters(&mut self) -> u16 {
        let most = self.one_of(&[4, 4, 4, 4, 4, 4, 12, 32]);
        1 + self.below(most) as u16
    }

    /// A word of this many letters.
    pub fn word_of(&mut self, letters: u16, length: usize) -> Vec<u8> {
        (0..length).map(|_| self.below(letters as usize) as u8).collect()
    }

    /// A word of at most `most` letters.
    pub fn word(&mut self, letters: u16, most: usize) -> Vec<u8> {
        let length = self.below(most + 1);
        self.word_of(letters, length)
    }

    /// A word near another one: itself, or a letter changed, gone or moved to the end.
    pub fn near(&mut self, word: &[u8], letters: u16) -> Vec<u8> {
        let mut near = word.to_vec();
        if !near.is_empty() {
            let at = self.below(near.len());
            match self.below(4) {
                0 => near[at] = self.below(letters as usize) as u8,
                1 => drop(near.remove(at)),
                2 => near[at..].rotate_left(1),
                _ => {}
            }
        }
        near
    }

    /// A word for a query: mostly sound, at times at the limit, over it or with a letter that is none.
    pub fn query(&mut self, letters: u16) -> Vec<u8> {
        let mut word = match self.below(12) {
            0 => self.word_of(letters, 64),
            1 => self.word_of(letters, 65),
            _ => self.word(letters, 20),
        };
        if self.once_in(20) && !word.is_empty() {
            let at = self.below(word.len());
            word[at] = self.one_of(&[letters as u8, letters as u8 + 1, 255]);
        }
        word
    }

    /// Two words for a query, at times near each other or the second the first's normal word.
    pub fn queries(&mut self, letters: u16, rules: &[Rule]) -> (Vec<u8>, Vec<u8>) {
        let word = self.query(letters);
        let other = match self.below(4) {
            0 => self.near(&word, letters),
            1 => normal(rules, &word, 100).map_or(Vec::new(), |way| way.word),
            _ => self.query(letters),
        };
        (word, other)
    }

    /// An allowance: small, large, the largest, or what a word needs or one less.
    pub fn allowance(&mut self, word: &[u8], rules: &[Rule]) -> u16 {
        let any = match self.below(20) {
            0 => 65_535,
            1..=6 => self.below(4) as u16,
            _ => 500,
        };
        if self.once_in(4) {
            let count = normal(rules, word, 500).map_or(0, |way| way.steps.len());
            count.saturating_sub(self.below(2)) as u16
        } else {
            any
        }
    }

    /// Rule records over an area, mostly sound, and a word to search. Letters are at times any bytes, lines up to 65,535, records more
    /// than 256, and offsets such that a side lies behind 65,535.
    pub fn lent(&mut self) -> (Vec<Record>, Vec<u8>, Vec<u8>) {
        let letters = self.one_of(&[2, 2, 2, 3, 256]);
        let most = self.one_of(&[30, 30, 30, 30, 30, 300]);
        let area = if self.once_in(30) { self.word_of(letters, 65_600) } else { self.word(letters, most) };
        let records = self.records(area.len());
        let word = match self.below(10) {
            0 => vec![self.below(2) as u8; 128],
            1 => vec![self.below(2) as u8; 129],
            2 => self.word_of(letters, 128),
            _ => self.word(letters, 20),
        };
        (records, area, word)
    }

    fn records(&mut self, area: usize) -> Vec<Record> {
        let sound = !self.once_in(4);
        let most = if self.once_in(30) { 400 } else { 7 };
        let mut line = self.one_of(&[0, 0, 1, 250, 65_000, 65_530]);
        let mut records = Vec::new();
        for _ in 0..self.below(most) {
            records.push(self.record(area, line as u16, sound));
            line += if sound || !self.once_in(9) { 1 + self.below(3) } else { 0 };
            line += if self.once_in(10) { self.below(65_535) } else { 0 };
            if line > 65_535 {
                break;
            }
        }
        records
    }

    /// A record; an unsound one may have a side over 32 letters or lie outside the area.
    fn record(&mut self, area: usize, line: u16, sound: bool) -> Record {
        let long = if sound { 33 } else { 35 };
        let most = if self.once_in(9) { long } else { 4 };
        let left = self.below(most.min(area + 1));
        let right = self.below(most.min(area - left + 1));
        let free = area + 1 - left - right + (!sound && self.once_in(9)) as usize;
        let offset = if free > 65_535 && self.once_in(2) { 65_535 - self.below(40) } else { self.below(free).min(65_535) };
        Record { offset: offset as u16, left: left as u8, right: right as u8, line }
    }

    /// A buffer of about this size, full of noise.
    pub fn buffer(&mut self, least: usize) -> Buffer {
        let size = if self.once_in(12) { self.below(least) } else { least + self.below(9) };
        let start = self.below(AROUND);
        Buffer { bytes: (0..start + size + AROUND).map(|_| self.below(256) as u8).collect(), start, size }
    }
}
