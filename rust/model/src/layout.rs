//! Sheets and tables, read from and written to their bytes.

use crate::prices::PRICES_MOST;
use crate::rewriting::Rule;
use crate::{refused, Refusal, Word};

/// The bytes of a header.
pub const HEADER: usize = 16;

/// The bytes of a sheet's record.
pub const SHEET_RECORD: usize = 4;

/// The bytes of a table's record.
pub const TABLE_RECORD: usize = 8;

/// The bytes of a step.
pub const STEP: usize = 4;

/// A sheet: its order's code, its letters, its equations.
#[derive(Clone, Debug, PartialEq, Eq)]
pub struct Sheet {
    pub order: u16,
    pub letters: u16,
    pub equations: Vec<(Word, Word)>,
}

/// A step of a lineage.
#[derive(Clone, Copy, Debug, PartialEq, Eq)]
pub struct Step {
    pub reference: usize,
    pub back: bool,
    pub place: usize,
}

/// A line of a table.
#[derive(Clone, Debug, PartialEq, Eq)]
pub struct Line {
    pub left: Word,
    pub right: Word,
    pub steps: Vec<Step>,
    pub stands: bool,
}

/// A table, with the number of equations that its steps cite.
#[derive(Clone, Debug, PartialEq, Eq)]
pub struct Table {
    pub order: u16,
    pub letters: u16,
    pub cited: usize,
    pub lines: Vec<Line>,
}

impl Table {
    /// The standing lines as rules.
    pub fn rules(&self) -> Vec<Rule> {
        let rule = |(line, l): (usize, &Line)| Rule { line, left: l.left.clone(), right: l.right.clone() };
        self.lines.iter().enumerate().filter(|(_, l)| l.stands).map(rule).collect()
    }
}

pub(crate) fn u16_at(b: &[u8], p: usize) -> usize {
    b[p] as usize + 256 * b[p + 1] as usize
}

/// The header's eight numbers, where they fit the kind and the file.
pub(crate) fn header(b: &[u8], kind: usize, width: usize) -> Option<[usize; 8]> {
    if b.len() < HEADER {
        return None;
    }
    let h: [usize; 8] = std::array::from_fn(|i| u16_at(b, 2 * i));
    let (most_pairs, most_cited, most_steps) = match kind {
        1 => (64, 0, 0),
        2 => (256, 64, 8192),
        _ => (PRICES_MOST, 0, 0),
    };
    let fits = h[0] == kind
        && h[1] <= 1
        && (1..=32).contains(&h[2])
        && h[3] <= most_pairs
        && h[4] <= most_cited
        && h[5] <= most_steps
        && h[6] == HEADER + width * h[3] + STEP * h[5]
        && h[7] == b.len()
        && h[6] <= b.len();
    fits.then_some(h)
}

/// The words of the record at the front of `record`, whose letters start at `at` in the words area.
fn sides(record: &[u8], words: &[u8], at: usize) -> Option<(Word, Word)> {
    let (left, right) = (record[2] as usize, record[3] as usize);
    if u16_at(record, 0) != at || left > 32 || right > 32 || at + left + right > words.len() {
        return None;
    }
    Some((words[at..at + left].to_vec(), words[at + left..at + left + right].to_vec()))
}

fn sheet_of(b: &[u8]) -> Option<Sheet> {
    let h = header(b, 1, SHEET_RECORD)?;
    let words = &b[h[6]..];
    let mut equations = Vec::new();
    let mut at = 0;
    for j in 0..h[3] {
        let (left, right) = sides(&b[HEADER + SHEET_RECORD * j..], words, at)?;
        at += left.len() + right.len();
        equations.push((left, right));
    }
    let fits = at == words.len() && words.iter().all(|&a| (a as usize) < h[2]);
    fits.then_some(Sheet { order: h[1] as u16, letters: h[2] as u16, equations })
}

fn step_of(s: &[u8], bound: usize) -> Option<Step> {
    let fits = u16_at(s, 0) < bound && s[2] <= 1 && s[3] <= 128;
    fits.then_some(Step { reference: u16_at(s, 0), back: s[2] == 1, place: s[3] as usize })
}

fn table_of(b: &[u8]) -> Option<Table> {
    let h = header(b, 2, TABLE_RECORD)?;
    let words = &b[h[6]..];
    let steps = &b[HEADER + TABLE_RECORD * h[3]..h[6]];
    let mut lines = Vec::new();
    let (mut at, mut passed) = (0, 0);
    for j in 0..h[3] {
        let record = &b[HEADER + TABLE_RECORD * j..];
        let (left, right) = sides(record, words, at)?;
        at += left.len() + right.len();
        let count = u16_at(record, 4);
        if record[6] > 1 || record[7] != 0 || passed + count > h[5] {
            return None;
        }
        let own = (passed..passed + count).map(|i| step_of(&steps[STEP * i..], h[4] + j)).collect::<Option<Vec<_>>>()?;
        passed += count;
        lines.push(Line { left, right, steps: own, stands: record[6] == 1 });
    }
    let fits = at == words.len() && passed == h[5] && words.iter().all(|&a| (a as usize) < h[2]);
    fits.then_some(Table { order: h[1] as u16, letters: h[2] as u16, cited: h[4], lines })
}

/// Reads a sheet; another file is refusal 1.
pub fn read_sheet(b: &[u8]) -> Result<Sheet, Refusal> {
    sheet_of(b).map_or_else(|| refused(1, 0), Ok)
}

/// Reads a table; another file is refusal 1.
pub fn read_table(b: &[u8]) -> Result<Table, Refusal> {
    table_of(b).map_or_else(|| refused(1, 0), Ok)
}

pub(crate) fn push(b: &mut Vec<u8>, n: usize) {
    b.extend((n as u16).to_le_bytes());
}

pub(crate) fn put_header(b: &mut Vec<u8>, numbers: [usize; 6], words: usize, letters: usize) {
    for n in numbers {
        push(b, n);
    }
    push(b, words);
    push(b, words + letters);
}

/// The bytes of a sheet.
pub fn write_sheet(s: &Sheet) -> Vec<u8> {
    let letters: usize = s.equations.iter().map(|(l, r)| l.len() + r.len()).sum();
    let n = s.equations.len();
    let mut b = Vec::new();
    put_header(&mut b, [1, s.order as usize, s.letters as usize, n, 0, 0], HEADER + SHEET_RECORD * n, letters);
    let mut at = 0;
    for (l, r) in &s.equations {
        push(&mut b, at);
        b.extend([l.len() as u8, r.len() as u8]);
        at += l.len() + r.len();
    }
    for (l, r) in &s.equations {
        b.extend(l);
        b.extend(r);
    }
    b
}

/// The bytes of a table.
pub fn write_table(t: &Table) -> Vec<u8> {
    let letters: usize = t.lines.iter().map(|l| l.left.len() + l.right.len()).sum();
    let steps: usize = t.lines.iter().map(|l| l.steps.len()).sum();
    let n = t.lines.len();
    let mut b = Vec::new();
    let words = HEADER + TABLE_RECORD * n + STEP * steps;
    put_header(&mut b, [2, t.order as usize, t.letters as usize, n, t.cited, steps], words, letters);
    let mut at = 0;
    for l in &t.lines {
        push(&mut b, at);
        b.extend([l.left.len() as u8, l.right.len() as u8]);
        push(&mut b, l.steps.len());
        b.extend([l.stands as u8, 0]);
        at += l.left.len() + l.right.len();
    }
    for s in t.lines.iter().flat_map(|l| &l.steps) {
        push(&mut b, s.reference);
        b.extend([s.back as u8, s.place as u8]);
    }
    for l in &t.lines {
        b.extend(&l.left);
        b.extend(&l.right);
    }
    b
}
