//! Completion as a plain Rust program of the library's definition: lines and words in vectors, one search from the first place at
//! each replacement. As the definition says, it leaves zeros in the work buffer, which it has no other use for. It takes the
//! model's types, and reads the sheet and writes the table by the model's functions; all between is its own. The benchmark's other side.

use crate::plain::begins;
use crate::plain_orders::compare;
use model::checking::ALLOWANCE;
use model::layout::{read_sheet, write_table, Line, Sheet, Step, Table};
use model::{refused, Refusal};
use std::cmp::Ordering;
use std::collections::VecDeque;

#[derive(Clone, Copy)]
enum Entry {
    Equation(usize),
    Deleted(usize),
    Overlap(usize, usize, usize),
}

/// The length of the table of a sheet, which goes to the start of `out`.
pub fn complete(sheet: &[u8], out: &mut [u8], work: &mut [u8]) -> Result<usize, Refusal> {
    if out.len() < 51216 || work.len() < 65536 {
        return refused(3, 0);
    }
    work[..65536].fill(0);
    let table = table(sheet)?;
    out[..table.len()].copy_from_slice(&table);
    Ok(table.len())
}

/// The bytes of the table of a sheet.
fn table(sheet: &[u8]) -> Result<Vec<u8>, Refusal> {
    let sheet = read_sheet(sheet)?;
    let mut lines = Vec::new();
    let mut waiting: VecDeque<Entry> = (0..sheet.equations.len()).map(Entry::Equation).collect();
    let mut steps = 0;
    while let Some(entry) = waiting.pop_front() {
        if let Some(line) = treat(&sheet, &lines, entry)? {
            fits(&line, lines.len(), steps)?;
            steps += line.steps.len();
            grow(&mut lines, &mut waiting, line)?;
        }
    }
    check(&sheet, &lines)?;
    Ok(write_table(&Table { order: sheet.order, letters: sheet.letters, cited: sheet.equations.len(), lines }))
}

/// The place and the number of the line of the replacement due.
fn due(lines: &[Line], word: &[u8]) -> Option<(usize, usize)> {
    for p in 0..=word.len() {
        for (j, l) in lines.iter().enumerate() {
            if l.stands && begins(&word[p..], &l.left) {
                return Some((p, j));
            }
        }
    }
    None
}

/// The normal word, and the replacements that led to it are added to the steps.
fn normal(lines: &[Line], mut word: Vec<u8>, steps: &mut Vec<(usize, usize)>) -> Result<Vec<u8>, Refusal> {
    let before = steps.len();
    while let Some((p, j)) = due(lines, &word) {
        let l = &lines[j];
        if steps.len() - before == ALLOWANCE {
            return refused(5, 0);
        }
        if word.len() - l.left.len() + l.right.len() > 128 {
            return refused(6, 0);
        }
        word.splice(p..p + l.left.len(), l.right.iter().copied());
        steps.push((p, j));
    }
    Ok(word)
}

/// A left word laid at a place of another one agrees with it as far as both go.
fn laid(lines: &[Line], n: usize, m: usize, k: usize) -> bool {
    (k > 0 || n < m) && lines[n].left[k..].iter().zip(&lines[m].left).all(|(a, b)| a == b)
}

/// Both reducts of the lines n and m at the place k.
fn reducts(a: &Line, b: &Line, k: usize) -> (Vec<u8>, Vec<u8>) {
    let end = (k + b.left.len()).min(a.left.len());
    let first = [&a.right, &b.left[end - k..]].concat();
    let second = [&a.left[..k], &b.right, &a.left[end..]].concat();
    (first, second)
}

/// An entry's two words, and the steps from the first to the second.
fn two_words(sheet: &Sheet, lines: &[Line], entry: Entry) -> (Vec<u8>, Vec<u8>, Vec<Step>) {
    let cited = sheet.equations.len();
    let step = |reference, back, place| Step { reference, back, place };
    match entry {
        Entry::Equation(k) => {
            let (u, v) = &sheet.equations[k];
            (u.clone(), v.clone(), vec![step(k, false, 0)])
        }
        Entry::Deleted(j) => (lines[j].left.clone(), lines[j].right.clone(), vec![step(cited + j, false, 0)]),
        Entry::Overlap(n, m, k) => {
            let (u, v) = reducts(&lines[n], &lines[m], k);
            (u, v, vec![step(cited + n, true, 0), step(cited + m, false, k)])
        }
    }
}

fn reversed(steps: &mut [Step]) {
    steps.reverse();
    for s in steps {
        s.back = !s.back;
    }
}

/// The line that an entry makes, unless its words join.
fn treat(sheet: &Sheet, lines: &[Line], entry: Entry) -> Result<Option<Line>, Refusal> {
    let (u, v, middle) = two_words(sheet, lines, entry);
    let (mut one, mut other) = (Vec::new(), Vec::new());
    let first = normal(lines, u, &mut one)?;
    let second = normal(lines, v, &mut other)?;
    if first == second {
        return Ok(None);
    }
    let down = |&(place, j): &(usize, usize)| Step { reference: sheet.equations.len() + j, back: false, place };
    let mut steps: Vec<Step> = one.iter().map(down).collect();
    reversed(&mut steps);
    steps.extend(middle);
    steps.extend(other.iter().map(down));
    match compare(sheet.order, &first, &second) {
        Ordering::Greater => Ok(Some(Line { left: first, right: second, steps, stands: true })),
        Ordering::Less => {
            reversed(&mut steps);
            Ok(Some(Line { left: second, right: first, steps, stands: true }))
        }
        Ordering::Equal => refused(11, 0),
    }
}

/// The limits on a new line.
fn fits(line: &Line, lines: usize, steps: usize) -> Result<(), Refusal> {
    if line.left.len() > 32 || line.right.len() > 32 {
        return refused(7, 0);
    }
    if lines == 256 {
        return refused(8, 0);
    }
    if steps + line.steps.len() > 8192 {
        return refused(9, 0);
    }
    Ok(())
}

fn append(waiting: &mut VecDeque<Entry>, entry: Entry) -> Result<(), Refusal> {
    if waiting.len() == 2048 {
        return refused(10, 0);
    }
    waiting.push_back(entry);
    Ok(())
}

fn stands_in(left: &[u8], word: &[u8]) -> bool {
    (0..=word.len()).any(|p| begins(&word[p..], left))
}

/// Deletions, the new line, its overlaps.
fn grow(lines: &mut Vec<Line>, waiting: &mut VecDeque<Entry>, line: Line) -> Result<(), Refusal> {
    for (j, l) in lines.iter_mut().enumerate() {
        if l.stands && (stands_in(&line.left, &l.left) || stands_in(&line.left, &l.right)) {
            l.stands = false;
            append(waiting, Entry::Deleted(j))?;
        }
    }
    let new = lines.len();
    lines.push(line);
    for m in 0..new {
        if lines[m].stands {
            overlaps(lines, waiting, new, m)?;
            overlaps(lines, waiting, m, new)?;
        }
    }
    overlaps(lines, waiting, new, new)
}

fn overlaps(lines: &[Line], waiting: &mut VecDeque<Entry>, n: usize, m: usize) -> Result<(), Refusal> {
    for k in 0..lines[n].left.len() {
        if laid(lines, n, m, k) {
            append(waiting, Entry::Overlap(n, m, k))?;
        }
    }
    Ok(())
}

/// Conditions 3 to 6.
fn check(sheet: &Sheet, lines: &[Line]) -> Result<(), Refusal> {
    if let Some(j) = (0..lines.len()).find(|&j| !chain_holds(sheet, lines, j)) {
        return refused(12, j);
    }
    let sinks = |l: &Line| compare(sheet.order, &l.left, &l.right) == Ordering::Greater;
    if let Some(j) = (0..lines.len()).find(|&j| !sinks(&lines[j])) {
        return refused(13, j);
    }
    let standing: Vec<usize> = (0..lines.len()).filter(|&j| lines[j].stands).collect();
    let holds = |&j: &usize| standing.iter().any(|&i| i != j && stands_in(&lines[i].left, &lines[j].left));
    if let Some(&j) = standing.iter().find(|j| holds(j)) {
        return refused(14, j);
    }
    for (k, (left, right)) in sheet.equations.iter().enumerate() {
        if !joins(lines, left.clone(), right.clone())? {
            return refused(15, k);
        }
    }
    pairs_join(lines, &standing)
}

fn pairs_join(lines: &[Line], standing: &[usize]) -> Result<(), Refusal> {
    for &n in standing {
        for &m in standing {
            for k in (0..lines[n].left.len()).filter(|&k| laid(lines, n, m, k)) {
                let (u, v) = reducts(&lines[n], &lines[m], k);
                if !joins(lines, u, v)? {
                    return refused(16, n);
                }
            }
        }
    }
    Ok(())
}

fn joins(lines: &[Line], u: Vec<u8>, v: Vec<u8>) -> Result<bool, Refusal> {
    let mut steps = Vec::new();
    let first = normal(lines, u, &mut steps)?;
    steps.clear();
    Ok(first == normal(lines, v, &mut steps)?)
}

/// The chain of line j goes from its left to its right word.
fn chain_holds(sheet: &Sheet, lines: &[Line], j: usize) -> bool {
    let mut word = lines[j].left.clone();
    for s in &lines[j].steps {
        let (left, right) = match s.reference.checked_sub(sheet.equations.len()) {
            None => (&sheet.equations[s.reference].0, &sheet.equations[s.reference].1),
            Some(i) => (&lines[i].left, &lines[i].right),
        };
        let (from, by) = if s.back { (right, left) } else { (left, right) };
        if s.place > word.len() || !begins(&word[s.place..], from) || word.len() - from.len() + by.len() > 128 {
            return false;
        }
        word.splice(s.place..s.place + from.len(), by.iter().copied());
    }
    word == lines[j].right
}
