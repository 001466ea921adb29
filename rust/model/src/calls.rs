//! The public calls on bytes, with their refusals in order and what each writes.

use crate::completing;
use crate::layout::{read_sheet, read_table, write_table, Table};
use crate::listing::listing;
use crate::orders;
use crate::prices::read_prices;
use crate::ranking::{cut, fare, ranked, reduced, JOURNEYS_MOST};
use crate::rewriting::{due, normal as normal_way, pair as pair_of, replaced, Rule};
use crate::{refused, Refusal};
use std::cmp::Ordering;

/// The values of an answer, or its refusal.
pub type Answer = Result<[u32; 4], Refusal>;

/// A rule record as it is lent for the search.
#[derive(Clone, Copy, Debug, PartialEq, Eq)]
pub struct Record {
    pub offset: u16,
    pub left: u8,
    pub right: u8,
    pub line: u16,
}

fn query(word: &[u8], letters: u16) -> Result<(), Refusal> {
    if word.len() > 64 || word.iter().any(|&a| a as u16 >= letters) {
        return refused(4, 0);
    }
    Ok(())
}

fn room(size: usize, least: usize) -> Result<(), Refusal> {
    if size < least {
        return refused(3, 0);
    }
    Ok(())
}

/// 0 less, 1 equal, 2 greater.
pub fn compare(order: u16, letters: u16, u: &[u8], v: &[u8]) -> Answer {
    if order > 1 || !(1..=32).contains(&letters) {
        return refused(1, 0);
    }
    query(u, letters)?;
    query(v, letters)?;
    let told = match orders::compare(order, u, v) {
        Ordering::Less => 0,
        Ordering::Equal => 1,
        Ordering::Greater => 2,
    };
    Ok([told, 0, 0, 0])
}

/// 1, place and line of the replacement due; or 0.
pub fn search(records: &[Record], area: &[u8], word: &[u8]) -> Answer {
    let mut rules: Vec<Rule> = Vec::new();
    for r in records {
        let (at, left, right) = (r.offset as usize, r.left as usize, r.right as usize);
        let out_of_turn = rules.last().is_some_and(|q| q.line >= r.line as usize);
        if left > 32 || right > 32 || at + left + right > area.len() || out_of_turn {
            return refused(1, 0);
        }
        let middle = at + left;
        rules.push(Rule { line: r.line as usize, left: area[at..middle].to_vec(), right: area[middle..middle + right].to_vec() });
    }
    if word.len() > 128 {
        return refused(4, 0);
    }
    Ok(due(&rules, word).map_or([0; 4], |(place, r)| [1, place as u32, r.line as u32, 0]))
}

fn asked(table: &[u8], word: &[u8], out: &[u8]) -> Result<Table, Refusal> {
    room(out.len(), 128)?;
    let table = read_table(table)?;
    query(word, table.letters)?;
    Ok(table)
}

/// The length and the count of one replacement.
pub fn one(table: &[u8], word: &[u8], out: &mut [u8]) -> Answer {
    let rules = asked(table, word, out)?.rules();
    let (next, count) = match due(&rules, word) {
        None => (word.to_vec(), 0),
        Some((p, r)) => (replaced(word, p, r.left.len(), &r.right), 1),
    };
    out[..next.len()].copy_from_slice(&next);
    Ok([next.len() as u32, count, 0, 0])
}

/// The length and the count of the normal word.
pub fn normal(table: &[u8], word: &[u8], allowance: u16, out: &mut [u8]) -> Answer {
    let rules = asked(table, word, out)?.rules();
    let way = normal_way(&rules, word, allowance as usize)?;
    out[..way.word.len()].copy_from_slice(&way.word);
    Ok([way.word.len() as u32, way.steps.len() as u32, 0, 0])
}

/// The lengths of peak and reducts; all 0: no pair.
pub fn pair(table: &[u8], n: u32, m: u32, place: u32, out: &mut [u8]) -> Answer {
    room(out.len(), 192)?;
    let rules = read_table(table)?.rules();
    let find = |k: u32| rules.iter().find(|r| r.line == k as usize);
    let (Some(a), Some(b)) = (find(n), find(m)) else {
        return Ok([0; 4]);
    };
    let Some(p) = pair_of(a, b, place as usize) else {
        return Ok([0; 4]);
    };
    for (at, w) in [(0, &p.peak), (64, &p.first), (128, &p.second)] {
        out[at..at + w.len()].copy_from_slice(w);
    }
    Ok([p.peak.len() as u32, p.first.len() as u32, p.second.len() as u32, 0])
}

/// The length of the table.
pub fn complete(sheet: &[u8], out: &mut [u8], work: &mut [u8]) -> Answer {
    room(out.len(), 51216)?;
    room(work.len(), 65536)?;
    work[..65536].fill(0);
    let table = write_table(&completing::complete(&read_sheet(sheet)?)?);
    out[..table.len()].copy_from_slice(&table);
    Ok([table.len() as u32, 0, 0, 0])
}

/// Nothing but acceptance.
pub fn check(sheet: &[u8], table: &[u8]) -> Answer {
    crate::checking::check(sheet, table).map(|()| [0; 4])
}

/// 1 the same fare, 0 different.
pub fn same(table: &[u8], u: &[u8], v: &[u8], allowance: u16) -> Answer {
    let table = read_table(table)?;
    query(u, table.letters)?;
    query(v, table.letters)?;
    let rules = table.rules();
    let first = normal_way(&rules, u, allowance as usize)?;
    let second = normal_way(&rules, v, allowance as usize)?;
    Ok([(first.word == second.word) as u32, 0, 0, 0])
}

/// How many journeys are priced, and how many are not. They lie end to end in `journeys`.
pub fn rank(
    table: &[u8],
    prices: &[u8],
    journeys: &[u8],
    lengths: &[u8],
    allowance: u16,
    priced: &mut [u8],
    unpriced: &mut [u8],
) -> Answer {
    room(priced.len().min(unpriced.len()), JOURNEYS_MOST)?;
    let (table, list) = (read_table(table)?, read_prices(prices)?);
    let journeys = cut(journeys, lengths)?;
    if (list.order, list.letters) != (table.order, table.letters) {
        return refused(2, 0);
    }
    let rules = table.rules();
    let prices = reduced(&rules, &list.prices, allowance as usize)?;
    let mut fares = Vec::new();
    for journey in &journeys {
        query(journey, table.letters)?;
        let way = normal_way(&rules, journey, allowance as usize)?;
        fares.push(fare(&prices, &way.word));
    }
    let (first, second) = ranked(&fares);
    priced[..first.len()].copy_from_slice(&first);
    unpriced[..second.len()].copy_from_slice(&second);
    Ok([first.len() as u32, second.len() as u32, 0, 0])
}

/// The length of the text.
pub fn list(table: &[u8], out: &mut [u8]) -> Answer {
    room(out.len(), 18967)?;
    let text = listing(&read_table(table)?);
    out[..text.len()].copy_from_slice(text.as_bytes());
    Ok([text.len() as u32, 0, 0, 0])
}
