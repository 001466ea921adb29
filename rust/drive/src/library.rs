//! The library's calls, through the safe wrapper.

use crate::Calls;
use grettalune::{Reached, Refusal};
use model::calls::{Answer, Record};
use std::cmp::Ordering;
use std::hint::black_box;

/// The library's calls.
pub const LIBRARY: Calls = Calls { compare, search, one, normal, pair, complete, check, same, list };

fn refusal(f: Refusal) -> model::Refusal {
    model::Refusal { number: f.number, place: f.place }
}

fn reached(r: Result<Reached, Refusal>) -> Answer {
    r.map(|a| [a.length as u32, a.count as u32, 0, 0]).map_err(refusal)
}

fn compare(order: u16, letters: u16, u: &[u8], v: &[u8]) -> Answer {
    let number = |o| match o {
        Ordering::Less => 0,
        Ordering::Equal => 1,
        Ordering::Greater => 2,
    };
    grettalune::compare(order, letters, u, v).map(|o| [number(o), 0, 0, 0]).map_err(refusal)
}

fn one(table: &[u8], word: &[u8], out: &mut [u8]) -> Answer {
    reached(grettalune::one(table, word, out))
}

fn normal(table: &[u8], word: &[u8], allowance: u16, out: &mut [u8]) -> Answer {
    reached(grettalune::normal(table, word, allowance, out))
}

fn pair(table: &[u8], n: u32, m: u32, place: u32, out: &mut [u8]) -> Answer {
    let lengths = grettalune::pair(table, n, m, place, out).map_err(refusal)?;
    Ok(lengths.map_or([0; 4], |l| [l.peak as u32, l.first as u32, l.second as u32, 0]))
}

fn same(table: &[u8], u: &[u8], v: &[u8], allowance: u16) -> Answer {
    grettalune::same(table, u, v, allowance).map(|yes| [yes as u32, 0, 0, 0]).map_err(refusal)
}

fn complete(sheet: &[u8], out: &mut [u8], work: &mut [u8]) -> Answer {
    grettalune::complete(sheet, out, work).map(|length| [length as u32, 0, 0, 0]).map_err(refusal)
}

fn check(sheet: &[u8], table: &[u8]) -> Answer {
    grettalune::check(sheet, table).map(|()| [0; 4]).map_err(refusal)
}

fn search(records: &[Record], area: &[u8], word: &[u8]) -> Answer {
    let rule = |r: &Record| grettalune::Rule { offset: r.offset, left: r.left, right: r.right, line: r.line };
    let rules: Vec<grettalune::Rule> = records.iter().map(rule).collect();
    let due = grettalune::search(&rules, area, word);
    assert!(black_box(&rules).iter().copied().eq(records.iter().map(rule)), "the lent rules are as they were");
    let due = due.map_err(refusal)?;
    Ok(due.map_or([0; 4], |d| [1, d.place as u32, d.line as u32, 0]))
}

fn list(table: &[u8], out: &mut [u8]) -> Answer {
    grettalune::list(table, out).map(|length| [length as u32, 0, 0, 0]).map_err(refusal)
}
