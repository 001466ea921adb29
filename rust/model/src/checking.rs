//! The six conditions.

use crate::layout::{read_sheet, read_table, Sheet, Step, Table};
use crate::orders::compare;
use crate::rewriting::{normal, pair, replaced, stands_at, stands_in, Rule};
use crate::{refused, Refusal, Word};
use std::cmp::Ordering;

/// The allowance of each normal word inside completion and check.
pub const ALLOWANCE: usize = 4096;

/// Tries the six conditions on two files.
pub fn check(sheet: &[u8], table: &[u8]) -> Result<(), Refusal> {
    let sheet = read_sheet(sheet)?;
    let table = read_table(table)?;
    check_read(&sheet, &table)
}

/// Tries the conditions from the second on.
pub fn check_read(sheet: &Sheet, table: &Table) -> Result<(), Refusal> {
    if (sheet.order, sheet.letters, sheet.equations.len()) != (table.order, table.letters, table.cited) {
        return refused(2, 0);
    }
    if let Some(n) = (0..table.lines.len()).find(|&n| !chain_holds(sheet, table, n)) {
        return refused(12, n);
    }
    let sinks = |n: &usize| compare(table.order, &table.lines[*n].left, &table.lines[*n].right) == Ordering::Greater;
    if let Some(n) = (0..table.lines.len()).find(|n| !sinks(n)) {
        return refused(13, n);
    }
    let rules = table.rules();
    let holds = |r: &&Rule| rules.iter().any(|s| s.line != r.line && stands_in(&s.left, &r.left));
    if let Some(r) = rules.iter().find(holds) {
        return refused(14, r.line);
    }
    equations_join(sheet, &rules)?;
    pairs_join(&rules)
}

/// The fifth condition.
pub fn equations_join(sheet: &Sheet, rules: &[Rule]) -> Result<(), Refusal> {
    for (k, (left, right)) in sheet.equations.iter().enumerate() {
        if !joins(rules, left, right)? {
            return refused(15, k);
        }
    }
    Ok(())
}

/// The sixth condition.
fn pairs_join(rules: &[Rule]) -> Result<(), Refusal> {
    for n in rules {
        for m in rules {
            for p in (0..n.left.len()).filter_map(|k| pair(n, m, k)) {
                if !joins(rules, &p.first, &p.second)? {
                    return refused(16, n.line);
                }
            }
        }
    }
    Ok(())
}

/// Both words have one normal word.
fn joins(rules: &[Rule], u: &[u8], v: &[u8]) -> Result<bool, Refusal> {
    Ok(normal(rules, u, ALLOWANCE)?.word == normal(rules, v, ALLOWANCE)?.word)
}

/// The chain of line n goes from its left to its right word.
fn chain_holds(sheet: &Sheet, table: &Table, n: usize) -> bool {
    let line = &table.lines[n];
    let end = line.steps.iter().try_fold(line.left.clone(), |word, step| made(sheet, table, step, &word));
    end.as_ref() == Some(&line.right)
}

/// The word after a step, if the named side stands there and the word is not too long.
fn made(sheet: &Sheet, table: &Table, step: &Step, word: &[u8]) -> Option<Word> {
    let (left, right) = match step.reference.checked_sub(table.cited) {
        None => (&sheet.equations[step.reference].0, &sheet.equations[step.reference].1),
        Some(j) => (&table.lines[j].left, &table.lines[j].right),
    };
    let (from, by) = if step.back { (right, left) } else { (left, right) };
    if !stands_at(from, word, step.place) {
        return None;
    }
    let next = replaced(word, step.place, from.len(), by);
    (next.len() <= 128).then_some(next)
}
