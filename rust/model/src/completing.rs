//! Completion, turn by turn.

use crate::checking::{check_read, ALLOWANCE};
use crate::layout::{Line, Sheet, Step, Table};
use crate::orders::compare;
use crate::rewriting::{normal, pair, stands_in, Rule};
use crate::{refused, Refusal, Word};
use std::cmp::Ordering;
use std::collections::VecDeque;

#[derive(Clone, Copy)]
enum Entry {
    Equation(usize),
    Deleted(usize),
    Overlap(usize, usize, usize),
}

struct Run<'a> {
    sheet: &'a Sheet,
    table: Table,
    waiting: VecDeque<Entry>,
}

/// Completes a sheet to a table.
pub fn complete(sheet: &Sheet) -> Result<Table, Refusal> {
    let table = Table { order: sheet.order, letters: sheet.letters, cited: sheet.equations.len(), lines: Vec::new() };
    let waiting = (0..sheet.equations.len()).map(Entry::Equation).collect();
    let mut run = Run { sheet, table, waiting };
    while let Some(entry) = run.waiting.pop_front() {
        run.turn(entry)?;
    }
    check_read(sheet, &run.table)?;
    Ok(run.table)
}

impl Run<'_> {
    fn rule(&self, n: usize) -> Rule {
        let l = &self.table.lines[n];
        Rule { line: n, left: l.left.clone(), right: l.right.clone() }
    }

    fn append(&mut self, entry: Entry) -> Result<(), Refusal> {
        if self.waiting.len() == 2048 {
            return refused(10, 0);
        }
        self.waiting.push_back(entry);
        Ok(())
    }

    /// An entry's two words, and the steps from the first to the second.
    fn words(&self, entry: Entry) -> (Word, Word, Vec<Step>) {
        let own = self.table.cited;
        let step = |reference, back, place| Step { reference, back, place };
        match entry {
            Entry::Equation(k) => {
                let (u, v) = self.sheet.equations[k].clone();
                (u, v, vec![step(k, false, 0)])
            }
            Entry::Deleted(n) => {
                let r = self.rule(n);
                (r.left, r.right, vec![step(own + n, false, 0)])
            }
            Entry::Overlap(n, m, k) => {
                let p = pair(&self.rule(n), &self.rule(m), k).expect("an entry names a pair");
                (p.first, p.second, vec![step(own + n, true, 0), step(own + m, false, k)])
            }
        }
    }

    fn turn(&mut self, entry: Entry) -> Result<(), Refusal> {
        let (u, v, over) = self.words(entry);
        let rules = self.table.rules();
        let first = normal(&rules, &u, ALLOWANCE)?;
        let second = normal(&rules, &v, ALLOWANCE)?;
        if first.word == second.word {
            return Ok(());
        }
        let down = |steps: &[(usize, usize)]| -> Vec<Step> {
            let step = |&(line, place): &(usize, usize)| Step { reference: self.table.cited + line, back: false, place };
            steps.iter().map(step).collect()
        };
        let chain = [reversed(&down(&first.steps)), over, down(&second.steps)].concat();
        let line = match compare(self.table.order, &first.word, &second.word) {
            Ordering::Greater => Line { left: first.word, right: second.word, steps: chain, stands: true },
            Ordering::Less => Line { left: second.word, right: first.word, steps: reversed(&chain), stands: true },
            Ordering::Equal => return refused(11, 0),
        };
        self.make(line)
    }

    fn make(&mut self, line: Line) -> Result<(), Refusal> {
        if line.left.len() > 32 || line.right.len() > 32 {
            return refused(7, 0);
        }
        if self.table.lines.len() == 256 {
            return refused(8, 0);
        }
        let steps: usize = self.table.lines.iter().map(|l| l.steps.len()).sum();
        if steps + line.steps.len() > 8192 {
            return refused(9, 0);
        }
        for n in 0..self.table.lines.len() {
            let old = &mut self.table.lines[n];
            if old.stands && (stands_in(&line.left, &old.left) || stands_in(&line.left, &old.right)) {
                old.stands = false;
                self.append(Entry::Deleted(n))?;
            }
        }
        self.table.lines.push(line);
        self.overlaps(self.table.lines.len() - 1)
    }

    fn overlaps(&mut self, new: usize) -> Result<(), Refusal> {
        for m in (0..new).filter(|&m| self.table.lines[m].stands).collect::<Vec<_>>() {
            self.places(new, m)?;
            self.places(m, new)?;
        }
        self.places(new, new)
    }

    fn places(&mut self, n: usize, m: usize) -> Result<(), Refusal> {
        let (a, b) = (self.rule(n), self.rule(m));
        for k in (0..a.left.len()).filter(|&k| pair(&a, &b, k).is_some()) {
            self.append(Entry::Overlap(n, m, k))?;
        }
        Ok(())
    }
}

/// A chain the other way round.
fn reversed(steps: &[Step]) -> Vec<Step> {
    steps.iter().rev().map(|s| Step { back: !s.back, ..*s }).collect()
}
