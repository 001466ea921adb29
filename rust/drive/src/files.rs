//! Random sheets and tables, sound and damaged, and what to ask of them.

use crate::random::Random;
use crate::strained::strained;
use model::completing::complete;
use model::layout::{write_sheet, write_table, Line, Sheet, Step, Table};
use model::rewriting::{pair, Rule};
use model::text::sheet;

/// A sheet of a few equations.
pub fn any_sheet(r: &mut Random) -> Sheet {
    let letters = r.letters();
    let most = if r.once_in(8) { 32 } else { 5 };
    let n = r.below(5);
    let equations = (0..n).map(|_| (r.word(letters, most), r.word(letters, most / 2 + 1))).collect();
    Sheet { order: r.below(2) as u16, letters, equations }
}

/// A sheet that runs to a limit of completion, or near one: an example, at times with an equation left out.
fn far_sheet(r: &mut Random) -> Sheet {
    let texts = [
        include_str!("../../../examples/limits/allowance.txt"),
        include_str!("../../../examples/limits/closing.txt"),
        include_str!("../../../examples/limits/length.txt"),
        include_str!("../../../examples/limits/lines.txt"),
        include_str!("../../../examples/limits/side.txt"),
        include_str!("../../../examples/limits/steps.txt"),
        include_str!("../../../examples/limits/waiting.txt"),
    ];
    let mut far = sheet(r.one_of(&texts)).expect("an example is a sheet");
    if r.once_in(3) {
        far.equations.remove(r.below(far.equations.len()));
    }
    far
}

/// A table: completed from a sheet, or of any lines, at times up to 256 of them.
fn any_table(r: &mut Random) -> Table {
    if r.once_in(2) {
        if let Ok(t) = complete(&any_sheet(r)) {
            return t;
        }
    }
    let letters = r.letters();
    let cited = if r.once_in(10) { r.below(65) } else { r.below(3) };
    let n = if r.once_in(12) { r.below(257) } else { r.below(8) };
    let lines = (0..n).map(|j| any_line(r, letters, cited + j)).collect();
    Table { order: r.below(2) as u16, letters, cited, lines }
}

/// A line whose steps have references below a bound. 256 of them have at most 256 times 20 steps, which the layout allows.
fn any_line(r: &mut Random, letters: u16, bound: usize) -> Line {
    let most = if r.once_in(6) { 32 } else { 4 };
    let count = if bound == 0 { 0 } else { r.one_of(&[0, 1, 2, 2, 20]) };
    let mut left = r.word(letters, most);
    if left.is_empty() && !r.once_in(4) {
        left.push(0);
    }
    let steps = (0..count).map(|_| any_step(r, bound)).collect();
    Line { left, right: r.word(letters, most), steps, stands: !r.once_in(5) }
}

fn any_step(r: &mut Random, bound: usize) -> Step {
    Step { reference: r.below(bound), back: r.once_in(2), place: r.below(129) }
}

/// A file, as it is or with some bytes changed, cut or added.
fn damaged(r: &mut Random, mut file: Vec<u8>) -> Vec<u8> {
    match r.below(10) {
        0 => {
            for _ in 0..=r.below(2) {
                let at = r.below(file.len());
                file[at] = if r.once_in(2) { r.below(4) as u8 } else { r.below(256) as u8 };
            }
        }
        1 if r.once_in(3) => file.truncate(r.below(file.len())),
        2 if r.once_in(3) => file.push(r.below(4) as u8),
        _ => {}
    }
    file
}

/// A change that keeps the layout: a line that stands or not, a line turned round, a last line gone or said twice, another step.
fn change(r: &mut Random, t: &mut Table) {
    let n = t.lines.len();
    if n == 0 {
        return;
    }
    let j = r.below(n);
    let last = t.lines[j].steps.len().checked_sub(1);
    match (r.below(7), last) {
        (0, _) => t.lines[j].stands = !t.lines[j].stands,
        (1, _) => turn_round(&mut t.lines[j]),
        (2, _) => drop(t.lines.pop()),
        (3, _) => t.lines.push(t.lines[j].clone()),
        (4, Some(last)) => t.lines[j].steps[r.below(last + 1)] = any_step(r, t.cited + j),
        _ => {}
    }
}

fn turn_round(l: &mut Line) {
    std::mem::swap(&mut l.left, &mut l.right);
    l.steps = l.steps.iter().rev().map(|s| Step { back: !s.back, ..*s }).collect();
}

/// A table and its bytes, sound or damaged.
pub fn table_file(r: &mut Random) -> (Table, Vec<u8>) {
    let t = any_table(r);
    let file = write_table(&t);
    (t, damaged(r, file))
}

/// The bytes of a sheet, sound or damaged.
pub fn sheet_file(r: &mut Random) -> Vec<u8> {
    let sheet = if r.once_in(10) { far_sheet(r) } else { any_sheet(r) };
    damaged(r, write_sheet(&sheet))
}

/// A sheet and a table to check: the sheet's own, sound or with a change, one that strains the check, or any.
pub fn checked(r: &mut Random) -> (Vec<u8>, Vec<u8>) {
    let own = if r.once_in(3) { Some(strained(r)) } else { completed(r) };
    let Some((sheet, mut table)) = own.filter(|_| !r.once_in(8)) else {
        let sheet = write_sheet(&any_sheet(r));
        return (damaged(r, sheet), table_file(r).1);
    };
    if r.once_in(2) {
        change(r, &mut table);
    }
    let (sheet, table) = (write_sheet(&sheet), write_table(&table));
    if r.once_in(4) {
        (damaged(r, sheet), damaged(r, table))
    } else {
        (sheet, table)
    }
}

fn completed(r: &mut Random) -> Option<(Sheet, Table)> {
    let sheet = any_sheet(r);
    complete(&sheet).ok().map(|table| (sheet, table))
}

/// A table's bytes, sound or damaged, with two lines and a place to ask a pair for. Mostly they are a pair of the table, else two of its
/// lines and a place in the first's left word or at its end; at times a number is added that a narrower type would lose.
pub fn asked_pair(r: &mut Random) -> (Vec<u8>, [u32; 3]) {
    let mut table = any_table(r);
    let mut asked = [r.below(8), r.below(8), r.below(6)];
    for _ in 0..r.below(100) {
        if is_pair(&table, asked) {
            break;
        }
        if table.lines.is_empty() || r.once_in(20) {
            table = any_table(r);
        } else {
            asked = lines_and_place(r, &table);
        }
    }
    if r.once_in(6) {
        asked[r.below(3)] += r.one_of(&[256, 65_536, 1 << 31]);
    }
    (damaged(r, write_table(&table)), asked.map(|k| k as u32))
}

fn lines_and_place(r: &mut Random, t: &Table) -> [usize; 3] {
    let (n, m) = (r.below(t.lines.len()), r.below(t.lines.len()));
    [n, m, r.below(t.lines[n].left.len() + 1)]
}

fn is_pair(t: &Table, [n, m, k]: [usize; 3]) -> bool {
    let standing = |j: usize| t.lines.get(j).filter(|l| l.stands);
    let (Some(a), Some(b)) = (standing(n), standing(m)) else {
        return false;
    };
    let rule = |line, l: &Line| Rule { line, left: l.left.clone(), right: l.right.clone() };
    pair(&rule(n, a), &rule(m, b), k).is_some()
}
