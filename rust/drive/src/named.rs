//! Tables to check, by name: for the sheet of two zones with a boundary, some as completion makes them, some made another way, and one for
//! each fault that the check finds; and where it finds the first of two.

use model::completing::complete;
use model::layout::{Line, Sheet, Step, Table};
use model::text::sheet;

/// A name, a sheet, and a table for it.
pub type Check = (&'static str, Sheet, Table);

const ZONES: &str = include_str!("../../../examples/either-zone.txt");

fn zones() -> Sheet {
    sheet(ZONES).expect("an example is a sheet")
}

/// The table that completion makes of a sheet.
fn completed(sheet: &Sheet) -> Table {
    complete(sheet).expect("a sheet that can be completed")
}

fn step(reference: usize, back: bool, place: usize) -> Step {
    Step { reference, back, place }
}

/// A line from its words as text, a to z, `-` for the empty word.
fn line(left: &str, right: &str, steps: &[Step], stands: bool) -> Line {
    let word = |text: &str| text.bytes().filter(|&b| b != b'-').map(|b| b - b'a').collect();
    Line { left: word(left), right: word(right), steps: steps.to_vec(), stands }
}

/// The zones' table with a change.
fn changed(name: &'static str, change: impl FnOnce(&mut Vec<Line>)) -> Check {
    let sheet = zones();
    let mut table = completed(&sheet);
    change(&mut table.lines);
    (name, sheet, table)
}

/// The table of a sheet's equations as they stand, but for those with equal sides.
fn as_they_stand(name: &'static str, text: &str) -> Check {
    let sheet = sheet(text).expect("a sheet");
    let line = |(k, (left, right)): (usize, &(Vec<u8>, Vec<u8>))| Line {
        left: left.clone(),
        right: right.clone(),
        steps: vec![step(k, false, 0)],
        stands: true,
    };
    let lines = sheet.equations.iter().enumerate().filter(|(_, (l, r))| l != r).map(line).collect();
    let table = Table { order: sheet.order, letters: sheet.letters, cited: sheet.equations.len(), lines };
    (name, sheet, table)
}

fn turn_round(line: &mut Line) {
    std::mem::swap(&mut line.left, &mut line.right);
    line.steps = line.steps.iter().rev().map(|s| Step { back: !s.back, ..*s }).collect();
}

/// From a to `most` letters a and back, by the equation aa = a.
fn there_and_back(most: usize) -> Line {
    let (longer, shorter) = (step(0, true, 0), step(0, false, 0));
    let steps = [vec![longer; most - 2], vec![shorter; most - 1]].concat();
    line("aa", "a", &steps, false)
}

/// A letter becomes as many as a side can have.
const LONG: &str = "b = aaaaaaaaaaaaaaaaaaaaaaaaaaaaaaaa\n";

/// A letter a that has passed k letters b has become 2^k, and a c takes each of them: with 11 letters b between, 4,095 replacements.
const DOUBLING: &str = "order kachinuki\nletters a b c d e\nba = aab\nca = c\n";

/// Tables that are accepted.
pub fn accepted() -> Vec<Check> {
    vec![
        changed("as-completed", |_| {}),
        changed("lines-the-other-way-round", |lines| lines.reverse()),
        changed("long-chains", |lines| {
            for l in lines {
                l.steps = [l.steps[0], Step { back: true, ..l.steps[0] }, l.steps[0]].to_vec();
            }
        }),
        changed("a-deleted-line-more", |lines| {
            lines.push(line("aba", "ab", &[step(1, false, 1), step(2, false, 0), step(2, true, 0)], false))
        }),
        changed("cites-a-deleted-line", |lines| {
            lines.insert(0, line("aab", "b", &[step(0, false, 0), step(2, false, 0)], false));
            lines.push(line("aaba", "ba", &[step(7, false, 0)], false));
        }),
        changed("a-chain-of-128-letters", |lines| lines.push(there_and_back(128))),
        changed("a-chain-to-the-end-of-a-word", |lines| {
            lines.push(line("abba", "bb", &[step(2, false, 0), step(1, false, 1)], false))
        }),
        as_they_stand("no-lines", "order shortlex\nletters a\n- = -\n"),
        as_they_stand("one-equation", "order kachinuki\nletters a b\nba = ab\n"),
        as_they_stand("4095-replacements", &format!("{DOUBLING}cbbbbbbbbbbba = cbbbbbbbbbbba\n")),
        as_they_stand("128-letters", &format!("order kachinuki\nletters a b\nbbbb = bbbb\n{LONG}")),
    ]
}

/// Tables whose chains or directions are at fault.
fn chains() -> Vec<Check> {
    vec![
        changed("chain-without-a-step", |lines| lines[6].steps.clear()),
        changed("chain-by-another-equation", |lines| lines[3].steps[0].reference = 4),
        changed("chain-the-other-way", |lines| lines[2].steps[0].back = true),
        changed("chain-at-another-place", |lines| lines[1].steps[0].place = 1),
        changed("chain-past-the-end", |lines| lines[1].steps[0].place = 3),
        changed("chain-that-ends-elsewhere", |lines| lines[5].right = vec![2]),
        changed("chain-of-129-letters", |lines| lines.push(there_and_back(129))),
        changed("chain-of-a-deleted-line", |lines| lines.push(line("aaa", "a", &[step(0, false, 0)], false))),
        changed("two-chains", |lines| {
            lines[5].steps.clear();
            lines[2].steps.clear();
        }),
        changed("direction", |lines| turn_round(&mut lines[4])),
        changed("direction-of-a-deleted-line", |lines| {
            turn_round(&mut lines[0]);
            lines[0].stands = false;
        }),
        changed("equal-sides", |lines| lines.push(line("b", "b", &[], true))),
        changed("two-directions", |lines| {
            turn_round(&mut lines[6]);
            turn_round(&mut lines[3]);
        }),
        changed("a-chain-behind-a-direction", |lines| {
            turn_round(&mut lines[0]);
            lines[5].steps.clear();
        }),
    ]
}

/// Tables that are not reduced, or whose rules are too few.
fn rules() -> Vec<Check> {
    let by_equation_0 = [step(0, false, 0)];
    vec![
        changed("a-left-word-in-a-later-one", |lines| lines.push(line("aaa", "aa", &by_equation_0, true))),
        changed("a-left-word-in-an-earlier-one", |lines| lines.insert(0, line("aaa", "aa", &by_equation_0, true))),
        changed("a-left-word-twice", |lines| lines.push(lines[6].clone())),
        changed("not-reduced-and-an-equation-open", |lines| {
            lines[4].stands = false;
            lines.push(lines[6].clone());
        }),
        changed("a-rule-deleted", |lines| lines[4].stands = false),
        changed("two-rules-deleted", |lines| {
            lines[5].stands = false;
            lines[1].stands = false;
        }),
        changed("no-rules", |lines| lines.clear()),
        as_they_stand("a-pair-with-itself", "order shortlex\nletters a b\naba = -\n"),
        as_they_stand("a-pair-of-two-lines", "order shortlex\nletters a b c\nab = c\nbc = a\n"),
    ]
}

/// Headers that differ, and normal words that are not reached.
fn others() -> Vec<Check> {
    let differ = |name, change: fn(&mut Table)| {
        let (_, sheet, mut table) = changed(name, |lines| lines.clear());
        change(&mut table);
        (name, sheet, table)
    };
    vec![
        differ("another-order", |t| t.order = 1),
        differ("another-number-of-letters", |t| t.letters = 4),
        differ("another-number-of-equations", |t| t.cited = 6),
        as_they_stand("allowance-by-an-equation", &format!("{DOUBLING}cbbbbbbbbbbbba = cbbbbbbbbbbbba\n")),
        as_they_stand("length-by-an-equation", &format!("order kachinuki\nletters a b\nbbbbb = bbbbb\n{LONG}")),
        as_they_stand("allowance-by-a-pair", &format!("{DOUBLING}de = cbbbbbbbbbbbb\nea = a\n")),
        as_they_stand("length-by-a-pair", &format!("order kachinuki\nletters a b c d\n{LONG}cd = bbbb\ndc = a\n")),
    ]
}

/// Tables that are refused.
pub fn refused() -> Vec<Check> {
    [chains(), rules(), others()].concat()
}
