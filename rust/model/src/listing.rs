//! What the program prints.

use crate::completing::complete;
use crate::layout::{read_sheet, Table};
use crate::{refused, Refusal};

/// The listing of a table, each line ended.
pub fn listing(table: &Table) -> String {
    let rules = table.rules();
    let mut text = format!("ok {} rules {} lines\n", rules.len(), table.lines.len());
    for r in rules {
        text += &format!("{}: {} -> {}\n", r.line, shown(&r.left), shown(&r.right));
    }
    text
}

/// A word in letters, `-` for the empty one.
pub fn shown(word: &[u8]) -> String {
    let letter = |&a: &u8| if a < 26 { (b'a' + a) as char } else { (b'A' + a - 26) as char };
    if word.is_empty() {
        "-".to_string()
    } else {
        word.iter().map(letter).collect()
    }
}

/// What the program prints on an input.
pub fn list(input: &[u8]) -> String {
    let table = if input.len() > 4368 { refused(1, 0) } else { read_sheet(input).and_then(|s| complete(&s)) };
    match table {
        Ok(t) => listing(&t),
        Err(Refusal { number, place }) => format!("refused {number} at {place}\n"),
    }
}
