//! The largest sheet, the largest table and the longest text, each by its size.

use grettalune::{SHEET_MOST, TABLE_ROOM, TEXT_ROOM, WORK_ROOM};
use model::layout::{write_sheet, write_table, Line, Sheet, Step, Table};

#[test]
fn the_largest_sheet() {
    let equations = vec![(vec![31; 32], vec![31; 32]); 64];
    let mut sheet = write_sheet(&Sheet { order: 0, letters: 32, equations });
    assert_eq!(sheet.len(), SHEET_MOST);
    let (mut out, mut work) = (vec![0; TABLE_ROOM], vec![0; WORK_ROOM]);
    assert_eq!(grettalune::complete(&sheet, &mut out, &mut work), Ok(16));
    sheet.push(0);
    assert_eq!(grettalune::complete(&sheet, &mut out, &mut work).unwrap_err().number, 1);
}

/// The text is 23 bytes and a line of up to 74 each: ten lines have two digits fewer than the last ones, and ninety one.
#[test]
fn the_largest_table_and_its_text() {
    let step = Step { reference: 0, back: false, place: 128 };
    let line = Line { left: vec![31; 32], right: vec![0; 32], steps: vec![step; 32], stands: true };
    let table = write_table(&Table { order: 1, letters: 32, cited: 64, lines: vec![line; 256] });
    assert_eq!(table.len(), TABLE_ROOM);
    let mut text = vec![0; TEXT_ROOM];
    assert_eq!(grettalune::list(&table, &mut text), Ok(18_857));
    assert_eq!(TEXT_ROOM, 18_857 + 10 * 2 + 90);
    assert_eq!(grettalune::list(&table, &mut text[1..]).unwrap_err().number, 3);
}
