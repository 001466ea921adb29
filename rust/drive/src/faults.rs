//! Files by name: sound ones, the largest and the smallest among them, and one for each single fault of the layout.
//!
//! The model's writer writes them all. Where a fault is in what is written, as a side of 33 letters, it writes the fault; where the writer
//! cannot be wrong, as in an offset, the bytes are changed behind it.

use model::layout::{write_sheet, write_table, Line, Sheet, Step, Table, HEADER, SHEET_RECORD, TABLE_RECORD};

/// A file with its name.
type File = (&'static str, Vec<u8>);

/// The numbers of the header, in their order.
#[derive(Clone, Copy)]
enum Number {
    Kind,
    Order,
    Letters,
    Pairs,
    Cited,
    Steps,
    Words,
    Total,
}

/// The file with a number of its header set.
fn set(mut file: Vec<u8>, number: Number, to: u16) -> Vec<u8> {
    let at = 2 * number as usize;
    file[at..at + 2].copy_from_slice(&to.to_le_bytes());
    file
}

/// The file with something added to a number of its header.
fn add(file: Vec<u8>, number: Number, more: i16) -> Vec<u8> {
    let at = 2 * number as usize;
    let old = u16::from_le_bytes([file[at], file[at + 1]]);
    set(file, number, old.wrapping_add_signed(more))
}

/// The file with a byte set.
fn byte(mut file: Vec<u8>, at: usize, to: u8) -> Vec<u8> {
    file[at] = to;
    file
}

/// The file with so many bytes behind it.
fn behind(mut file: Vec<u8>, more: usize) -> Vec<u8> {
    file.resize(file.len() + more, 0);
    file
}

/// The file without its last byte.
fn cut(mut file: Vec<u8>) -> Vec<u8> {
    file.pop();
    file
}

fn sheet_of(letters: u16, equations: &[(&[u8], &[u8])]) -> Vec<u8> {
    let equations = equations.iter().map(|(l, r)| (l.to_vec(), r.to_vec())).collect();
    write_sheet(&Sheet { order: 0, letters, equations })
}

fn line(left: &[u8], right: &[u8], steps: &[Step]) -> Line {
    Line { left: left.to_vec(), right: right.to_vec(), steps: steps.to_vec(), stands: true }
}

fn table_of(letters: u16, cited: usize, lines: &[Line]) -> Vec<u8> {
    write_table(&Table { order: 0, letters, cited, lines: lines.to_vec() })
}

const BACK: Step = Step { reference: 0, back: true, place: 0 };

/// The line ba to ab by the equation ab = ba.
fn sorting() -> Line {
    line(&[1, 0], &[0, 1], &[BACK])
}

/// The sheet of ab = ba and aa = -.
fn sheet() -> Vec<u8> {
    sheet_of(2, &[(&[0, 1], &[1, 0]), (&[0, 0], &[])])
}

/// A table for it: ba to ab, and aa to - deleted.
fn table() -> Vec<u8> {
    let gone = line(&[0, 0], &[], &[Step { reference: 1, back: false, place: 0 }]);
    table_of(2, 2, &[sorting(), Line { stands: false, ..gone }])
}

/// Files in the layout.
pub fn sound() -> Vec<File> {
    let side = [31; 32];
    let long = Step { reference: 63, back: true, place: 128 };
    vec![
        ("worked-sheet", sheet_of(2, &[(&[0, 1], &[1, 0])])),
        ("worked-table", table_of(2, 1, &[sorting()])),
        ("empty-sheet", sheet_of(1, &[])),
        ("empty-table", table_of(1, 0, &[])),
        ("sheet", sheet()),
        ("table", table()),
        ("empty-left-word", table_of(1, 64, &[line(&[], &[0], &[])])),
        ("empty-sides", sheet_of(1, &[(&[], &[]), (&[], &[])])),
        ("largest-sheet", sheet_of(32, &[(&side[..], &side[..]); 64])),
        ("largest-table", table_of(32, 64, &vec![line(&side, &side, &[long; 32]); 256])),
        ("line-that-cites-the-line-before", table_of(2, 1, &[sorting(), line(&[1, 0], &[0, 1], &[Step { reference: 1, ..BACK }])])),
    ]
}

/// Files with a fault of the header or of the length.
fn broken_headers() -> Vec<File> {
    use Number::{Cited, Kind, Letters, Order, Pairs, Steps, Total, Words};
    let four = |mut file: Vec<u8>| {
        file.splice(HEADER + 2 * SHEET_RECORD..HEADER + 2 * SHEET_RECORD, [0; 4]);
        add(add(set(file, Steps, 1), Words, 4), Total, 4)
    };
    let sum = |file: Vec<u8>| byte(file, HEADER + 4, 0);
    vec![
        ("nothing", Vec::new()),
        ("fifteen-bytes", sheet_of(1, &[])[..15].to_vec()),
        ("over-65535-bytes", behind(sheet(), 65_536)),
        ("sheet-kind-0", set(sheet(), Kind, 0)),
        ("sheet-kind-3", set(sheet(), Kind, 3)),
        ("sheet-kind-257", set(sheet(), Kind, 257)),
        ("sheet-order-2", set(sheet(), Order, 2)),
        ("sheet-order-256", set(sheet(), Order, 256)),
        ("sheet-letters-0", sheet_of(0, &[])),
        ("sheet-letters-33", sheet_of(33, &[])),
        ("sheet-letters-258", set(sheet(), Letters, 258)),
        ("sheet-65-equations", sheet_of(1, &[(&[][..], &[][..]); 65])),
        ("sheet-an-equation-more", set(sheet(), Pairs, 3)),
        ("sheet-cites", set(sheet(), Cited, 1)),
        ("sheet-steps", four(sheet())),
        ("sheet-words-low", add(sheet(), Words, -1)),
        ("sheet-words-high", add(sheet(), Words, 1)),
        ("sheet-total-low", add(sheet(), Total, -1)),
        ("sheet-total-high", add(sheet(), Total, 1)),
        ("sheet-length-short", cut(sheet())),
        ("sheet-length-long", behind(sheet(), 1)),
        ("sheet-a-letter-short", add(cut(sheet()), Total, -1)),
        ("sheet-a-letter-behind", add(behind(sheet(), 1), Total, 1)),
        ("table-kind-1", set(table(), Kind, 1)),
        ("table-order-2", set(table(), Order, 2)),
        ("table-letters-33", table_of(33, 0, &[])),
        ("table-257-lines", table_of(1, 0, &vec![line(&[], &[], &[]); 257])),
        ("table-cites-65", table_of(1, 65, &[])),
        ("table-8193-steps", table_of(1, 1, &[line(&[], &[], &[BACK; 8193])])),
        ("table-steps-sum-low", sum(table())),
        ("table-steps-sum-high", byte(table(), HEADER + 4, 2)),
        ("table-words-low", add(table(), Words, -1)),
        ("table-total-high", add(table(), Total, 1)),
        ("table-length-short", cut(table())),
        ("table-a-letter-behind", add(behind(table(), 1), Total, 1)),
    ]
}

/// Files with a fault of a record, a step or a letter.
fn broken_records() -> Vec<File> {
    let second = HEADER + TABLE_RECORD;
    let steps = HEADER + 2 * TABLE_RECORD;
    let deleted = Line { stands: false, ..line(&[2], &[], &[]) };
    let with = |step: Step| table_of(2, 1, &[line(&[1, 0], &[0, 1], &[step]), sorting()]);
    vec![
        ("sheet-offset-1", byte(sheet(), HEADER, 1)),
        ("sheet-second-offset", byte(sheet(), HEADER + SHEET_RECORD, 3)),
        ("sheet-offset-of-empty-sides", byte(sheet_of(1, &[(&[], &[]), (&[], &[])]), HEADER + SHEET_RECORD, 1)),
        ("sheet-left-33", sheet_of(1, &[(&[0; 33], &[])])),
        ("sheet-right-33", sheet_of(1, &[(&[], &[0; 33])])),
        ("sheet-letter-2-of-2", sheet_of(2, &[(&[0, 2], &[1, 0])])),
        ("table-offset-1", byte(table(), HEADER, 1)),
        ("table-second-offset", byte(table(), second, 5)),
        ("table-left-33", table_of(1, 0, &[line(&[0; 33], &[], &[])])),
        ("table-right-33", table_of(1, 0, &[line(&[], &[0; 33], &[])])),
        ("table-standing-2", byte(table(), HEADER + 6, 2)),
        ("table-zero-byte", byte(table(), second + 7, 1)),
        ("table-letter-2-of-2", table_of(2, 0, &[line(&[2], &[], &[])])),
        ("table-letter-in-a-deleted-line", table_of(2, 0, &[deleted])),
        ("table-direction-2", byte(table(), steps + 2, 2)),
        ("table-position-129", with(Step { place: 129, ..BACK })),
        ("table-cites-the-line-itself", with(Step { reference: 1, ..BACK })),
        ("table-cites-a-later-line", with(Step { reference: 2, ..BACK })),
        ("table-cites-no-equation", table_of(2, 0, &[sorting()])),
    ]
}

/// Files that are neither a sheet nor a table.
pub fn broken() -> Vec<File> {
    [broken_headers(), broken_records()].concat()
}
