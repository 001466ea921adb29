//! Texts that are sheets, and texts that are none: each with its line and what is said of it.

use model::layout::Sheet;
use model::text::{read, sheet, sheet_of_bytes, Fault};

fn refused(text: &str, line: usize, what: &str) {
    assert_eq!(sheet(text), Err(Fault { line, what: what.to_string() }), "{text}");
}

/// Refused behind a sound start of two lines.
fn refused_behind(line: &str, what: &str) {
    refused(&format!("order shortlex\nletters a b\n{line}\n"), 3, what);
}

#[test]
fn a_sheet() {
    let named = read("# a comment\n\norder kachinuki\nletters x y # the least first\nxy = yx\n\tyy  =\t- # gone\n").expect("a sheet");
    assert_eq!(named.letters, ['x', 'y']);
    let equations = vec![(vec![0, 1], vec![1, 0]), (vec![1, 1], vec![])];
    assert_eq!(named.sheet, Sheet { order: 1, letters: 2, equations });
}

/// The order may stand anywhere, a sheet may have no equation, and lines may end as elsewhere.
#[test]
fn other_sheets() {
    assert_eq!(sheet("letters b\r\nb = -\r\norder shortlex"), Ok(Sheet { order: 0, letters: 1, equations: vec![(vec![0], vec![])] }));
    assert_eq!(sheet("order shortlex\nletters a"), Ok(Sheet { order: 0, letters: 1, equations: vec![] }));
    let named = read("order shortlex\nletters l e t r s o d\nletters = order\norder = -\n").expect("words like any other");
    assert_eq!(named.sheet.equations, [(vec![0, 1, 2, 2, 1, 3, 4], vec![5, 3, 6, 1, 3]), (vec![5, 3, 6, 1, 3], vec![])]);
}

#[test]
fn nothing_is_said() {
    let nothing = "the text says nothing; a sheet has an order, letters and equations";
    refused("", 1, nothing);
    refused("\n", 1, nothing);
    refused("# a comment\n   \n\n", 3, nothing);
}

#[test]
fn an_order_or_letters_are_missing() {
    refused("letters a\na = -\n", 2, "no order; add a line `order shortlex` or `order kachinuki`");
    refused("order shortlex\n", 1, "no letters; add a line that names them from the least to the greatest, as in `letters a b`");
}

#[test]
fn said_twice() {
    refused_behind("order kachinuki", "a second order: line 1 gave one, and a sheet has one");
    refused_behind("order shortlex", "a second order: line 1 gave one, and a sheet has one");
    refused_behind("letters b a", "letters a second time: line 2 named them, and a sheet names them once");
    refused_behind("letters a b", "letters a second time: line 2 named them, and a sheet names them once");
    let behind = "order shortlex\nletters a b\nab = ba\nletters b a\nab = -\n";
    refused(behind, 4, "letters a second time: line 2 named them, and a sheet names them once");
}

#[test]
fn an_equation_before_the_letters() {
    let before = "an equation before the letters; name them above it, as in `letters a b`";
    refused("order shortlex\nab = ba\nletters a b\n", 2, before);
    refused("order shortlex\n- = -\nletters a b\n", 2, before);
    refused("ab=ba\n", 1, before);
}

#[test]
fn an_order_that_is_none() {
    for line in ["order", "order lex", "order shortlex kachinuki", "order 0"] {
        refused(line, 1, "the order is `order shortlex` or `order kachinuki`");
    }
}

#[test]
fn what_cannot_be_a_letter() {
    refused("letters a =", 1, "= cannot be a letter; it stands between the sides of an equation");
    refused("letters = a", 1, "= cannot be a letter; it stands between the sides of an equation");
    refused("letters a - b", 1, "- cannot be a letter; it is the empty word");
    let hash = "# starts a comment and cannot be a letter; what is behind it is not named";
    refused("letters a #", 1, hash);
    refused("letters a # b", 1, hash);
    refused("letters # a b", 1, hash);
    refused("letters a#", 1, "# starts a comment and is no letter; a comment needs a space before it");
    refused("letters ab", 1, "ab is not a letter; a letter is one character, and spaces stand between letters");
    refused("letters a, b", 1, "a, is not a letter; a letter is one character, and spaces stand between letters");
    refused("letters a b a", 1, "the letter a is named twice");
}

#[test]
fn no_letters_or_too_many() {
    refused("letters", 1, "0 letters; a sheet has 1 to 32, as in `letters a b`");
    refused("letters # none yet", 1, "0 letters; a sheet has 1 to 32, as in `letters a b`");
    let named = |n: u32| (0..n).filter_map(|k| char::from_u32(0x3b1 + k)).map(|c| format!(" {c}")).collect::<String>();
    assert!(sheet(&format!("order shortlex\nletters{}\n", named(32))).is_ok());
    refused(&format!("letters{}", named(33)), 1, "33 letters; a sheet has 1 to 32, as in `letters a b`");
}

#[test]
fn no_line_of_a_sheet() {
    let neither = "neither an order, nor letters, nor an equation; an equation is written with =, as in `ab = ba`";
    for line in ["ab -> ba", "ab", "ab ba", "Order shortlex", "letter a"] {
        refused_behind(line, neither);
    }
    let none = "no equation; one is a word without spaces, a space, =, a space and a word, as in `ab = ba`; - is the empty word";
    for line in ["ab=ba", "a == a", "= a", "a =", "a b = b a", "a = b = a", "="] {
        refused_behind(line, none);
    }
}

#[test]
fn a_word_that_is_none() {
    refused_behind("ac = a", "c is not among the letters a b");
    refused_behind("a = A", "A is not among the letters a b");
    refused_behind("a- = b", "- is the empty word, and stands alone on its side");
    refused_behind("a# = b", "# starts a comment and is no letter; a comment needs a space before it");
    refused_behind("a = b# so", "# starts a comment and is no letter; a comment needs a space before it");
    refused_behind(&format!("{} = -", "a".repeat(33)), "a side of 33 letters; a side has at most 32");
    refused_behind(&format!("- = {}", "b".repeat(33)), "a side of 33 letters; a side has at most 32");
}

#[test]
fn an_equation_more() {
    let most = "order shortlex\nletters a b\n".to_string() + &"a = b\n".repeat(64);
    assert_eq!(sheet(&most).map(|s| s.equations.len()), Ok(64));
    refused(&(most + "a = b\n"), 67, "a 65th equation; a sheet has at most 64");
}

#[test]
fn bytes_that_are_no_text() {
    let what = "no text in UTF-8; the bytes of a sheet go to the program `complete` as they are".to_string();
    assert_eq!(sheet_of_bytes(&[1, 0, 0, 0, 2, 0]), Err(Fault { line: 1, what: what.clone() }));
    assert_eq!(sheet_of_bytes(b"order shortlex\n# caf\xe9\n"), Err(Fault { line: 2, what }));
    assert!(sheet_of_bytes("order shortlex\nletters å\n".as_bytes()).is_ok());
}

#[test]
fn a_fault_is_told_with_its_line() {
    let fault = sheet("order shortlex\nletters a\nb = a\n").expect_err("no sheet");
    assert_eq!(fault.to_string(), "line 3: b is not among the letters a");
}
