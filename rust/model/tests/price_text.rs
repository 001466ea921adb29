//! Texts that are price lists, and texts that are none: what is said of order, letters and words is said as for sheets, in a price
//! list's words.

use model::prices::{Price, PriceList};
use model::text::{prices, prices_of_bytes, Fault};

fn refused(text: &str, line: usize, what: &str) {
    assert_eq!(prices(text), Err(Fault { line, what: what.to_string() }), "{text}");
}

/// Refused behind a sound start of two lines.
fn refused_behind(line: &str, what: &str) {
    refused(&format!("order shortlex\nletters a b\n{line}\n"), 3, what);
}

fn price(word: &[u8], fare: u32) -> Price {
    Price { word: word.to_vec(), fare }
}

#[test]
fn a_price_list() {
    let text = "# fares\norder kachinuki\nletters x 1 # the least first\nx1 = 300\n\t11  =\t0 # for nothing\n- = 1000000\n1 = 1\n";
    let all = vec![price(&[0, 1], 300), price(&[1, 1], 0), price(&[], 1_000_000), price(&[1], 1)];
    assert_eq!(prices(text), Ok(PriceList { order: 1, letters: 2, prices: all }));
    assert_eq!(prices("letters a\r\norder shortlex"), Ok(PriceList { order: 0, letters: 1, prices: vec![] }));
}

#[test]
fn a_word_twice() {
    let twice = prices("order shortlex\nletters a b\nab = 3\nab = 3\n").map(|list| list.prices);
    assert_eq!(twice, Ok(vec![price(&[0, 1], 3); 2]));
    refused("order shortlex\nletters a b\nab = 3\n- = 4\nab = 5\n", 5, "a second fare for ab, which costs 3 already");
    refused("order shortlex\nletters a b\n- = 3\n- = 4\n", 4, "a second fare for -, which costs 3 already");
}

#[test]
fn what_is_no_fare() {
    for fare in ["1000001", "4294967297", "-1", "+5", "007", "00", "3.50", "1,000", "ba", "-", "0x10", "１"] {
        refused_behind(&format!("ab = {fare}"), &format!("{fare} is no fare; one is 0 to 1000000 in minor units, in digits alone"));
    }
}

#[test]
fn what_is_no_word() {
    refused_behind("ac = 3", "c is not among the letters a b");
    refused_behind("a- = 3", "- is the empty word, and stands alone on its side");
    refused_behind(&format!("{} = 3", "a".repeat(65)), "a price word of 65 letters; a price word has at most 64");
    assert!(prices(&format!("order shortlex\nletters a\n{} = 3\n", "a".repeat(64))).is_ok());
}

#[test]
fn no_line_of_a_price_list() {
    let neither = "neither an order, nor letters, nor a price; a price is written with =, as in `ab = 300`";
    for line in ["ab 300", "ab: 300", "ab"] {
        refused_behind(line, neither);
    }
    let none = "no price; one is a word without spaces, a space, =, a space and a fare, as in `ab = 300`; - is the empty word";
    for line in ["ab=300", "a b = 300", "ab =", "= 300", "ab = 3 00", "ab = 3 = 3"] {
        refused_behind(line, none);
    }
    refused("order shortlex\nab = 3\n", 2, "a price before the letters; name them above it, as in `letters a b`");
}

#[test]
fn order_and_letters() {
    refused("", 1, "the text says nothing; a price list has an order, letters and prices");
    refused("letters a\na = 3\n", 2, "no order; add a line `order shortlex` or `order kachinuki`");
    refused_behind("order shortlex", "a second order: line 1 gave one, and a price list has one");
    refused_behind("letters a b", "letters a second time: line 2 named them, and a price list names them once");
    refused("letters a =", 1, "= cannot be a letter; it stands between a word and its fare");
    refused("letters", 1, "0 letters; a price list has 1 to 32, as in `letters a b`");
}

#[test]
fn a_price_more() {
    let most = "order shortlex\nletters a b\n".to_string() + &"a = 3\n".repeat(256);
    assert_eq!(prices(&most).map(|list| list.prices.len()), Ok(256));
    refused(&(most + "a = 3\n"), 259, "a 257th price; a price list has at most 256");
}

#[test]
fn bytes_that_are_no_text() {
    let what = "no text in UTF-8; the bytes of a price list go to the call as they are".to_string();
    assert_eq!(prices_of_bytes(&[3, 0, 0, 0, 2, 0]), Err(Fault { line: 1, what }));
    assert!(prices_of_bytes(b"order shortlex\nletters a\na = 1\n").is_ok());
}
