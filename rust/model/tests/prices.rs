//! Price files: one taken apart, the largest, and every single fault.

use model::layout::{write_sheet, write_table, Sheet, Table};
use model::prices::{read_prices, write_prices, Price, PriceList};

/// Three letters, kachinuki; ab costs 300, the empty word nothing, c the most.
fn list() -> PriceList {
    let price = |word: &[u8], fare| Price { word: word.to_vec(), fare };
    PriceList { order: 1, letters: 3, prices: vec![price(&[0, 1], 300), price(&[], 0), price(&[2], 1_000_000)] }
}

const HEADER: [u8; 16] = [3, 0, 1, 0, 3, 0, 3, 0, 0, 0, 0, 0, 40, 0, 43, 0];
const RECORDS: [[u8; 8]; 3] = [[0, 0, 2, 0, 44, 1, 0, 0], [2, 0, 0, 0, 0, 0, 0, 0], [2, 0, 1, 0, 0x40, 0x42, 0x0f, 0]];
const WORDS: [u8; 3] = [0, 1, 2];

fn file() -> Vec<u8> {
    [&HEADER[..], &RECORDS.concat(), &WORDS].concat()
}

fn is_none(file: &[u8], what: &str) {
    assert_eq!(read_prices(file).map_err(|f| (f.number, f.place)), Err((1, 0)), "{what}");
}

#[test]
fn a_file_taken_apart() {
    assert_eq!(write_prices(&list()), file());
    assert_eq!(read_prices(&file()), Ok(list()));
}

#[test]
fn no_prices() {
    let none = PriceList { order: 0, letters: 32, prices: vec![] };
    assert_eq!(write_prices(&none), [3, 0, 0, 0, 32, 0, 0, 0, 0, 0, 0, 0, 16, 0, 16, 0]);
    assert_eq!(read_prices(&write_prices(&none)), Ok(none));
}

#[test]
fn the_largest() {
    let price = Price { word: vec![31; 64], fare: 1_000_000 };
    let mut most = PriceList { order: 0, letters: 32, prices: vec![price.clone(); 256] };
    assert_eq!(write_prices(&most).len(), 18_448);
    assert_eq!(read_prices(&write_prices(&most)), Ok(most.clone()));
    most.prices.push(price.clone());
    is_none(&write_prices(&most), "a 257th price");
    let long = Price { word: vec![31; 65], ..price };
    is_none(&write_prices(&PriceList { prices: vec![long], ..most }), "a word of 65 letters");
}

/// The only sound files that differ from this one in a single byte by one: its place and what is there.
const SOUND: [(usize, u8); 19] = [
    (2, 0), // the order, then the letters
    (4, 4),
    (20, 43), // the fares
    (20, 45),
    (21, 0),
    (21, 2),
    (22, 1),
    (28, 1),
    (28, 255),
    (29, 1),
    (29, 255),
    (30, 1),
    (36, 63),
    (37, 65),
    (38, 14),
    (40, 1), // the words
    (41, 0),
    (41, 2),
    (42, 1),
];

#[test]
fn every_byte_counts() {
    for at in 0..file().len() {
        for by in [1, 255] {
            let mut other = file();
            other[at] = other[at].wrapping_add(by);
            assert_eq!(read_prices(&other).is_ok(), SOUND.contains(&(at, other[at])), "byte {at} is {}", other[at]);
        }
    }
}

#[test]
fn other_faults() {
    let file = file();
    is_none(&[], "nothing");
    is_none(&file[..15], "no whole header");
    is_none(&file[..42], "a letter less");
    is_none(&[&file[..], &[0]].concat(), "a letter more");
    is_none(&write_sheet(&Sheet { order: 0, letters: 2, equations: vec![] }), "a sheet");
    is_none(&write_table(&Table { order: 0, letters: 2, cited: 0, lines: vec![] }), "a table");
    let mut other = file.clone();
    (other[18], other[34]) = (1, 2);
    is_none(&other, "lengths whose sum alone is right");
    (other[24], other[32]) = (1, 1);
    assert!(read_prices(&other).is_ok(), "the same letters, cut elsewhere");
}
