//! Price files, read from and written to their bytes.

use crate::layout::{header, push, put_header, u16_at, HEADER};
use crate::{refused, Refusal, Word};

/// The bytes of a price file's record.
pub const PRICE_RECORD: usize = 8;

/// The most prices of a list.
pub const PRICES_MOST: usize = 256;

/// The most letters of a price word.
pub const PRICE_WORD_MOST: usize = 64;

/// The highest fare, in minor units.
pub const FARE_MOST: u32 = 1_000_000;

/// A word and its fare.
#[derive(Clone, Debug, PartialEq, Eq)]
pub struct Price {
    pub word: Word,
    pub fare: u32,
}

/// A price list: its order's code, its letters, its prices.
#[derive(Clone, Debug, PartialEq, Eq)]
pub struct PriceList {
    pub order: u16,
    pub letters: u16,
    pub prices: Vec<Price>,
}

/// The price of the record at the front of `record`, whose letters start at `at` in the words area.
fn price_of(record: &[u8], words: &[u8], at: usize) -> Option<Price> {
    let length = record[2] as usize;
    let fare = u32::from_le_bytes([record[4], record[5], record[6], record[7]]);
    let fits =
        u16_at(record, 0) == at && length <= PRICE_WORD_MOST && at + length <= words.len() && record[3] == 0 && fare <= FARE_MOST;
    fits.then(|| Price { word: words[at..at + length].to_vec(), fare })
}

fn prices_of(b: &[u8]) -> Option<PriceList> {
    let h = header(b, 3, PRICE_RECORD)?;
    let words = &b[h[6]..];
    let mut prices: Vec<Price> = Vec::new();
    let mut at = 0;
    for j in 0..h[3] {
        let price = price_of(&b[HEADER + PRICE_RECORD * j..], words, at)?;
        at += price.word.len();
        prices.push(price);
    }
    let fits = at == words.len() && words.iter().all(|&a| (a as usize) < h[2]);
    fits.then_some(PriceList { order: h[1] as u16, letters: h[2] as u16, prices })
}

/// Reads a price file; another file is refusal 1.
pub fn read_prices(b: &[u8]) -> Result<PriceList, Refusal> {
    prices_of(b).map_or_else(|| refused(1, 0), Ok)
}

/// The bytes of a price list.
pub fn write_prices(list: &PriceList) -> Vec<u8> {
    let letters: usize = list.prices.iter().map(|p| p.word.len()).sum();
    let n = list.prices.len();
    let mut b = Vec::new();
    put_header(&mut b, [3, list.order as usize, list.letters as usize, n, 0, 0], HEADER + PRICE_RECORD * n, letters);
    let mut at = 0;
    for p in &list.prices {
        push(&mut b, at);
        b.extend([p.word.len() as u8, 0]);
        b.extend(p.fare.to_le_bytes());
        at += p.word.len();
    }
    list.prices.iter().for_each(|p| b.extend(&p.word));
    b
}
