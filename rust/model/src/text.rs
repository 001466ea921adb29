//! A sheet as text: an order, the letters from the least to the greatest, and equations.
//!
//! ```text
//! # a comment goes from a hash to the end of its line
//! order shortlex
//! letters a b
//! ab = ba
//! aa = -
//! ```
//!
//! A price list as text has prices in place of the equations, each a word and its fare in minor units:
//!
//! ```text
//! order shortlex
//! letters a b
//! ab = 300
//! b = 120
//! ```
//!
//! There is one line `order` and one line `letters`, and the letters are named before the first equation or price. A letter is one
//! character, but not `-`, which is the empty word, nor `=` nor `#`. A fare is 0 to 1000000, in digits alone, and a word that is written
//! twice has one fare. What is said in another way is refused, with its line and a sentence.

mod reader;

use crate::layout::Sheet;
use crate::prices::{Price, PriceList, FARE_MOST, PRICES_MOST, PRICE_WORD_MOST};
use crate::Word;
pub use reader::Fault;
use reader::{Form, Reader};

/// A sheet, and the names of its letters.
#[derive(Debug, PartialEq, Eq)]
pub struct Named {
    pub letters: Vec<char>,
    pub sheet: Sheet,
}

const SHEET: Form<(Word, Word)> = Form {
    whole: "sheet",
    entry: "equation",
    article: "an",
    behind: "a word",
    example: "ab = ba",
    between: "the sides of an equation",
    bytes: "go to the program `complete` as they are",
    most: 64,
    read: |reader, left, right| Ok((reader.word(left, "side", 32)?, reader.word(right, "side", 32)?)),
};

const PRICES: Form<Price> = Form {
    whole: "price list",
    entry: "price",
    article: "a",
    behind: "a fare",
    example: "ab = 300",
    between: "a word and its fare",
    bytes: "go to the call as they are",
    most: PRICES_MOST,
    read: price,
};

/// Reads a text.
pub fn read(text: &str) -> Result<Named, Fault> {
    let said = SHEET.text(text)?;
    let sheet = Sheet { order: said.order, letters: said.letters.len() as u16, equations: said.entries };
    Ok(Named { letters: said.letters, sheet })
}

/// The sheet of a text.
pub fn sheet(text: &str) -> Result<Sheet, Fault> {
    read(text).map(|named| named.sheet)
}

/// The sheet of a text that is given as bytes.
pub fn sheet_of_bytes(bytes: &[u8]) -> Result<Sheet, Fault> {
    SHEET.text_of(bytes).and_then(sheet)
}

/// The price list of a text.
pub fn prices(text: &str) -> Result<PriceList, Fault> {
    let said = PRICES.text(text)?;
    Ok(PriceList { order: said.order, letters: said.letters.len() as u16, prices: said.entries })
}

/// The price list of a text that is given as bytes.
pub fn prices_of_bytes(bytes: &[u8]) -> Result<PriceList, Fault> {
    PRICES.text_of(bytes).and_then(prices)
}

fn price(reader: &Reader<Price>, word: &str, fare: &str) -> Result<Price, String> {
    let price = Price { word: reader.word(word, "price word", PRICE_WORD_MOST)?, fare: fare_of(fare)? };
    match reader.entries.iter().find(|p| p.word == price.word && p.fare != price.fare) {
        Some(other) => Err(format!("a second fare for {word}, which costs {} already", other.fare)),
        None => Ok(price),
    }
}

/// A fare, each in one way.
fn fare_of(text: &str) -> Result<u32, String> {
    let fare = text.parse().ok().filter(|fare: &u32| *fare <= FARE_MOST && fare.to_string() == text);
    fare.ok_or_else(|| format!("{text} is no fare; one is 0 to {FARE_MOST} in minor units, in digits alone"))
}
