//! Document 01 as a plain program, for comparison with the library: every call of the document, written from it alone.
//!
//! Two things are not in the document: listing as a call on a table, with its output of 18,967 bytes (`calls::list`), since there the
//! listing is what the program prints; and sheets and price lists as text (`text`), which only the tools here read.
//!
//! Nothing here is meant to be fast. An answer is up to four numbers, a refusal is a number and a place.

pub mod calls;
pub mod checking;
pub mod completing;
pub mod layout;
pub mod listing;
pub mod orders;
pub mod prices;
pub mod ranking;
pub mod rewriting;
pub mod text;

/// A word: its letters.
pub type Word = Vec<u8>;

/// A refusal: its number and its place.
#[derive(Clone, Copy, Debug, PartialEq, Eq)]
pub struct Refusal {
    pub number: u32,
    pub place: u32,
}

/// A refusal with a place.
pub fn refused<T>(number: u32, place: usize) -> Result<T, Refusal> {
    Err(Refusal { number, place: place as u32 })
}
