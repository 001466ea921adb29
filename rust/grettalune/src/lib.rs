//! Grettalune for Rust: the proved calls, with safe types around them.
//!
//! ```
//! use grettalune::{TABLE_ROOM, WORK_ROOM};
//!
//! fn main() -> Result<(), Box<dyn std::error::Error>> {
//!     // two letters, shortlex, the equation ab = ba
//!     let sheet = [1, 0, 0, 0, 2, 0, 1, 0, 0, 0, 0, 0, 20, 0, 24, 0, 0, 0, 2, 2, 0, 1, 1, 0];
//!     let (mut table, mut work) = (vec![0; TABLE_ROOM], vec![0; WORK_ROOM]);
//!     let length = grettalune::complete(&sheet, &mut table, &mut work)?;
//!     grettalune::check(&sheet, &table[..length])?;
//!     assert!(grettalune::same(&table[..length], &[1, 0], &[0, 1], 1000)?);
//!     Ok(())
//! }
//! ```
//!
//! A word is a slice of letters, 0 to n-1. A table is the bytes of a file in the house layout, which `docs/FORMAT.md` takes
//! apart. Every call takes every input: what it does not accept it refuses, by a number and a place.
//!
//! The archive is made by `tools/build`, before cargo is run.

#![warn(missing_docs)]

use std::cmp::Ordering;
use std::error::Error;
use std::fmt;

/// Why a call was refused: its number and its place. `docs/REFUSALS.md` has for each number the calls that give it, an input that gets it,
/// and what to do about it.
///
/// It is an error, so that `?` passes it on, and is told as a sentence behind number and place:
///
/// ```
/// use std::error::Error;
///
/// fn normal(table: &[u8], word: &[u8]) -> Result<Vec<u8>, Box<dyn Error>> {
///     let mut out = vec![0; grettalune::WORD_ROOM];
///     let reached = grettalune::normal(table, word, 1000, &mut out)?;
///     out.truncate(reached.length);
///     Ok(out)
/// }
///
/// // the table of ab = ba over two letters has no letter 2
/// let table = [2, 0, 0, 0, 2, 0, 1, 0, 1, 0, 1, 0, 28, 0, 32, 0, 0, 0, 2, 2, 1, 0, 1, 0, 0, 0, 1, 0, 1, 0, 0, 1];
/// let told = normal(&table, &[2]).unwrap_err().to_string();
/// assert_eq!(told, "refused 4 at 0: a word has over 64 letters or a letter that is none; or a searched word over 128 letters");
/// ```
#[derive(Clone, Copy, Debug, PartialEq, Eq)]
pub struct Refusal {
    /// 1 layout, 2 headers, 3 room, 4 word, 5 allowance, 6 length, 7 to 11 completion, 12 to 16 the check.
    pub number: u32,
    /// The line or the equation at fault in 12 to 16, else 0.
    pub place: u32,
}

/// What each number says, P being the place, from 1 on.
const SAID: [&str; 16] = [
    "a file is not in the layout or of another kind; or order, letters or lent rules out of range",
    "table and sheet differ in order, letters or number of equations",
    "an output or the work buffer is below its size",
    "a word has over 64 letters or a letter that is none; or a searched word over 128 letters",
    "a normal word takes more replacements than are allowed",
    "a word would pass 128 letters on the way to its normal word",
    "a side of a new line would pass 32 letters",
    "a line more than 256 would be made",
    "the lineages of all lines would pass 8,192 steps",
    "an entry more than 2,048 would wait",
    "neither of two different words is greater",
    "the chain of line P does not lead from its left to its right word",
    "the left word of line P is not greater than its right word",
    "the left word of line P holds the left word of another standing line",
    "the sides of equation P have different normal words",
    "the reducts of a critical pair of line P have different normal words",
];

impl fmt::Display for Refusal {
    fn fmt(&self, f: &mut fmt::Formatter) -> fmt::Result {
        let said = self.number.checked_sub(1).and_then(|k| SAID.get(k as usize)).unwrap_or(&"a number that is not known");
        write!(f, "refused {} at {}: {}", self.number, self.place, said.replace('P', &self.place.to_string()))
    }
}

impl Error for Refusal {}

/// A word that was written to the start of an output.
#[derive(Clone, Copy, Debug, PartialEq, Eq)]
pub struct Reached {
    /// How many letters it has.
    pub length: usize,
    /// How many replacements led to it.
    pub count: usize,
}

/// The lengths of the words that the pair call wrote: the peak to 0, its reducts to 64 and 128.
#[derive(Clone, Copy, Debug, PartialEq, Eq)]
pub struct Lengths {
    /// The peak's.
    pub peak: usize,
    /// The first reduct's.
    pub first: usize,
    /// The second reduct's.
    pub second: usize,
}

/// A standing rule as it is lent for [`search`]: its left letters start at `offset` in the words area, its right letters follow.
#[repr(C)]
#[derive(Clone, Copy, Debug, PartialEq, Eq)]
pub struct Rule {
    /// Where the left letters start.
    pub offset: u16,
    /// How many left letters there are, 0 to 32.
    pub left: u8,
    /// How many right letters there are, 0 to 32.
    pub right: u8,
    /// The line's number.
    pub line: u16,
}

/// The replacement that is due.
#[derive(Clone, Copy, Debug, PartialEq, Eq)]
pub struct Due {
    /// Its place in the word.
    pub place: usize,
    /// The number of its line.
    pub line: usize,
}

/// The size of the output of [`one`] and [`normal`].
pub const WORD_ROOM: usize = 128;

/// The size of the output of [`pair`].
pub const PAIR_ROOM: usize = 192;

/// The size of the output of [`complete`]: the largest table.
pub const TABLE_ROOM: usize = 51_216;

/// The size of the work buffer of [`complete`].
pub const WORK_ROOM: usize = 65_536;

/// The size of the output of [`list`]: a bound on the text, a title of 23 bytes and 256 lines of at most 74. The longest text has
/// 18,857 bytes, since the lines 0 to 99 have shorter numbers.
pub const TEXT_ROOM: usize = 18_967;

/// The largest sheet. A longer file is none, and is refused as 1.
pub const SHEET_MOST: usize = 4_368;

#[repr(C)]
struct Answer {
    refusal: u32,
    place: u32,
    a: u32,
    b: u32,
    c: u32,
    d: u32,
}

extern "C" {
    fn grettalune_compare(order: u16, letters: u16, u: *const u8, un: usize, v: *const u8, vn: usize) -> Answer;
    fn grettalune_search(rules: *const Rule, rn: usize, area: *const u8, an: usize, word: *const u8, wn: usize) -> Answer;
    fn grettalune_one(table: *const u8, tn: usize, word: *const u8, wn: usize, out: *mut u8, on: usize) -> Answer;
    fn grettalune_normal(table: *const u8, tn: usize, word: *const u8, wn: usize, allowance: u16, out: *mut u8, on: usize) -> Answer;
    fn grettalune_pair(table: *const u8, tn: usize, n: u32, m: u32, place: u32, out: *mut u8, on: usize) -> Answer;
    fn grettalune_complete(sheet: *const u8, sn: usize, out: *mut u8, on: usize, work: *mut u8, wn: usize) -> Answer;
    fn grettalune_check(sheet: *const u8, sn: usize, table: *const u8, tn: usize) -> Answer;
    fn grettalune_same(table: *const u8, tn: usize, u: *const u8, un: usize, v: *const u8, vn: usize, allowance: u16) -> Answer;
    fn grettalune_list(table: *const u8, tn: usize, out: *mut u8, on: usize) -> Answer;
}

impl Answer {
    /// The values, unless the call was refused.
    fn values(self) -> Result<[usize; 4], Refusal> {
        if self.refusal == 0 {
            Ok([self.a, self.b, self.c, self.d].map(|v| v as usize))
        } else {
            Err(Refusal { number: self.refusal, place: self.place })
        }
    }

    fn reached(self) -> Result<Reached, Refusal> {
        self.values().map(|[length, count, _, _]| Reached { length, count })
    }
}

/// Compares two words in an order (0 shortlex, 1 kachinuki) over `letters` letters.
///
/// Refusals: 1 the order or the number of letters, 4 a word over 64 letters or with a letter out of range.
///
/// ```
/// use std::cmp::Ordering;
/// assert_eq!(grettalune::compare(0, 2, &[1], &[0, 0]), Ok(Ordering::Less));
/// assert_eq!(grettalune::compare(1, 2, &[0, 0, 0, 0], &[1]), Ok(Ordering::Less));
/// assert_eq!(grettalune::compare(2, 2, &[], &[]).unwrap_err().number, 1);
/// ```
pub fn compare(order: u16, letters: u16, u: &[u8], v: &[u8]) -> Result<Ordering, Refusal> {
    // SAFETY: each slice is lent with its own length, and the call only reads them.
    let answer = unsafe { grettalune_compare(order, letters, u.as_ptr(), u.len(), v.as_ptr(), v.len()) };
    answer.values().map(|values| values[0].cmp(&1))
}

/// The replacement due to lent rules: the earliest place where a left word stands, and there the lowest line. Bytes are compared as
/// they are.
///
/// Refusals: 1 a rule with a side over 32 letters or outside the area, or line numbers that do not rise; 4 a word over 128 letters.
///
/// ```
/// use grettalune::{Due, Rule};
/// // over the area b a a b: line 7, ba to ab
/// let rules = [Rule { offset: 0, left: 2, right: 2, line: 7 }];
/// assert_eq!(grettalune::search(&rules, &[1, 0, 0, 1], &[0, 1, 0]), Ok(Some(Due { place: 1, line: 7 })));
/// assert_eq!(grettalune::search(&rules, &[1, 0, 0, 1], &[0, 1]), Ok(None));
/// assert_eq!(grettalune::search(&rules, &[1, 0], &[0, 1]).unwrap_err().number, 1);
/// ```
pub fn search(rules: &[Rule], area: &[u8], word: &[u8]) -> Result<Option<Due>, Refusal> {
    // SAFETY: each slice is lent with its own length, a rule has the layout of the C struct, and the call only reads them.
    let answer = unsafe { grettalune_search(rules.as_ptr(), rules.len(), area.as_ptr(), area.len(), word.as_ptr(), word.len()) };
    let [found, place, line, _] = answer.values()?;
    Ok((found == 1).then_some(Due { place, line }))
}

/// One replacement in a word: the earliest place, and there the lowest line. The word goes to the start of `out`.
///
/// Refusals: 3 an output under [`WORD_ROOM`] bytes, 1 not a table, 4 the word. A refusal writes nothing.
///
/// ```
/// // the table of ab = ba, shortlex: ba to ab
/// let table = [2, 0, 0, 0, 2, 0, 1, 0, 1, 0, 1, 0, 28, 0, 32, 0, 0, 0, 2, 2, 1, 0, 1, 0, 0, 0, 1, 0, 1, 0, 0, 1];
/// let mut out = [9; 128];
/// let reached = grettalune::one(&table, &[1, 0, 0], &mut out).unwrap();
/// assert_eq!((reached.length, reached.count), (3, 1));
/// assert_eq!(out[..4], [0, 1, 0, 9]);
/// ```
pub fn one(table: &[u8], word: &[u8], out: &mut [u8]) -> Result<Reached, Refusal> {
    // SAFETY: each slice is lent with its own length; only `out` is written, and it is lent for that.
    let answer = unsafe { grettalune_one(table.as_ptr(), table.len(), word.as_ptr(), word.len(), out.as_mut_ptr(), out.len()) };
    answer.reached()
}

/// The normal word of a word, with at most `allowance` replacements. It goes to the start of `out`.
///
/// Refusals: 3 an output under [`WORD_ROOM`] bytes, 1 not a table, 4 the word, 5 the allowance is used up, 6 a word would pass
/// 128 letters. A refusal writes nothing.
///
/// ```
/// let table = [2, 0, 0, 0, 2, 0, 1, 0, 1, 0, 1, 0, 28, 0, 32, 0, 0, 0, 2, 2, 1, 0, 1, 0, 0, 0, 1, 0, 1, 0, 0, 1];
/// let mut out = [9; 128];
/// let reached = grettalune::normal(&table, &[1, 0, 0], 10, &mut out).unwrap();
/// assert_eq!((reached.length, reached.count), (3, 2));
/// assert_eq!(out[..4], [0, 0, 1, 9]);
/// assert_eq!(grettalune::normal(&table, &[1, 0, 0], 1, &mut out).unwrap_err().number, 5);
/// ```
pub fn normal(table: &[u8], word: &[u8], allowance: u16, out: &mut [u8]) -> Result<Reached, Refusal> {
    // SAFETY: as in `one`.
    let answer =
        unsafe { grettalune_normal(table.as_ptr(), table.len(), word.as_ptr(), word.len(), allowance, out.as_mut_ptr(), out.len()) };
    answer.reached()
}

/// The critical pair of the lines `n` and `m` at a place of `n`'s left word, or `None`, which writes nothing.
///
/// Refusals: 3 an output under [`PAIR_ROOM`] bytes, 1 not a table. A refusal writes nothing.
///
/// ```
/// // one line, aba to the empty word, which overlaps itself at 2
/// let table = [2, 0, 0, 0, 2, 0, 1, 0, 1, 0, 0, 0, 24, 0, 27, 0, 0, 0, 3, 0, 0, 0, 1, 0, 0, 1, 0];
/// let mut out = [9; 192];
/// let lengths = grettalune::pair(&table, 0, 0, 2, &mut out).unwrap().unwrap();
/// assert_eq!(out[..lengths.peak], [0, 1, 0, 1, 0]);
/// assert_eq!(out[64..64 + lengths.first], [1, 0]);
/// assert_eq!(out[128..128 + lengths.second], [0, 1]);
/// assert_eq!(grettalune::pair(&table, 0, 0, 1, &mut out), Ok(None));
/// ```
pub fn pair(table: &[u8], n: u32, m: u32, place: u32, out: &mut [u8]) -> Result<Option<Lengths>, Refusal> {
    // SAFETY: as in `one`.
    let answer = unsafe { grettalune_pair(table.as_ptr(), table.len(), n, m, place, out.as_mut_ptr(), out.len()) };
    let [peak, first, second, _] = answer.values()?;
    // a pair's place lies inside a left word, so that no peak is empty
    Ok((peak > 0).then_some(Lengths { peak, first, second }))
}

/// Completes a sheet to a table that [`check`] accepts for it, and tells the table's length. The table goes to the start of `out`.
///
/// `work` may hold anything. After refusal 3 it is as it was; after any other answer its first [`WORK_ROOM`] bytes are zero.
///
/// Refusals: 3 an output under [`TABLE_ROOM`] or a work buffer under [`WORK_ROOM`] bytes, 1 not a sheet, 5 and 6 a normal word needs
/// more than 4,096 replacements or 128 letters, 7 a side over 32 letters, 8 more than 256 lines, 9 more than 8,192 steps of lineage,
/// 10 more than 2,048 entries waiting, 11 neither word is greater, which neither order gives; at the end the closing check's refusal. A
/// refusal writes nothing to `out`.
///
/// ```
/// use grettalune::{TABLE_ROOM, WORK_ROOM};
/// // two letters, shortlex, the equation ab = ba
/// let sheet = [1, 0, 0, 0, 2, 0, 1, 0, 0, 0, 0, 0, 20, 0, 24, 0, 0, 0, 2, 2, 0, 1, 1, 0];
/// let (mut out, mut work) = (vec![9; TABLE_ROOM], vec![9; WORK_ROOM]);
/// let length = grettalune::complete(&sheet, &mut out, &mut work).unwrap();
/// assert_eq!(length, 32);
/// assert_eq!(grettalune::check(&sheet, &out[..length]), Ok(()));
/// assert_eq!((out[length], work[0]), (9, 0));
/// assert_eq!(grettalune::complete(&sheet[1..], &mut out, &mut work).unwrap_err().number, 1);
/// ```
pub fn complete(sheet: &[u8], out: &mut [u8], work: &mut [u8]) -> Result<usize, Refusal> {
    // SAFETY: each slice is lent with its own length; `out` and `work` are lent for writing and lie apart.
    let answer =
        unsafe { grettalune_complete(sheet.as_ptr(), sheet.len(), out.as_mut_ptr(), out.len(), work.as_mut_ptr(), work.len()) };
    answer.values().map(|values| values[0])
}

/// Checks a table against a sheet: the six conditions, in their order.
///
/// Refusals: 1 a file breaks the layout, the sheet's first; 2 the headers disagree; 12 and 13 with the lowest line at fault: its
/// chain, its direction; 14 with the lowest standing line whose left word holds another's, of two equal ones the lower; 15 with the
/// equation; 16 with the first line of the critical pair; 5 and 6 a normal word needs more than 4,096 replacements or 128 letters.
///
/// ```
/// let sheet = [1, 0, 0, 0, 2, 0, 1, 0, 0, 0, 0, 0, 20, 0, 24, 0, 0, 0, 2, 2, 0, 1, 1, 0];
/// let mut table = [2, 0, 0, 0, 2, 0, 1, 0, 1, 0, 1, 0, 28, 0, 32, 0, 0, 0, 2, 2, 1, 0, 1, 0, 0, 0, 1, 0, 1, 0, 0, 1];
/// assert_eq!(grettalune::check(&sheet, &table), Ok(()));
/// table[26] = 0; // the step reads the equation the other way round
/// assert_eq!(grettalune::check(&sheet, &table).unwrap_err().number, 12);
/// ```
pub fn check(sheet: &[u8], table: &[u8]) -> Result<(), Refusal> {
    // SAFETY: each slice is lent with its own length, and the call only reads them.
    let answer = unsafe { grettalune_check(sheet.as_ptr(), sheet.len(), table.as_ptr(), table.len()) };
    answer.values().map(|_| ())
}

/// Yes or no to two words being the same fare: to their normal words being equal, each within the allowance.
///
/// Refusals: 1 not a table, 4 a word, 5 and 6 as for [`normal`].
///
/// ```
/// let table = [2, 0, 0, 0, 2, 0, 1, 0, 1, 0, 1, 0, 28, 0, 32, 0, 0, 0, 2, 2, 1, 0, 1, 0, 0, 0, 1, 0, 1, 0, 0, 1];
/// assert_eq!(grettalune::same(&table, &[1, 0], &[0, 1], 10), Ok(true));
/// assert_eq!(grettalune::same(&table, &[1, 0], &[0, 0], 10), Ok(false));
/// assert_eq!(grettalune::same(&table, &[1, 0], &[0, 1], 0).unwrap_err().number, 5);
/// ```
pub fn same(table: &[u8], u: &[u8], v: &[u8], allowance: u16) -> Result<bool, Refusal> {
    // SAFETY: each slice is lent with its own length, and the call only reads them.
    let answer = unsafe { grettalune_same(table.as_ptr(), table.len(), u.as_ptr(), u.len(), v.as_ptr(), v.len(), allowance) };
    answer.values().map(|values| values[0] == 1)
}

/// Writes a table as text to the start of `out`, and tells its length: `ok R rules L lines`, then each standing line.
///
/// Refusals: 3 an output under [`TEXT_ROOM`] bytes, 1 not a table. A refusal writes nothing.
///
/// ```
/// let table = [2, 0, 0, 0, 2, 0, 1, 0, 1, 0, 1, 0, 28, 0, 32, 0, 0, 0, 2, 2, 1, 0, 1, 0, 0, 0, 1, 0, 1, 0, 0, 1];
/// let mut out = vec![9; grettalune::TEXT_ROOM];
/// let length = grettalune::list(&table, &mut out).unwrap();
/// assert_eq!(&out[..length], b"ok 1 rules 1 lines\n0: ba -> ab\n");
/// assert_eq!(grettalune::list(&table, &mut out[1..]).unwrap_err().number, 3);
/// ```
pub fn list(table: &[u8], out: &mut [u8]) -> Result<usize, Refusal> {
    // SAFETY: as in `one`.
    let answer = unsafe { grettalune_list(table.as_ptr(), table.len(), out.as_mut_ptr(), out.len()) };
    answer.values().map(|values| values[0])
}
