//! Safe Rust over Kenupatun, a proved rebuild of the core of the crate `textwrap`.
//!
//! Kenupatun is written in Rattle and proved: what each function answers is settled by
//! a definition, on every input. This crate calls it through its C interface
//! (`include/kenupatun.h`) and adds nothing to what it answers.
//!
//! Each function comes in two forms. The plain one gives the [`Answer`] as it comes back: a
//! number, a place and a count ([`word_of`] a word besides). The other bears the name that the crate `textwrap` gives it and
//! answers a [`Result`].
//!
//! | plain | as in `textwrap` | what it does |
//! |---|---|---|
//! | [`measure`] | [`display_width`] | the columns of a text |
//! | [`words_into`] | [`find_words`] | the words of a text |
//! | [`word_of`] | [`word_from`] | a whole text as one word |
//! | [`break_word_into`] | [`break_apart`] | one word, broken into pieces |
//! | [`break_words_into`] | [`break_words`] | the words of a text, the wide ones broken |
//! | [`first_fit_into`] | [`wrap_first_fit`] | fragments in lines, each line filled as far as it goes |
//! | [`least_cost_into`] | [`wrap_optimal_fit`] | fragments in lines, at the least cost |
//! | [`fill()`] | [`fill_inplace`] | a text filled in place: newlines for spaces |
//! | [`check()`] | (none there: [`check_filled`]) | whether a text is another one, well broken |
//!
//! A text is a slice of bytes, because Kenupatun tests by itself that it is UTF-8. A plain form
//! whose name ends in `_into` takes lists as bytes, and writes into those that it is lent for that.
//!
//! ```
//! use kenupatun::{break_words, display_width, measure, Answer, Refusal};
//!
//! assert_eq!(display_width("Café Plain".as_bytes()), Ok(10));
//! assert_eq!(display_width("\u{1b}[31mCafé Rouge\u{1b}[0m".as_bytes()), Ok(10));
//! assert_eq!(measure("你好".as_bytes()), Answer { number: 0, place: 0, count: 4 });
//!
//! let text = b"Hello  world!";
//! let pieces = break_words(text, 5)?;
//! let contents: Vec<&[u8]> = pieces.iter().map(|piece| piece.content(text)).collect();
//! assert_eq!(contents, [&b"Hello"[..], b"world", b"!"]);
//!
//! // The third byte starts no character.
//! let refused = display_width(b"ab\xFF").unwrap_err();
//! assert_eq!(refused, Refusal { number: 2, place: 2 });
//! assert_eq!(refused.to_string(), "the text is not UTF-8: no character starts at byte 2");
//! # Ok::<(), Refusal>(())
//! ```
//!
//! Building needs the archive `libkenupatun.a`, and so a program for x86-64: see `build.rs`.

#![warn(missing_docs)]

mod check;
mod fill;
mod layouts;
mod raw;
mod words;

use std::error::Error;
use std::fmt;

pub use check::{check, check_filled};
pub use fill::{fill, fill_inplace};
pub use layouts::{first_fit_into, least_cost_into, wrap_first_fit, wrap_optimal_fit, Fragment, Penalties};
pub use words::{
    break_apart, break_word_into, break_words, break_words_into, find_words, word_from, word_of, words_into, Word,
    WordAnswer,
};

/// A text has at most this many bytes.
pub const TEXT_MOST: usize = 60_000;

/// A line width is at most this.
pub const WIDTH_MOST: u32 = 255;

/// A layout has at most this many fragments.
pub const FRAGMENTS_MOST: usize = 4_096;

/// A penalty is at most this.
pub const PENALTY_MOST: u32 = 1_000_000;

/// What every function of Kenupatun answers.
#[repr(C)]
#[derive(Clone, Copy, Debug, PartialEq, Eq, Hash)]
pub struct Answer {
    /// 0: done. Any other: refused, and the number says why (see [`Refusal`]).
    pub number: u32,
    /// 0 when done. When refused, where the fault is.
    pub place: u64,
    /// What was asked for, such as the columns of a text. 0 when refused.
    pub count: u64,
}

impl Answer {
    /// The count, or why there is none.
    pub fn result(self) -> Result<usize, Refusal> {
        match self.number {
            0 => Ok(self.count as usize),
            number => Err(Refusal { number, place: self.place as usize }),
        }
    }
}

/// Why a function of Kenupatun refused its input. It has changed nothing that it was lent, but for 8,
/// which sets the scratch of [`least_cost_into`] to zero.
#[derive(Clone, Copy, Debug, PartialEq, Eq, Hash)]
pub struct Refusal {
    /// The reason, never 0. [`Display`](fmt::Display) says it in words.
    pub number: u32,
    /// Where the fault is. What it counts, bytes or places of a list, depends on the number.
    pub place: usize,
}

impl fmt::Display for Refusal {
    fn fmt(&self, f: &mut fmt::Formatter<'_>) -> fmt::Result {
        let place = self.place;
        match self.number {
            1 => write!(f, "the text has {place} bytes, more than {TEXT_MOST}"),
            2 => write!(f, "the text is not UTF-8: no character starts at byte {place}"),
            3 => write!(f, "the line width at index {place} exceeds {WIDTH_MOST}"),
            4 => write!(f, "there are more than {FRAGMENTS_MOST} fragments"),
            5 => write!(f, "the three lists of fragments differ in length"),
            6 => write!(f, "the penalty at index {place} exceeds {PENALTY_MOST}"),
            7 => write!(f, "a list is too short: {place} places are needed"),
            8 => write!(f, "the least cost exceeds 2^53"),
            9 => write!(f, "the two texts differ in length"),
            10 => write!(f, "the change of byte {place} is not an allowed break"),
            11 => write!(f, "the line at byte {place} has two or more words and is too wide"),
            12 => write!(f, "the input line at byte {place} has more lines than it needs"),
            13 => write!(f, "a record starts with a wrong mark"),
            14 => write!(f, "the input ends inside a record"),
            number => write!(f, "refusal {number} at place {place}"),
        }
    }
}

impl Error for Refusal {}

/// The columns of a text, as an [`Answer`]. Refusals: 1, then 2.
///
/// A character below U+1100 is 1 column wide, any other 2. An escape, from ESC to its end,
/// has no columns; one that never ends runs to the end of the text.
///
/// ```
/// use kenupatun::{measure, Answer};
///
/// assert_eq!(measure(b"ab \x1b]cd ef"), Answer { number: 0, place: 0, count: 3 });
/// assert_eq!(measure(&[b'a'; 60_001]), Answer { number: 1, place: 60_001, count: 0 });
/// ```
pub fn measure(text: &[u8]) -> Answer {
    // SAFETY: pointer and length are those of a live slice, and nothing is written through them.
    unsafe { raw::kenupatun_measure(text.as_ptr(), text.len()) }
}

/// The columns of a text, or why it is refused: [`measure`] as a [`Result`].
///
/// ```
/// use kenupatun::display_width;
///
/// let link = b"\x1b]8;;http://example.com\x1b\\This is a link\x1b]8;;\x1b\\";
/// assert_eq!(display_width(link), Ok(14));
/// ```
pub fn display_width(text: &[u8]) -> Result<usize, Refusal> {
    measure(text).result()
}
