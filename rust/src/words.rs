//! The words of a text, and words broken into pieces.

use std::ops::Range;

use crate::{raw, Answer, Refusal, TEXT_MOST};

/// The bytes of one number in a list.
const NUMBER: usize = 4;

/// A word, or a piece of one: where it stands in its text, and its columns.
#[derive(Clone, Copy, Debug, PartialEq, Eq, Hash)]
pub struct Word {
    /// The offset of its first byte.
    pub start: usize,
    /// The offset after the last byte of its content, where its spaces start.
    pub end: usize,
    /// How many spaces follow its content.
    pub white: usize,
    /// The columns of its content.
    pub width: usize,
}

impl Word {
    /// Its bytes in the text in which it was found.
    ///
    /// Panics where the text is another one and too short.
    pub fn content<'a>(&self, text: &'a [u8]) -> &'a [u8] {
        &text[self.start..self.end]
    }

    /// Where it stands with the spaces that follow it.
    ///
    /// ```
    /// use kenupatun::find_words;
    ///
    /// let text = b"  one   two";
    /// let words = find_words(text)?;
    /// let whole: Vec<&[u8]> = words.iter().map(|word| &text[word.range()]).collect();
    /// assert_eq!(whole, [&b"  "[..], b"one   ", b"two"]);
    /// # Ok::<(), kenupatun::Refusal>(())
    /// ```
    pub fn range(&self) -> Range<usize> {
        self.start..self.end + self.white
    }
}

/// An [`Answer`] with a word, as it comes back from [`word_of`].
#[repr(C)]
#[derive(Clone, Copy, Debug, PartialEq, Eq, Hash)]
pub struct WordAnswer {
    /// As in [`Answer`].
    pub number: u32,
    /// As in [`Answer`].
    pub place: u64,
    /// 1 when done, for one word. 0 when refused.
    pub count: u64,
    /// As in [`Word`]; 0 when refused.
    pub start: u64,
    /// As in [`Word`]; 0 when refused.
    pub end: u64,
    /// As in [`Word`]; 0 when refused.
    pub white: u64,
    /// As in [`Word`]; 0 when refused.
    pub width: u64,
}

impl WordAnswer {
    /// Its number, place and count.
    pub fn answer(self) -> Answer {
        Answer { number: self.number, place: self.place, count: self.count }
    }

    /// The word, or why there is none.
    pub fn result(self) -> Result<Word, Refusal> {
        self.answer().result()?;
        Ok(Word {
            start: self.start as usize,
            end: self.end as usize,
            white: self.white as usize,
            width: self.width as usize,
        })
    }
}

/// The words of a text, as an [`Answer`] that counts them. Refusals: 1, 2, then 7.
///
/// A word ends where a space is followed by a character that is none; only 20 is a space, also
/// inside an escape. Spaces at the start of the text are a word with empty content. The i-th word
/// has the i-th place of each list, with the numbers of [`Word`].
///
/// A place is four bytes, the high one first. Places past the last word, and the bytes left over
/// at the end of a list, keep what they held. The shortest of the lists decides whether there are
/// places enough (7 says how many are needed); a text of n bytes has at most n / 2 + 1 words.
///
/// ```
/// use kenupatun::{words_into, Answer};
///
/// let (mut starts, mut ends, mut whites, mut widths) = ([0; 12], [0; 12], [0; 12], [0; 12]);
/// let answer = words_into(b"ab \x1b]cd ef", &mut starts, &mut ends, &mut whites, &mut widths);
/// assert_eq!(answer, Answer { number: 0, place: 0, count: 3 });
/// assert_eq!(starts, [0, 0, 0, 0, 0, 0, 0, 3, 0, 0, 0, 8]);
/// assert_eq!(widths, [0, 0, 0, 2, 0, 0, 0, 0, 0, 0, 0, 2]);
///
/// // Three words need three places.
/// let answer = words_into(b"ab \x1b]cd ef", &mut starts, &mut ends[..11], &mut whites, &mut widths);
/// assert_eq!(answer, Answer { number: 7, place: 3, count: 0 });
/// ```
pub fn words_into(text: &[u8], starts: &mut [u8], ends: &mut [u8], whites: &mut [u8], widths: &mut [u8]) -> Answer {
    // SAFETY: each pointer and its length are those of a live slice, and those that are written through
    // are lent to us alone.
    unsafe {
        raw::kenupatun_words(
            text.as_ptr(),
            text.len(),
            starts.as_mut_ptr(),
            starts.len(),
            ends.as_mut_ptr(),
            ends.len(),
            whites.as_mut_ptr(),
            whites.len(),
            widths.as_mut_ptr(),
            widths.len(),
        )
    }
}

/// A whole text as one word, as a [`WordAnswer`]. Refusals: 1, then 2.
///
/// The spaces at the end of the text are the word's whitespace, all before them, also other
/// spaces, its content, which may be empty.
///
/// ```
/// use kenupatun::{word_of, WordAnswer};
///
/// let made = WordAnswer { number: 0, place: 0, count: 1, start: 0, end: 8, white: 2, width: 8 };
/// assert_eq!(word_of(b" foo bar  "), made);
/// let refused = WordAnswer { number: 2, place: 1, count: 0, start: 0, end: 0, white: 0, width: 0 };
/// assert_eq!(word_of(b"a\xFF"), refused);
/// ```
pub fn word_of(text: &[u8]) -> WordAnswer {
    // SAFETY: pointer and length are those of a live slice, and nothing is written through them.
    unsafe { raw::kenupatun_word_from(text.as_ptr(), text.len()) }
}

/// A whole text as one word, or why it is refused: [`word_of`] as a [`Result`], the `Word::from`
/// of `textwrap`.
///
/// ```
/// use kenupatun::{word_from, Word};
///
/// assert_eq!(word_from("Café  ".as_bytes()), Ok(Word { start: 0, end: 5, white: 2, width: 4 }));
/// assert_eq!(word_from(b"   "), Ok(Word { start: 0, end: 0, white: 3, width: 0 }));
/// ```
pub fn word_from(text: &[u8]) -> Result<Word, Refusal> {
    word_of(text).result()
}

/// One word broken into pieces of at most `width` columns, as an [`Answer`] that counts them.
/// Refusals: 1, 2, 3, then 7.
///
/// The whole text is the word, as [`word_of`] takes it. A character that would
/// make the current piece wider than `width` starts a new one, unless the current one has no
/// columns yet. An escape stays whole, with the piece in which it was met. The last piece has the
/// whitespace; a word with empty content has no pieces.
///
/// The lists are those of [`words_into`], a place a piece. A text of n bytes has at most n pieces.
///
/// ```
/// use kenupatun::{break_word_into, Answer};
///
/// let (mut starts, mut ends, mut whites, mut widths) = ([0; 8], [0; 8], [0; 8], [0; 8]);
/// let answer = break_word_into(b"Hello!  ", 3, &mut starts, &mut ends, &mut whites, &mut widths);
/// assert_eq!(answer, Answer { number: 0, place: 0, count: 2 });
/// assert_eq!(ends, [0, 0, 0, 3, 0, 0, 0, 6]);
/// assert_eq!(whites, [0, 0, 0, 0, 0, 0, 0, 2]);
/// ```
pub fn break_word_into(
    text: &[u8],
    width: u32,
    starts: &mut [u8],
    ends: &mut [u8],
    whites: &mut [u8],
    widths: &mut [u8],
) -> Answer {
    // SAFETY: as in `words_into`.
    unsafe {
        raw::kenupatun_break_word(
            text.as_ptr(),
            text.len(),
            width,
            starts.as_mut_ptr(),
            starts.len(),
            ends.as_mut_ptr(),
            ends.len(),
            whites.as_mut_ptr(),
            whites.len(),
            widths.as_mut_ptr(),
            widths.len(),
        )
    }
}

/// The words of a text, those wider than `width` broken into pieces, as an [`Answer`] that
/// counts both. Refusals: 1, 2, 3, then 7.
///
/// The words are those of [`words_into`] and the pieces those of [`break_word_into`]. A word that
/// is not too wide stays as it is, also one with empty content, so that nothing is lost.
///
/// The lists are those of [`words_into`], a place for each word or piece. A text of n bytes has at
/// most n of them.
///
/// ```
/// use kenupatun::{break_words_into, Answer};
///
/// let (mut starts, mut ends, mut whites, mut widths) = ([0; 12], [0; 12], [0; 12], [0; 12]);
/// let answer = break_words_into(b" abc", 2, &mut starts, &mut ends, &mut whites, &mut widths);
/// assert_eq!(answer, Answer { number: 0, place: 0, count: 3 });
/// assert_eq!(starts, [0, 0, 0, 0, 0, 0, 0, 1, 0, 0, 0, 3]);
/// ```
pub fn break_words_into(
    text: &[u8],
    width: u32,
    starts: &mut [u8],
    ends: &mut [u8],
    whites: &mut [u8],
    widths: &mut [u8],
) -> Answer {
    // SAFETY: as in `words_into`.
    unsafe {
        raw::kenupatun_break_words(
            text.as_ptr(),
            text.len(),
            width,
            starts.as_mut_ptr(),
            starts.len(),
            ends.as_mut_ptr(),
            ends.len(),
            whites.as_mut_ptr(),
            whites.len(),
            widths.as_mut_ptr(),
            widths.len(),
        )
    }
}

/// The words of a text, or why it is refused: [`words_into`] as a [`Result`].
///
/// ```
/// use kenupatun::{find_words, Word};
///
/// let words = find_words(b"ab \x1b]cd ef")?;
/// assert_eq!(words.iter().map(|word| word.width).collect::<Vec<_>>(), [2, 0, 2]);
/// assert_eq!(words[1], Word { start: 3, end: 7, white: 1, width: 0 });
/// # Ok::<(), kenupatun::Refusal>(())
/// ```
pub fn find_words(text: &[u8]) -> Result<Vec<Word>, Refusal> {
    listed(text, text.len() / 2 + 1, |[starts, ends, whites, widths]| words_into(text, starts, ends, whites, widths))
}

/// One word broken into pieces of at most `width` columns, or why it is refused:
/// [`break_word_into`] as a [`Result`].
///
/// ```
/// use kenupatun::{break_apart, Word};
///
/// let pieces = break_apart(b"Hello!  ", 3)?;
/// assert_eq!(pieces[0], Word { start: 0, end: 3, white: 0, width: 3 });
/// assert_eq!(pieces[1], Word { start: 3, end: 6, white: 2, width: 3 });
///
/// // Two pieces of one wide character each.
/// let pieces = break_apart("你好".as_bytes(), 1)?;
/// assert_eq!(pieces.iter().map(|piece| piece.width).collect::<Vec<_>>(), [2, 2]);
/// # Ok::<(), kenupatun::Refusal>(())
/// ```
pub fn break_apart(word: &[u8], width: u32) -> Result<Vec<Word>, Refusal> {
    listed(word, word.len(), |[starts, ends, whites, widths]| {
        break_word_into(word, width, starts, ends, whites, widths)
    })
}

/// The words of a text, those wider than `width` broken into pieces, or why it is refused:
/// [`break_words_into`] as a [`Result`].
///
/// ```
/// use kenupatun::break_words;
///
/// let text = b"  a longer word";
/// let pieces = break_words(text, 4)?;
/// let contents: Vec<&[u8]> = pieces.iter().map(|piece| piece.content(text)).collect();
/// assert_eq!(contents, [&b""[..], b"a", b"long", b"er", b"word"]);
///
/// assert_eq!(break_words(text, 256).unwrap_err().to_string(), "the line width at index 0 exceeds 255");
/// # Ok::<(), kenupatun::Refusal>(())
/// ```
pub fn break_words(text: &[u8], width: u32) -> Result<Vec<Word>, Refusal> {
    listed(text, text.len(), |[starts, ends, whites, widths]| {
        break_words_into(text, width, starts, ends, whites, widths)
    })
}

/// Calls `write` with four lists of so many places, and reads as many words out of them as it counts.
fn listed(text: &[u8], places: usize, write: impl FnOnce([&mut [u8]; 4]) -> Answer) -> Result<Vec<Word>, Refusal> {
    // a text that is too long is refused for that, whatever the lists
    let len = if text.len() > TEXT_MOST { 0 } else { NUMBER * places };
    let (mut starts, mut ends, mut whites, mut widths) = (vec![0; len], vec![0; len], vec![0; len], vec![0; len]);
    let count = write([&mut starts, &mut ends, &mut whites, &mut widths]).result()?;
    let words = numbers(&starts).zip(numbers(&ends)).zip(numbers(&whites)).zip(numbers(&widths)).take(count);
    Ok(words.map(|(((start, end), white), width)| Word { start, end, white, width }).collect())
}

/// The numbers of a list.
fn numbers(list: &[u8]) -> impl Iterator<Item = usize> + '_ {
    list.chunks_exact(NUMBER).map(|bytes| bytes.iter().fold(0, |number, byte| number << 8 | usize::from(*byte)))
}
