//! A text filled where it stands.

use crate::{raw, Answer, Refusal};

/// A text filled in place at a width, as an [`Answer`] that counts the bytes changed. Refusals: 1, 2,
/// then 3; the text is then as it was.
///
/// The parts between newlines are laid out each by itself: a word starts a new line if the line before
/// it, each word with its spaces, and the word itself are together wider than `width`. There the last
/// space before the word becomes a newline. Nothing else changes, so a word may be wider than a line.
///
/// ```
/// use kenupatun::{fill, Answer};
///
/// let mut text = *b"foo  bar baz";
/// assert_eq!(fill(&mut text, 7), Answer { number: 0, place: 0, count: 1 });
/// assert_eq!(&text, b"foo \nbar baz");
/// assert_eq!(fill(&mut text, 256), Answer { number: 3, place: 0, count: 0 });
/// ```
pub fn fill(text: &mut [u8], width: u32) -> Answer {
    // SAFETY: pointer and length are those of a live slice, lent for the call alone.
    unsafe { raw::kenupatun_fill(text.as_mut_ptr(), text.len(), width) }
}

/// A text filled in place: the number of bytes changed, or why none were: [`fill`] as a [`Result`].
///
/// ```
/// use kenupatun::fill_inplace;
///
/// let mut text = "Où est l’œuvre ?".to_string().into_bytes();
/// assert_eq!(fill_inplace(&mut text, 10), Ok(1));
/// assert_eq!(text, "Où est\nl’œuvre ?".as_bytes());
/// ```
pub fn fill_inplace(text: &mut [u8], width: u32) -> Result<usize, Refusal> {
    fill(text, width).result()
}
