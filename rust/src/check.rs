//! Whether a text is another one with its lines well broken.

use crate::{raw, Answer, Refusal};

/// Whether `after` is `before` with its lines well broken at a width, as an [`Answer`] whose count is 0.
/// Refusals: 1 for `before`, then for `after`, 2 for `before`, 3, 9, then 10, 11 and 12, each over the
/// whole text.
///
/// The parts of `before` between newlines are its input lines. Accepted is what has the same length
/// and differs only where the last space before a further word of an input line is a newline now, if
/// each line so formed holds one word or fits the width, and no input line could have fewer lines. What
/// [`fill`](crate::fill()) writes is accepted, and so is any other layout with as few lines.
///
/// ```
/// use kenupatun::{check, Answer};
///
/// let done = Answer { number: 0, place: 0, count: 0 };
/// assert_eq!(check(b"a b c", b"a b\nc", 3), done);
/// assert_eq!(check(b"a b c", b"a\nb c", 3), done);
/// assert_eq!(check(b"a b c", b"a\nb\nc", 3).number, 12);
/// assert_eq!(check(b"a b c", b"a b c", 3).number, 11);
/// ```
pub fn check(before: &[u8], after: &[u8], width: u32) -> Answer {
    // SAFETY: pointers and lengths are those of live slices, lent for the call alone.
    unsafe { raw::kenupatun_check(before.as_ptr(), before.len(), after.as_ptr(), after.len(), width) }
}

/// Nothing where `after` is accepted against `before`, or why it is not: [`check`] as a [`Result`].
///
/// ```
/// use kenupatun::{check_filled, Refusal};
///
/// assert_eq!(check_filled(b"a b c", b"a b\nc", 3), Ok(()));
/// assert_eq!(check_filled(b"a  b", b"a\n b", 1), Err(Refusal { number: 10, place: 1 }));
/// ```
pub fn check_filled(before: &[u8], after: &[u8], width: u32) -> Result<(), Refusal> {
    check(before, after, width).result().map(|_| ())
}
