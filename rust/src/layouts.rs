//! Fragments laid out in lines.

use crate::{raw, Answer, Refusal};

/// What is laid out: a word, or a piece of one, by its widths.
#[derive(Clone, Copy, Debug, Default, PartialEq, Eq, Hash)]
pub struct Fragment {
    /// The width of its word.
    pub word: u16,
    /// The width of the whitespace after it, if the line goes on.
    pub white: u16,
    /// The width of what is added if the line ends with it, as a hyphen.
    pub penalty: u16,
}

/// What a layout pays for. Each is at most 1,000,000.
#[derive(Clone, Copy, Debug, PartialEq, Eq, Hash)]
pub struct Penalties {
    /// For each line.
    pub nline_penalty: u32,
    /// For each column by which a line is too wide.
    pub overflow_penalty: u32,
    /// A last line of one fragment is short if it is narrower than its width divided by this.
    pub short_last_line_fraction: u32,
    /// For a short last line.
    pub short_last_line_penalty: u32,
    /// For each line that ends with a fragment that has a penalty width.
    pub hyphen_penalty: u32,
}

impl Penalties {
    /// Those of the crate `textwrap`.
    pub const fn new() -> Penalties {
        Penalties {
            nline_penalty: 1000,
            overflow_penalty: 2500,
            short_last_line_fraction: 4,
            short_last_line_penalty: 25,
            hyphen_penalty: 25,
        }
    }
}

impl Default for Penalties {
    fn default() -> Penalties {
        Penalties::new()
    }
}

/// Fragments laid out by first fit, as an [`Answer`] that counts the lines. Refusals: 5, 4, 3, then 7.
///
/// A new line starts before a fragment if the current line has one and the fragments in it, each with
/// its whitespace, and the next one's word and penalty width are together wider than the line. The k-th
/// line has the k-th of `line_widths`, lines beyond that list its last; an empty list counts as a single 0.
///
/// All lists are of 16-bit numbers, two bytes a place, the high one first. `ends` gets the index after
/// the last fragment of each line; places past the last line, and a byte left over, keep what they held.
/// It needs as many places as there are fragments, and one at least. No fragments make one line, with end 0.
///
/// ```
/// use kenupatun::{first_fit_into, Answer};
///
/// // words of 3, 2 and 4 columns, a space after each, no penalties, at width 6
/// let mut ends = [9; 6];
/// let answer = first_fit_into(&[0, 3, 0, 2, 0, 4], &[0, 1, 0, 1, 0, 1], &[0; 6], &[0, 6], &mut ends);
/// assert_eq!(answer, Answer { number: 0, place: 0, count: 2 });
/// assert_eq!(ends, [0, 2, 0, 3, 9, 9]);
/// ```
pub fn first_fit_into(
    words: &[u8],
    whites: &[u8],
    penalty_widths: &[u8],
    line_widths: &[u8],
    ends: &mut [u8],
) -> Answer {
    // SAFETY: each pointer and its length are those of a live slice, and the one that is written through
    // is lent to us alone.
    unsafe {
        raw::kenupatun_first_fit(
            words.as_ptr(),
            words.len(),
            whites.as_ptr(),
            whites.len(),
            penalty_widths.as_ptr(),
            penalty_widths.len(),
            line_widths.as_ptr(),
            line_widths.len(),
            ends.as_mut_ptr(),
            ends.len(),
        )
    }
}

/// Fragments laid out at the least cost, as an [`Answer`] that counts the lines.
/// Refusals: 5, 4, 3, 6, 7, then 8.
///
/// Lists and `ends` are those of [`first_fit_into`]. `costs`, of 64-bit numbers, and `starts`, of 16-bit
/// numbers, are scratch, one place more than there are fragments in each. On success place j of them has
/// the cost of the first j fragments and the start of the last line of these.
///
/// With one line width no layout costs less; with several that is not promised. Of starts that cost
/// the same the smallest is chosen.
///
/// ```
/// use kenupatun::{least_cost_into, Answer, Penalties};
///
/// // words of 3 and 50 columns at width 52: on one line they would be 2 columns too wide
/// let (mut ends, mut costs, mut starts) = ([0; 4], [0; 24], [0; 6]);
/// let answer = least_cost_into(
///     &[0, 3, 0, 50], &[0, 1, 0, 0], &[0; 4], &[0, 52], Penalties::new(),
///     &mut ends, &mut costs, &mut starts,
/// );
/// assert_eq!(answer, Answer { number: 0, place: 0, count: 2 });
/// assert_eq!(ends, [0, 1, 0, 2]);
/// assert_eq!(costs[16..], 4401_u64.to_be_bytes());
/// assert_eq!(starts, [0, 0, 0, 0, 0, 1]);
/// ```
#[allow(clippy::too_many_arguments)]
pub fn least_cost_into(
    words: &[u8],
    whites: &[u8],
    penalty_widths: &[u8],
    line_widths: &[u8],
    penalties: Penalties,
    ends: &mut [u8],
    costs: &mut [u8],
    starts: &mut [u8],
) -> Answer {
    // SAFETY: as in `first_fit_into`.
    unsafe {
        raw::kenupatun_least_cost(
            words.as_ptr(),
            words.len(),
            whites.as_ptr(),
            whites.len(),
            penalty_widths.as_ptr(),
            penalty_widths.len(),
            line_widths.as_ptr(),
            line_widths.len(),
            penalties.nline_penalty,
            penalties.overflow_penalty,
            penalties.short_last_line_fraction,
            penalties.short_last_line_penalty,
            penalties.hyphen_penalty,
            ends.as_mut_ptr(),
            ends.len(),
            costs.as_mut_ptr(),
            costs.len(),
            starts.as_mut_ptr(),
            starts.len(),
        )
    }
}

/// The lines of fragments by first fit, or why they are refused: [`first_fit_into`] as a [`Result`].
///
/// ```
/// use kenupatun::{wrap_first_fit, Fragment};
///
/// let fragments = [3, 2, 4].map(|word| Fragment { word, white: 1, penalty: 0 });
/// assert_eq!(wrap_first_fit(&fragments, &[6])?, [&fragments[..2], &fragments[2..]]);
/// assert_eq!(wrap_first_fit(&fragments, &[6, 256]).unwrap_err().place, 1);
/// # Ok::<(), kenupatun::Refusal>(())
/// ```
pub fn wrap_first_fit<'a>(fragments: &'a [Fragment], line_widths: &[u16]) -> Result<Vec<&'a [Fragment]>, Refusal> {
    let [words, whites, penalties] = lists(fragments);
    let mut ends = vec![0; 2 * fragments.len().max(1)];
    let answer = first_fit_into(&words, &whites, &penalties, &bytes(line_widths.iter().copied()), &mut ends);
    Ok(lines(fragments, &ends, answer.result()?))
}

/// The lines of fragments at the least cost, or why they are refused: [`least_cost_into`] as a [`Result`].
///
/// ```
/// use kenupatun::{wrap_optimal_fit, Fragment, Penalties};
///
/// let fragments = [3, 50].map(|word| Fragment { word, white: 1, penalty: 0 });
/// let lines = |width| wrap_optimal_fit(&fragments, &[width], &Penalties::new()).map(|lines| lines.len());
/// // one column too many costs less than a free line
/// assert_eq!((lines(54), lines(53), lines(52)), (Ok(1), Ok(1), Ok(2)));
/// ```
pub fn wrap_optimal_fit<'a>(
    fragments: &'a [Fragment],
    line_widths: &[u16],
    penalties: &Penalties,
) -> Result<Vec<&'a [Fragment]>, Refusal> {
    let [words, whites, penalty_widths] = lists(fragments);
    let line_widths = bytes(line_widths.iter().copied());
    let count = fragments.len();
    let (mut ends, mut costs, mut starts) =
        (vec![0; 2 * count.max(1)], vec![0; 8 * (count + 1)], vec![0; 2 * (count + 1)]);
    let answer =
        least_cost_into(&words, &whites, &penalty_widths, &line_widths, *penalties, &mut ends, &mut costs, &mut starts);
    Ok(lines(fragments, &ends, answer.result()?))
}

/// The three lists of fragments.
fn lists(fragments: &[Fragment]) -> [Vec<u8>; 3] {
    [
        bytes(fragments.iter().map(|fragment| fragment.word)),
        bytes(fragments.iter().map(|fragment| fragment.white)),
        bytes(fragments.iter().map(|fragment| fragment.penalty)),
    ]
}

/// A list of numbers as bytes.
fn bytes(numbers: impl Iterator<Item = u16>) -> Vec<u8> {
    numbers.flat_map(u16::to_be_bytes).collect()
}

/// The fragments of each line, where so many lines have these ends.
fn lines<'a>(fragments: &'a [Fragment], ends: &[u8], count: usize) -> Vec<&'a [Fragment]> {
    let mut start = 0;
    let lines = ends.chunks_exact(2).take(count).map(|end| {
        let end = usize::from(u16::from_be_bytes([end[0], end[1]]));
        let line = &fragments[start..end];
        start = end;
        line
    });
    lines.collect()
}
