//! Layouts: fragments, line widths and penalties.
//!
//! Fragments are as of natural text, of hyphenated words, or of numbers small, large or at a limit.
//! How they come is drawn anew for each layout.

use crate::shrink::{Item, Shrink};
use crate::Rng;

/// The most fragments that a layout may have.
pub const FRAGMENTS_MOST: usize = 4_096;
/// The largest line width.
pub const WIDTH_MOST: u16 = 255;
/// The largest penalty.
pub const PENALTY_MOST: u32 = 1_000_000;
/// Per line, overflow, short-last-line fraction, short last line, hyphen, as the crate has them.
pub const DEFAULT_PENALTIES: [u32; 5] = [1_000, 2_500, 4, 25, 25];

/// A fragment: the widths of its word, of its whitespace and of its penalty.
pub type Fragment = [u16; 3];

/// What is laid out, in lines of which widths, and what each fault of a line costs.
#[derive(Clone, Debug, PartialEq)]
pub struct Layout {
    /// What is laid out.
    pub fragments: Vec<Fragment>,
    /// The width of each line, the last one for all that follow.
    pub line_widths: Vec<u16>,
    /// Per line, overflow, short-last-line fraction, short last line, hyphen.
    pub penalties: [u32; 5],
}

impl Layout {
    /// The lists of words, whitespaces, penalty widths and line widths, as bytes, each number's high one first.
    pub fn lists(&self) -> [Vec<u8>; 4] {
        let part = |part: usize| self.fragments.iter().flat_map(|fragment| fragment[part].to_be_bytes()).collect();
        let line_widths = self.line_widths.iter().flat_map(|width| width.to_be_bytes()).collect();
        [part(0), part(1), part(2), line_widths]
    }
}

impl Item for Fragment {
    fn simpler(&self) -> Vec<Fragment> {
        let mut simpler = vec![[0, 0, 0]];
        for part in 0..3 {
            for less in self[part].simpler() {
                let mut fragment = *self;
                fragment[part] = less;
                simpler.push(fragment);
            }
        }
        simpler.retain(|fragment| fragment != self);
        simpler
    }
}

impl Shrink for Layout {
    fn shrink(&self, fails: &mut dyn FnMut(&Layout) -> bool) -> Layout {
        let of = |(fragments, (line_widths, penalties)): &(Vec<Fragment>, (Vec<u16>, [u32; 5]))| Layout {
            fragments: fragments.clone(),
            line_widths: line_widths.clone(),
            penalties: *penalties,
        };
        let parts = (self.fragments.clone(), (self.line_widths.clone(), self.penalties));
        of(&parts.shrink(&mut |parts| fails(&of(parts))))
    }
}

/// A layout of any number of fragments: most have a few, some hundreds, one in two thousand up to 4,096.
pub fn any(rng: &mut Rng) -> Layout {
    let count = match rng.below(2000) {
        0 => rng.between(300, FRAGMENTS_MOST),
        1..=59 => rng.between(60, 300),
        60..=599 => rng.between(10, 60),
        _ => rng.between(0, 10),
    };
    of_count(rng, count)
}

/// A layout of so many fragments.
pub fn of_count(rng: &mut Rng, count: usize) -> Layout {
    let kind = rng.below(9);
    let fragments = (0..count).map(|_| fragment(rng, kind)).collect();
    Layout { fragments, line_widths: line_widths(rng), penalties: penalties(rng) }
}

/// As [`any`], but one line width for all lines and the default penalties.
pub fn plain(rng: &mut Rng) -> Layout {
    Layout { line_widths: vec![line_width(rng)], penalties: DEFAULT_PENALTIES, ..any(rng) }
}

/// Text of so many words from 1 to 12 wide, one space after each.
pub fn natural(rng: &mut Rng, count: usize) -> Vec<Fragment> {
    (0..count).map(|_| fragment(rng, 0)).collect()
}

/// A fragment of a kind.
fn fragment(rng: &mut Rng, kind: usize) -> Fragment {
    let mut up_to = |most: usize| rng.between(0, most) as u16;
    match kind {
        0 => [1 + up_to(11), 1, 0],
        // pieces of hyphenated words
        1 => match up_to(1) {
            0 => [1 + up_to(5), 0, 1],
            _ => [1 + up_to(5), 1, 0],
        },
        2 => [up_to(2), up_to(2), up_to(1)],
        3 => [up_to(9), up_to(2), if up_to(3) == 0 { up_to(5) } else { 0 }],
        4 => [up_to(255), up_to(20), up_to(20)],
        5 => [up_to(65_535), up_to(65_535), up_to(65_535)],
        6 => [65_535 * up_to(1), 65_535 * up_to(1), 65_535 * up_to(1)],
        7 => [up_to(1), 0, 0],
        // what leads the crate's search for the least cost astray
        _ => [[0, 1, 0], [0, 0, 1], [0, 0, 0], [1, 0, 0]][usize::from(up_to(3))],
    }
}

/// No line width, one, several or very many.
fn line_widths(rng: &mut Rng) -> Vec<u16> {
    let count = match rng.below(400) {
        0 => rng.between(4_096, 5_000),
        1..=9 => rng.between(5, 300),
        10..=129 => rng.between(2, 4),
        130..=159 => 0,
        _ => 1,
    };
    (0..count).map(|_| line_width(rng)).collect()
}

/// A line width, small ones more often.
pub fn line_width(rng: &mut Rng) -> u16 {
    let (low, high) = rng.pick(&[(0, 3), (0, 12), (20, 80), (0, 255), (254, 255)]);
    rng.between(low, high) as u16
}

/// Penalties: those of the crate, or each at a limit, small or any.
pub fn penalties(rng: &mut Rng) -> [u32; 5] {
    match rng.below(8) {
        0..=3 => DEFAULT_PENALTIES,
        4 => [rng.pick(&[0, PENALTY_MOST]); 5],
        kind => DEFAULT_PENALTIES.map(|usual| match rng.below(5) {
            0 => 0,
            1 => rng.between(0, 5) as u32,
            2 if kind == 7 => rng.pick(&[PENALTY_MOST - 1, PENALTY_MOST]),
            3 => rng.between(0, PENALTY_MOST as usize) as u32,
            _ => usual,
        }),
    }
}

/// Every fragment of these words, whitespaces and penalty widths.
pub fn every_fragment(words: &[u16], whites: &[u16], penalty_widths: &[u16]) -> Vec<Fragment> {
    let mut all = Vec::new();
    for word in words {
        for white in whites {
            for penalty_width in penalty_widths {
                all.push([*word, *white, *penalty_width]);
            }
        }
    }
    all
}

/// Calls `each` with every list of exactly `len` of the items, in the items' order.
pub fn every_list<T: Copy>(items: &[T], len: usize, mut each: impl FnMut(&[T])) {
    let mut list = Vec::with_capacity(len);
    lists_from(items, len, &mut list, &mut each);
}

/// Every list of `len` items that starts with what `list` holds.
fn lists_from<T: Copy>(items: &[T], len: usize, list: &mut Vec<T>, each: &mut impl FnMut(&[T])) {
    if list.len() == len {
        return each(list);
    }
    for item in items {
        list.push(*item);
        lists_from(items, len, list, each);
        list.pop();
    }
}

/// Every list of at most `most` of the items, the short ones first.
pub fn all_lists<T: Copy>(items: &[T], most: usize) -> Vec<Vec<T>> {
    let mut all = Vec::new();
    for len in 0..=most {
        every_list(items, len, |list| all.push(list.to_vec()));
    }
    all
}

/// Calls `each` with every layout of a size, at a list of one line width or more, at most `widths_most`. The
/// size counts 1 for each number of the lists, and the number.
pub fn every_layout_of_size(size: usize, widths_most: usize, penalties: [u32; 5], mut each: impl FnMut(&Layout)) {
    for widths in 1..=widths_most {
        for count in 0..=size.saturating_sub(widths) / 3 {
            let numbers = 3 * count + widths;
            if numbers > size {
                continue;
            }
            numbers_of_sum(numbers, size - numbers, &mut Vec::new(), &mut |numbers| {
                let (fragments, line_widths) = numbers.split_at(3 * count);
                let fragments = fragments.chunks_exact(3).map(|part| [part[0], part[1], part[2]]).collect();
                each(&Layout { fragments, line_widths: line_widths.to_vec(), penalties });
            });
        }
    }
}

/// Every list of so many numbers with a sum, after what `list` holds.
fn numbers_of_sum(count: usize, sum: usize, list: &mut Vec<u16>, each: &mut impl FnMut(&[u16])) {
    if count == 1 {
        list.push(sum as u16);
        each(list);
        list.pop();
        return;
    }
    for number in 0..=sum {
        list.push(number as u16);
        numbers_of_sum(count - 1, sum - number, list, each);
        list.pop();
    }
}

#[cfg(test)]
mod tests {
    use super::*;

    /// All layouts of a size are as many as there are rows of strokes of that length, cut in three kinds of
    /// places: a row of s strokes is cut into numbers in 2^(s-1) ways, and each count of numbers is that of
    /// one number of fragments and one of line widths.
    #[test]
    fn each_layout_of_a_size_comes_once() {
        for size in 1..=10 {
            let mut seen = Vec::new();
            every_layout_of_size(size, 3, DEFAULT_PENALTIES, |layout| seen.push(format!("{layout:?}")));
            assert_eq!(seen.len(), 1 << (size - 1));
            seen.sort();
            seen.dedup();
            assert_eq!(seen.len(), 1 << (size - 1));
        }
        every_layout_of_size(0, 3, DEFAULT_PENALTIES, |layout| panic!("{layout:?}"));
    }

    #[test]
    fn each_list_comes_once_and_the_short_ones_first() {
        let lists = all_lists(&[7, 8], 2);
        assert_eq!(lists, [vec![], vec![7], vec![8], vec![7, 7], vec![7, 8], vec![8, 7], vec![8, 8]]);
        assert_eq!(every_fragment(&[1, 2], &[0], &[0, 1]), [[1, 0, 0], [1, 0, 1], [2, 0, 0], [2, 0, 1]]);
    }

    #[test]
    fn a_layout_comes_back_from_its_seed_and_case() {
        for case in 0..100 {
            assert_eq!(any(&mut Rng::of_case(7, case)), any(&mut Rng::of_case(7, case)));
        }
    }

    /// Each kind of layout turns up, and none breaks a bound.
    #[test]
    fn the_corners_of_layouts_are_reached() {
        let layouts: Vec<Layout> = (0..20_000).map(|case| any(&mut Rng::of_case(7, case))).collect();
        assert!(layouts.iter().all(|layout| layout.fragments.len() <= FRAGMENTS_MOST));
        assert!(layouts.iter().all(|layout| layout.line_widths.iter().all(|width| *width <= WIDTH_MOST)));
        assert!(layouts.iter().all(|layout| layout.penalties.iter().all(|penalty| *penalty <= PENALTY_MOST)));
        let count = |what: &str, is: fn(&Layout) -> bool| {
            let count = layouts.iter().filter(|layout| is(layout)).count();
            assert!(count > 4, "{what}: {count} of 20000");
        };
        count("no fragments", |layout| layout.fragments.is_empty());
        count("one fragment", |layout| layout.fragments.len() == 1);
        count("many fragments", |layout| layout.fragments.len() > 300);
        count("no line widths", |layout| layout.line_widths.is_empty());
        count("three line widths", |layout| layout.line_widths.len() == 3);
        count("more than 4,096 line widths", |layout| layout.line_widths.len() > 4_096);
        count("line width 0", |layout| layout.line_widths == [0]);
        count("line width 255", |layout| layout.line_widths == [255]);
        count("a largest word", |layout| layout.fragments.iter().any(|fragment| fragment[0] == 65_535));
        count("a hyphen", |layout| layout.fragments.iter().any(|fragment| fragment[1..] == [0, 1]));
        count("no penalties", |layout| layout.penalties == [0; 5]);
        count("largest penalties", |layout| layout.penalties == [PENALTY_MOST; 5]);
        count("default penalties", |layout| layout.penalties == DEFAULT_PENALTIES);
        count("overflow for nothing", |layout| layout.penalties[1] == 0 && layout.penalties[0] > 0);
    }

    #[test]
    fn layouts_shrink() {
        let layout = of_count(&mut Rng::of_case(7, 1), 30);
        let small = layout.shrink(&mut |layout| layout.fragments.len() > 2);
        assert_eq!(small, Layout { fragments: vec![[0; 3]; 3], line_widths: vec![], penalties: [0; 5] });
    }
}
