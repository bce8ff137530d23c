//! The fixed list of inputs: the examples of document 01, texts and layouts at the corners of its rules, and
//! some from a seed that never changes.

use generate::layouts::{self, Fragment, Layout, DEFAULT_PENALTIES};
use generate::{text, words, Rng};

use crate::plain;

/// The seed of the random inputs. `KENUPATUN_SEED` does not change it.
const SEED: u64 = 20_261_115;

/// How many random inputs each list has, and how many bytes or fragments they have at most.
const RANDOM: u64 = 80;
const BYTES_MOST: usize = 250;
const FRAGMENTS_FEW: usize = 60;

/// Texts of document 01, then by rule: nothing and spaces, escapes and where they end, widths and the
/// lengths of UTF-8, line ends.
#[rustfmt::skip]
const TEXTS: [&str; 62] = [
    "Café Plain", "\u{1B}[31mCafé Rouge\u{1B}[0m",
    "\u{1B}]8;;http://example.com\u{1B}\\This is a link\u{1B}]8;;\u{1B}\\",
    "\u{4F60}\u{597D}", "Cafe\u{301} Plain", "ab \u{1B}]cd ef", "Hello!  ",
    "foo bar baz", "foo  bar", "  foo", "a b c", "foo  bar baz",
    "", " ", "   ", "a", "a ", " a", "  a  b  ", "a\u{A0}b\u{3000}c d", "abcdefghij klm", "a bb ccc dddd eeeee ffffff",
    "\u{1B}", "\u{1B}[", "\u{1B}]", "a\u{1B}", "\u{1B}[m", "\u{1B}[?25h\u{1B}[@x\u{1B}[~y", "\u{1B}[\u{4F60}mz",
    "\u{1B}[\u{1B}[m", "\u{1B}[1 2mab cd", "\u{1B}]0;title\u{7}ab", "\u{1B}]\u{9C}a", "\u{1B}]a\\b\u{1B}\\c",
    "\u{1B}]a\u{1B}\u{1B}\\b", "\u{1B}]a\u{1B}b\u{7}c", "\u{1B}Pa\u{1B}\\", "\u{1B}(Bab", "\u{1B}\u{1B}ab",
    "\u{1B} a b", "a\u{1B}[31m b\u{1B}[0m c", "ab\u{1B}[31mcdef\u{1B}[0m gh", "\u{9B}m\u{9D}\u{7}",
    "\0\u{7F}", "\u{80}\u{7FF}", "\u{800}\u{FFFF}", "\u{10000}\u{10FFFF}", "\u{D7FF}\u{E000}", "\u{10FF}\u{1100}",
    "\u{1F468}\u{200D}\u{1F469} \u{1F600}", "a\u{4F60}b\u{597D}c \u{3042}\u{FF21}",
    "\n", "a\nb", "a \n b", "foo bar\nbaz qux\n", "\n\na b\n\nc d", "a\r\nb c", "a\tb c", "foo bar baz\nfoo  bar  baz\n  foo",
    "aaa  \nbbb ccc", "To be, or not to be: that is the question", "x \u{1B}[1my z\u{1B}[0m w",
];

/// The widths at which the texts above are broken and filled.
const WIDTHS: [u8; 6] = [0, 1, 2, 3, 7, 42];

/// The inputs of a list that is told from the others by its number: those that are wanted of the first cases.
fn random<T>(list: u64, make: impl Fn(&mut Rng) -> T, wanted: impl Fn(&T) -> bool) -> Vec<T> {
    let made = (0..).map(|case| make(&mut Rng::of_case(SEED + list, case)));
    made.filter(wanted).take(RANDOM as usize).collect()
}

fn is_short(text: &str) -> bool {
    text.len() <= BYTES_MOST
}

/// The texts above, and some more.
fn with_texts(more: Vec<String>) -> Vec<String> {
    TEXTS.iter().map(|text| text.to_string()).chain(more).collect()
}

/// Texts to be measured.
pub fn texts() -> Vec<String> {
    with_texts(random(0, text::any, |text| is_short(text)))
}

/// Texts whose words are found.
pub fn texts_of_words() -> Vec<String> {
    with_texts(random(1, words::any, |text| is_short(text)))
}

/// The texts above at some widths, and some more.
fn at_widths(more: Vec<(String, u8)>) -> Vec<(String, u8)> {
    let each = TEXTS.iter().enumerate().flat_map(|(i, text)| {
        let widths = [WIDTHS[i % WIDTHS.len()], WIDTHS[(i + 3) % WIDTHS.len()]];
        widths.map(|width| (text.to_string(), width))
    });
    // document 01's own
    let own = [
        ("Hello!  ", 3),
        ("\u{4F60}\u{597D}", 1),
        ("foo bar baz", 7),
        ("foo  bar", 3),
        ("  foo", 3),
        ("a b c", 3),
        ("", 255),
    ];
    own.into_iter().map(|(text, width)| (text.to_string(), width)).chain(each).chain(more).collect()
}

fn width(rng: &mut Rng) -> u8 {
    u8::try_from(words::width(rng)).unwrap()
}

/// Texts that are one word, and widths to break them at.
pub fn single_words() -> Vec<(String, u8)> {
    at_widths(random(2, |rng| (words::one(rng), width(rng)), |(text, _)| is_short(text)))
}

/// Texts, and widths to break their words at or to fill them at.
pub fn texts_at_widths() -> Vec<(String, u8)> {
    let mut more = random(3, |rng| (words::any(rng), width(rng)), |(text, _)| is_short(text));
    more.extend(random(4, |rng| (text::any(rng), width(rng)), |(text, _)| is_short(text)));
    at_widths(more)
}

fn layout(fragments: &[Fragment], line_widths: &[u16], penalties: [u32; 5]) -> Layout {
    Layout { fragments: fragments.to_vec(), line_widths: line_widths.to_vec(), penalties }
}

/// The layouts of document 01 and those at which the crate's search and a plain one choose differently at
/// the same cost, at one line width; a single fragment and none; and the most fragments.
fn fixed_layouts() -> Vec<Layout> {
    let ten = [2, 3, 2, 3, 2, 3, 4, 2, 3, 8].map(|word| [word, 1, 0]);
    let mut ten = ten.to_vec();
    ten[9][1] = 0;
    let mut all: Vec<Layout> = [52, 53, 54].map(|at| layout(&[[3, 1, 0], [50, 0, 0]], &[at], DEFAULT_PENALTIES)).into();
    all.push(layout(&ten, &[10], DEFAULT_PENALTIES));
    // a tie: the lines cost the same, and the crate chose a larger start
    all.push(layout(&[[1, 0, 0], [0, 1, 0], [0, 0, 1], [0, 0, 0]], &[0], DEFAULT_PENALTIES));
    for width in [0, 1, 10, 255] {
        all.push(layout(&[], &[width], DEFAULT_PENALTIES));
        all.push(layout(&[[10, 1, 0]], &[width], DEFAULT_PENALTIES));
        all.push(layout(&[[0, 0, 0], [0, 0, 0]], &[width], DEFAULT_PENALTIES));
        all.push(layout(&[[5, 1, 1], [4, 0, 0], [5, 2, 0]], &[width], [0; 5]));
    }
    let mut rng = Rng::of_case(SEED, 0);
    all.push(layout(&layouts::natural(&mut rng, layouts::FRAGMENTS_MOST), &[42], DEFAULT_PENALTIES));
    all
}

fn is_small(layout: &Layout) -> bool {
    layout.fragments.len() <= FRAGMENTS_FEW && layout.line_widths.len() <= FRAGMENTS_FEW
}

/// Layouts of any line widths, none too.
pub fn layouts() -> Vec<Layout> {
    let mut all = fixed_layouts();
    all.push(layout(&[[1, 1, 0], [2, 1, 0]], &[], DEFAULT_PENALTIES));
    all.push(layout(&[[3, 1, 0], [3, 1, 0], [3, 1, 0], [3, 1, 0]], &[3, 7, 1], DEFAULT_PENALTIES));
    all.extend(random(5, layouts::any, is_small));
    all
}

/// Layouts of one line width, of whose cost equality is claimed. Left out are those at which the crate's lines
/// cost more than those of a plain search, by document 01 in plain Rust (`plain`; docs/DIFFERENCES.md has the
/// kind), and those whose cost has more than 32 bits.
pub fn layouts_of_one_width() -> Vec<Layout> {
    let mut all = fixed_layouts();
    all.extend(random(
        6,
        |rng| Layout { line_widths: vec![layouts::line_width(rng)], ..layouts::any(rng) },
        |layout| is_small(layout) && cost_fits(layout),
    ));
    all
}

fn cost_fits(layout: &Layout) -> bool {
    let cost = plain::cost_of(layout, &plain::optimal_fit_by_the_crate(layout));
    cost == plain::least_cost(layout).cost() && cost <= u32::MAX.into()
}
