//! Every function for C on slices that end directly at pages that nobody may touch, and again on slices
//! that start directly after such pages: a byte read or written outside a slice ends the process. What is
//! only read stands where it cannot be written.
//!
//! Answers and all bytes that were lent must be those of the same call on plain memory, which the other
//! tests hold against the crate. `KENUPATUN_SEED` and `KENUPATUN_CASES` set the random cases (see `generate`).

mod pages;
mod program;

use std::env::current_exe;
use std::fmt::Debug;
use std::os::unix::process::ExitStatusExt as _;

use generate::layouts::{self, Layout, DEFAULT_PENALTIES, FRAGMENTS_MOST, PENALTY_MOST};
use generate::{cases, damage, say_cases, seed, text, words, Rng};
use kenupatun::{
    break_apart, break_word_into, break_words, break_words_into, check, fill, fill_inplace, find_words, first_fit_into,
    least_cost_into, measure, word_of, words_into, Answer, Penalties, WIDTH_MOST,
};
use pages::{now, Room, Side, FAULT};

/// The bytes of a place in the lists of words and pieces.
const PLACE: usize = 4;

// ---- a call on plain memory and on guarded

/// Room for what a call reads and for what it writes.
struct Rooms {
    read: [Room; 4],
    written: [Room; 4],
}

impl Rooms {
    fn new() -> Rooms {
        Rooms { read: [(); 4].map(|()| Room::new()), written: [(); 4].map(|()| Room::new()) }
    }

    /// Calls with slices to read and slices to write, first on plain memory. Nothing may be otherwise on
    /// guarded memory: neither the answer nor what is then in the slices that may be written.
    #[track_caller]
    fn hold<A: PartialEq + Debug>(
        &mut self,
        what: &str,
        read: &[&[u8]],
        written: &[Vec<u8>],
        call: impl Fn(&[&[u8]], &mut [&mut [u8]]) -> A,
    ) {
        let mut plain = written.to_vec();
        let answer = call(read, &mut plain.iter_mut().map(|list| &mut list[..]).collect::<Vec<_>>());
        for side in [Side::End, Side::Start] {
            let shown = self.read.iter_mut().zip(read).map(|(room, bytes)| room.show(bytes, side));
            let shown: Vec<&[u8]> = shown.collect();
            let lent = self.written.iter_mut().zip(written).map(|(room, bytes)| room.lend(bytes, side));
            let mut lent: Vec<&mut [u8]> = lent.collect();
            let said = || format!("{what} on {side:?}, read {}, lists {:?}", shown_all(read), lens(written));
            assert_eq!(call(&shown, &mut lent), answer, "{}", said());
            assert!(
                lent.iter().zip(&plain).all(|(list, plain)| *list == plain),
                "{}: a list holds other bytes",
                said()
            );
        }
    }
}

fn lens(lists: &[Vec<u8>]) -> Vec<usize> {
    lists.iter().map(Vec::len).collect()
}

/// Slices for a message, whole unless they are long.
fn shown_all(read: &[&[u8]]) -> String {
    let shown = |bytes: &&[u8]| format!("{} bytes \"{}\" ", bytes.len(), bytes[..bytes.len().min(300)].escape_ascii());
    read.iter().map(shown).collect()
}

/// Lists of so many bytes, no two bytes near each other the same.
fn lists(lens: &[usize]) -> Vec<Vec<u8>> {
    let list = |len: &usize| (0..*len).map(|at| (at as u8).wrapping_mul(0x3B) ^ 0xA5).collect();
    lens.iter().map(list).collect()
}

// ---- calls on texts

/// The lengths of four lists around what is needed: exactly full, with bytes left over, all empty, one a
/// byte short; with places to spare; and one of them empty, a place short, or a byte short.
fn lens_around(places: usize) -> Vec<[usize; 4]> {
    let full = PLACE * places;
    let short = [full, full, full.saturating_sub(1), full];
    let mut all = vec![[full; 4], [full, full + 1, full + 2, full + 3], [0; 4], short, [full + PLACE; 4]];
    for list in 0..4 {
        for len in [0, full.saturating_sub(PLACE), full.saturating_sub(1)] {
            let mut lens = [full; 4];
            lens[list] = len;
            all.push(lens);
        }
    }
    all
}

/// A function that lists words or pieces of a text at a width.
type Lists = fn(&[u8], u32, [&mut [u8]; 4]) -> Answer;

const WORDS: Lists = |text, _, [starts, ends, whites, widths]| words_into(text, starts, ends, whites, widths);
const BREAK_WORD: Lists =
    |text, width, [starts, ends, whites, widths]| break_word_into(text, width, starts, ends, whites, widths);
const BREAK_WORDS: Lists =
    |text, width, [starts, ends, whites, widths]| break_words_into(text, width, starts, ends, whites, widths);

/// From so many places on, lists have the first few of these lengths alone: they take long to make.
const MANY_PLACES: usize = 2_000;
const FEW_LENS: usize = 4;

/// Every function on a text, those with lists on lists of all lengths around what they need.
fn hold_text(rooms: &mut Rooms, text: &[u8], width: u32) {
    rooms.hold("measure", &[text], &[], |read, _| measure(read[0]));
    rooms.hold("word_from", &[text], &[], |read, _| word_of(read[0]));
    rooms.hold(&format!("fill at {width}"), &[], &[text.to_vec()], |_, lent| fill(lent[0], width));
    let places = [find_words(text), break_apart(text, width), break_words(text, width)];
    let calls = [("words", WORDS), ("break_word", BREAK_WORD), ("break_words", BREAK_WORDS)];
    for ((name, call), places) in calls.into_iter().zip(places) {
        let places = places.map_or(2, |found| found.len());
        let tried = if places < MANY_PLACES { usize::MAX } else { FEW_LENS };
        for lens in lens_around(places).into_iter().take(tried) {
            rooms.hold(&format!("{name} at {width}"), &[text], &lists(&lens), |read, lent| {
                let [starts, ends, whites, widths] = lent else { unreachable!() };
                call(read[0], width, [starts, ends, whites, widths])
            });
        }
    }
}

/// The check of a text against several others: filled at the width and at another one, one byte shorter
/// and longer, damaged, and itself.
fn hold_check(rooms: &mut Rooms, rng: &mut Rng, before: &[u8], width: u32) {
    let [mut filled, mut other] = [(); 2].map(|()| before.to_vec());
    // a text that is refused stays as it was
    let _ = (fill_inplace(&mut filled, width), fill_inplace(&mut other, words::width(rng)));
    let shorter = filled[..filled.len().saturating_sub(1)].to_vec();
    let longer = [&filled[..], b" "].concat();
    let damaged = damage::damaged(rng, &filled);
    for after in [filled, other, shorter, longer, damaged, before.to_vec()] {
        rooms.hold(&format!("check at {width}"), &[before, &after], &[], |read, _| check(read[0], read[1], width));
    }
}

/// Random texts, whole ones and damaged ones.
#[test]
fn random_texts() {
    let mut rooms = Rooms::new();
    let count = cases() / 60;
    say_cases(count);
    for case in 0..count {
        now(case);
        let mut rng = Rng::of_case(seed(), case);
        let good = if rng.one_in(2) { text::any(&mut rng) } else { words::any(&mut rng) }.into_bytes();
        let text = if rng.one_in(3) { damage::damaged(&mut rng, &good) } else { good };
        let width = words::width(&mut rng);
        hold_text(&mut rooms, &text, width);
        hold_check(&mut rooms, &mut rng, &text, width);
    }
}

/// Texts of every length up to some more than two blocks of 64, which are read at once, so that blocks
/// meet the end in all ways.
#[test]
fn texts_of_every_length() {
    let mut rooms = Rooms::new();
    for len in 0..=150 {
        now(len);
        let mut rng = Rng::of_case(seed(), len);
        let text = text::of_length(&mut rng, len as usize);
        hold_text(&mut rooms, text.as_bytes(), words::width(&mut rng));
        for part in ["a", "\u{E9}", "\u{4F60}", "\u{1F600}", " ", "\u{1B}", "a "] {
            // the last character may be cut short
            let text = &part.repeat(len as usize).into_bytes()[..len as usize];
            hold_text(&mut rooms, text, 3);
            hold_check(&mut rooms, &mut rng, text, 3);
        }
    }
}

/// A text that ends in each state of an escape, and inside each kind of character.
#[test]
fn texts_cut_anywhere() {
    let mut rooms = Rooms::new();
    let text =
        "\u{E9} \u{4F60}\u{1B}[31m a\u{1B}]8;;b\u{1B}\\ \u{1F600}  \u{1B}]\u{7}\n\u{7FF}\u{800}\u{FFFF} \u{10FFFF} ";
    for start in 0..text.len() {
        for end in start..=text.len() {
            hold_text(&mut rooms, &text.as_bytes()[start..end], 2);
        }
    }
    for fault in damage::FAULTS {
        for before in [0, 1, 60, 61, 62, 63, 64, 65] {
            hold_text(&mut rooms, &[&b"a".repeat(before), fault].concat(), 1);
        }
    }
}

/// 60,000 bytes, one less and one more, at widths that are allowed and at one that is not.
#[test]
fn texts_at_the_limit() {
    let mut rooms = Rooms::new();
    for part in ["a", " ", "ab  c ", "\u{4F60}", "\u{1B}[m", "\u{E9}\n", "a "] {
        let text = part.repeat(60_001 / part.len() + 1).into_bytes();
        for len in [59_999, 60_000, 60_001] {
            for width in [0, 42, WIDTH_MOST, WIDTH_MOST + 1] {
                hold_text(&mut rooms, &text[..len], width);
            }
            hold_check(&mut rooms, &mut Rng::of_case(seed(), 0), &text[..len], 42);
        }
    }
}

// ---- calls on layouts

/// The lengths of the seven lists around what is needed: exactly full, with bytes left over, all empty;
/// and one of them empty, a place short or long, or a byte short or long.
fn layout_lens_around(layout: &Layout) -> Vec<[usize; 7]> {
    let places = [2, 2, 2, 2, 2, 8, 2];
    let [words, whites, penalty_widths, line_widths] = layout.lists().map(|list| list.len());
    let count = layout.fragments.len();
    let full = [words, whites, penalty_widths, line_widths, 2 * count.max(1), 8 * (count + 1), 2 * (count + 1)];
    let mut all = vec![full, full.map(|len| len + 1), [0; 7]];
    for (list, place) in places.into_iter().enumerate() {
        let short = [0, full[list].saturating_sub(place), full[list].saturating_sub(1)];
        for len in short.into_iter().chain([full[list] + 1, full[list] + place]) {
            let mut lens = full;
            lens[list] = len;
            all.push(lens);
        }
    }
    all
}

/// Both layouts on lists of so many bytes: those that are read are cut, or go on with bytes of 1.
fn hold_layout_on(rooms: &mut Rooms, layout: &Layout, lens: [usize; 7]) {
    let mut read = layout.lists();
    read.iter_mut().zip(lens).for_each(|(list, len)| list.resize(len, 1));
    let read: Vec<&[u8]> = read.iter().map(|list| &list[..]).collect();
    let [nline_penalty, overflow_penalty, short_last_line_fraction, short_last_line_penalty, hyphen_penalty] =
        layout.penalties;
    let penalties = Penalties {
        nline_penalty,
        overflow_penalty,
        short_last_line_fraction,
        short_last_line_penalty,
        hyphen_penalty,
    };
    rooms.hold("first_fit", &read, &lists(&lens[4..5]), |read, lent| {
        first_fit_into(read[0], read[1], read[2], read[3], lent[0])
    });
    rooms.hold(&format!("least_cost with {penalties:?}"), &read, &lists(&lens[4..]), |read, lent| {
        let [ends, costs, starts] = lent else { unreachable!() };
        least_cost_into(read[0], read[1], read[2], read[3], penalties, ends, costs, starts)
    });
}

fn hold_layout(rooms: &mut Rooms, layout: &Layout) {
    layout_lens_around(layout).into_iter().for_each(|lens| hold_layout_on(rooms, layout, lens));
}

/// Random layouts, some with a line width or a penalty that is too large.
#[test]
fn random_layouts() {
    let mut rooms = Rooms::new();
    let count = cases() / 100;
    say_cases(count);
    for case in 0..count {
        now(case);
        let mut rng = Rng::of_case(seed(), case);
        let mut layout = layouts::any(&mut rng);
        if rng.one_in(10) {
            layout.line_widths.push(256);
        }
        if rng.one_in(10) {
            layout.penalties[rng.below(5)] = PENALTY_MOST + 1;
        }
        match layout.fragments.len() {
            0..=300 => hold_layout(&mut rooms, &layout),
            // a long one takes milliseconds
            _ => layout_lens_around(&layout)[..3].iter().for_each(|lens| hold_layout_on(&mut rooms, &layout, *lens)),
        }
    }
}

/// 4,096 fragments, one less and one more, with as few and as many line widths.
#[test]
fn layouts_at_the_limit() {
    let mut rooms = Rooms::new();
    for count in [FRAGMENTS_MOST - 1, FRAGMENTS_MOST, FRAGMENTS_MOST + 1] {
        for widths in [0, 1, count, count + 1] {
            let line_widths = (0..widths).map(|at| 30 + at as u16 % 3).collect();
            let fragments = layouts::natural(&mut Rng::of_case(seed(), count as u64), count);
            hold_layout(&mut rooms, &Layout { fragments, line_widths, penalties: DEFAULT_PENALTIES });
        }
        // each fragment a line of its own
        let fragments = vec![[u16::MAX; 3]; count];
        let layout = Layout { fragments, line_widths: vec![255; count], penalties: [PENALTY_MOST; 5] };
        hold_layout_on(&mut rooms, &layout, layout_lens_around(&layout)[0]);
    }
}

// ---- that a touch is seen

/// Which of the touches `touch` makes.
const TOUCH: &str = "KENUPATUN_TOUCH";

/// Touches of bytes that nobody may touch: behind a slice, before it, at an empty one, and writes behind a
/// slice, before it, and to one that is only read.
const TOUCHES: [fn(&mut Room); 6] = [
    |room| read(room.show(b"abc", Side::End).as_ptr().wrapping_add(3)),
    |room| read(room.show(b"abc", Side::Start).as_ptr().wrapping_sub(1)),
    |room| read(room.show(b"", Side::End).as_ptr()),
    |room| write(room.lend(b"abc", Side::End).as_mut_ptr().wrapping_add(3)),
    |room| write(room.lend(b"abc", Side::Start).as_mut_ptr().wrapping_sub(1)),
    |room| write(room.show(b"abc", Side::End).as_ptr().cast_mut()),
];

fn read(byte: *const u8) {
    // SAFETY: none: it is meant to end the process.
    unsafe { byte.read_volatile() };
}

fn write(byte: *mut u8) {
    // SAFETY: none: it is meant to end the process.
    unsafe { byte.write_volatile(1) }
}

/// Each touch ends a process.
#[test]
fn a_touch_outside_is_seen() {
    for touch in 0..TOUCHES.len() {
        let mut this = program::command(&current_exe().unwrap());
        let output = this.args(["--exact", "touch", "--ignored"]).env(TOUCH, touch.to_string()).output().unwrap();
        assert_eq!(output.status.signal(), Some(FAULT), "touch {touch}: {}", output.status);
        let said = String::from_utf8_lossy(&output.stderr);
        assert!(said.contains("touch, seed"), "touch {touch}: {said}");
    }
}

/// Makes one of the touches. By itself it does nothing.
#[test]
#[ignore = "for `a_touch_outside_is_seen` alone"]
fn touch() {
    if let Ok(number) = std::env::var(TOUCH) {
        TOUCHES[number.parse::<usize>().unwrap()](&mut Room::new());
    }
}
