//! The fill, held against the crate `textwrap` and Rust's own test of UTF-8.
//!
//! Number, place, count and every byte of the text, and of what stands before and behind it, are
//! always compared. `KENUPATUN_SEED` and `KENUPATUN_CASES` set the random cases (see `generate`).

use std::str::from_utf8;

use generate::{cases, damage, every_string, run, text, words, Rng};
use kenupatun::{fill, fill_inplace, Answer, Refusal, TEXT_MOST, WIDTH_MOST};

const fn done(count: usize) -> Answer {
    Answer { number: 0, place: 0, count: count as u64 }
}

const fn refused(number: u32, place: usize) -> Answer {
    Answer { number, place: place as u64, count: 0 }
}

/// What document 01 asks for, said by others: the crate fills, `std` says the fault. The count is the
/// bytes that are no longer what they were.
fn expected(text: &[u8], width: u32) -> (Answer, Vec<u8>) {
    if text.len() > TEXT_MOST {
        return (refused(1, text.len()), text.to_vec());
    }
    let whole = match from_utf8(text) {
        Ok(whole) => whole,
        Err(fault) => return (refused(2, fault.valid_up_to()), text.to_vec()),
    };
    if width > WIDTH_MOST {
        return (refused(3, 0), text.to_vec());
    }
    let mut filled = whole.to_string();
    textwrap::fill_inplace(&mut filled, width as usize);
    let changed = text.iter().zip(filled.as_bytes()).filter(|(before, after)| before != after).count();
    (done(changed), filled.into_bytes())
}

/// Bytes before and behind a text, which nobody may touch: spaces and letters, which a fill that
/// goes too far would change.
const AROUND: &[u8] = b"x  y z ";

fn agrees(text: &[u8], width: u32) -> Result<(), String> {
    let (answer, filled) = expected(text, width);
    let mut ours = [AROUND, text, AROUND].concat();
    let got = fill(&mut ours[AROUND.len()..][..text.len()], width);
    if got != answer {
        return Err(format!("{}: {got:?}, expected {answer:?}", said(text, width)));
    }
    if ours != [AROUND, &filled, AROUND].concat() {
        return Err(format!("{}: \"{}\", expected \"{}\"", said(text, width), shown(&ours), shown(&filled)));
    }
    Ok(())
}

/// [`agrees`], and the form as in `textwrap` too.
fn agrees_in_both_forms(text: &[u8], width: u32) -> Result<(), String> {
    agrees(text, width)?;
    let (answer, filled) = expected(text, width);
    let mut ours = text.to_vec();
    let got = fill_inplace(&mut ours, width);
    if (got, &ours) == (answer.result(), &filled) {
        return Ok(());
    }
    Err(format!("{}: fill_inplace answers {got:?}", said(text, width)))
}

fn said(text: &[u8], width: u32) -> String {
    format!("{} bytes at {width}, \"{}\"", text.len(), shown(text))
}

/// A text for a message, whole unless it is long.
fn shown(text: &[u8]) -> String {
    match text.len() {
        0..=300 => text.escape_ascii().to_string(),
        _ => format!("{}\" .. \"{}", text[..100].escape_ascii(), text[text.len() - 100..].escape_ascii()),
    }
}

/// [`agrees_in_both_forms`] for a text that is not random.
#[track_caller]
fn hold(text: &[u8], width: u32) {
    if let Err(wrong) = agrees_in_both_forms(text, width) {
        panic!("{wrong}");
    }
}

/// Fills, and answers the places that have changed.
#[track_caller]
fn changes(text: &str, width: u32) -> Vec<usize> {
    hold(text.as_bytes(), width);
    let mut ours = text.as_bytes().to_vec();
    let count = fill_inplace(&mut ours, width).unwrap();
    let places: Vec<usize> = (0..text.len()).filter(|at| ours[*at] != text.as_bytes()[*at]).collect();
    assert_eq!(places.len(), count, "{text:?} at {width}");
    assert!(places.iter().all(|at| (text.as_bytes()[*at], ours[*at]) == (b' ', b'\n')), "{text:?} at {width}");
    places
}

// ---- document 01's examples

#[test]
fn examples_of_document_01() {
    assert_eq!(changes("foo bar baz", 7), [7]);
    assert_eq!(changes("foo  bar", 3), [4]);
    assert_eq!(changes("  foo", 3), [1]);
    assert_eq!(changes("", 0), []);
    assert_eq!(changes("a b c", 3), [3]);
}

/// An escape that is not ended hides nothing after its word: the line is 6 wide, though it measures 3.
#[test]
fn a_line_is_not_measured_as_a_whole() {
    let text = "ab \u{1B}]cd ef";
    assert_eq!(changes(text, 6), []);
    assert_eq!(changes(text, 5), [7]);
    assert_eq!(changes(text, 3), [7]);
    assert_eq!(changes(text, 2), [2, 7]);
}

/// Spaces at the end of a line are not part of its width, and of several the last is turned.
#[test]
fn spaces() {
    assert_eq!(changes("ab   cd   ", 7), []);
    assert_eq!(changes("ab   cd   ", 6), [4]);
    assert_eq!(changes("ab   cd    e", 8), [10]);
    assert_eq!(changes("   ", 0), []);
    assert_eq!(changes(" a", 0), [0]);
    assert_eq!(changes(" a", 1), [0]);
    assert_eq!(changes(" a", 2), []);
}

/// Each input line by itself, also an empty one, and also after the last newline.
#[test]
fn input_lines() {
    assert_eq!(changes("a b\na b\n", 1), [1, 5]);
    assert_eq!(changes("\n\na b\n\nc d", 2), [3, 8]);
    assert_eq!(changes("a \n b", 0), [3]);
    assert_eq!(changes("\n", 0), []);
    assert_eq!(changes("a b\r\nc d", 1), [1, 6]);
}

// ---- texts that are UTF-8

fn at_a_width(rng: &mut Rng, text: String) -> (String, u32) {
    let width = words::width(rng);
    (text, width)
}

#[test]
fn random_texts() {
    let make = |rng: &mut Rng| {
        let text = text::any(rng);
        at_a_width(rng, text)
    };
    run(0..cases() / 5, make, |(text, width)| agrees_in_both_forms(text.as_bytes(), *width));
}

#[test]
fn random_texts_about_words() {
    let make = |rng: &mut Rng| {
        let text = words::any(rng);
        at_a_width(rng, text)
    };
    run(0..cases() / 5, make, |(text, width)| agrees_in_both_forms(text.as_bytes(), *width));
}

#[test]
fn random_texts_of_every_length() {
    for len in (0..=300).chain([4_095, 4_096, 4_097, 32_767, 32_768, 32_769, 59_999, 60_000]) {
        let first = 5 * len as u64;
        let make = |rng: &mut Rng| {
            let text = text::of_length(rng, len);
            at_a_width(rng, text)
        };
        run(first..first + 5, make, |(text, width)| agrees_in_both_forms(text.as_bytes(), *width));
    }
}

#[test]
fn random_texts_at_every_width() {
    let make = |rng: &mut Rng| text::of_length(rng, 1_000);
    run(0..40, make, |text| (0..=WIDTH_MOST).try_for_each(|width| agrees(text.as_bytes(), width)));
}

#[test]
fn every_string_of_six_items() {
    let items = ["a", " ", "\n", "\u{1B}", "\u{4F60}"];
    let count = every_string(&items, 6, |text| {
        for width in 0..=7 {
            agrees(text, width).unwrap_or_else(|wrong| panic!("{wrong}"));
        }
    });
    assert_eq!(count, 19_531);
}

/// Escapes cut by a space or a newline, and what would have ended them.
#[test]
fn every_string_of_five_items_about_escapes() {
    let items = ["ab", " ", "\n", "\u{1B}[", "\u{1B}]", "m", "\u{7}", "\u{1B}\\"];
    every_string(&items, 5, |text| {
        for width in [0, 1, 2, 3, 5] {
            agrees(text, width).unwrap_or_else(|wrong| panic!("{wrong}"));
        }
    });
}

/// A second fill at the same width changes nothing, and a larger width never gives an input line more lines.
#[test]
fn filled_again_and_wider() {
    let make = |rng: &mut Rng| text::of_length(rng, 200);
    run(0..cases() / 20, make, |text| {
        let mut most = usize::MAX;
        for width in 0..40 {
            let mut ours = text.as_bytes().to_vec();
            let count = fill_inplace(&mut ours, width).unwrap();
            if count > most {
                return Err(format!("{}: more lines than at the width before", said(text.as_bytes(), width)));
            }
            most = count;
            if fill_inplace(&mut ours, width) != Ok(0) {
                return Err(format!("{}: filled again it changes", said(text.as_bytes(), width)));
            }
        }
        Ok(())
    });
}

// ---- texts that are refused

#[test]
fn damaged_texts() {
    let make = |rng: &mut Rng| {
        let good = if rng.one_in(2) { text::any(rng) } else { words::any(rng) };
        damage::damaged(rng, good.as_bytes())
    };
    run(0..cases() / 5, make, |text| agrees_in_both_forms(text, 3));
}

#[test]
fn faults_leave_the_text_as_it_was() {
    for fault in damage::FAULTS {
        for around in ["", "a b ", "\u{1B}] ", "\n a"] {
            let text = [around.as_bytes(), fault, around.as_bytes()].concat();
            let mut ours = text.clone();
            assert_eq!(fill_inplace(&mut ours, 1), Err(Refusal { number: 2, place: around.len() }), "{}", shown(&text));
            assert_eq!(ours, text);
            hold(&text, 1);
        }
    }
}

#[test]
fn limits() {
    let text = b"a ".repeat(30_001);
    for len in [59_999, 60_000, 60_001, 60_002] {
        for width in [0, 1, 2, 254, 255, 256, 257, u32::MAX] {
            hold(&text[..len], width);
        }
    }
    assert_eq!(fill(&mut text[..60_000].to_vec(), 0), done(29_999));
    assert_eq!(fill(&mut text[..60_001].to_vec(), 0), refused(1, 60_001));
    assert_eq!(fill(&mut b"a b".to_vec(), 255), done(0));
    assert_eq!(fill(&mut b"a b".to_vec(), 256), refused(3, 0));
}

/// Every set of reasons to refuse, or none: 1 goes before 2, 2 before 3.
#[test]
fn order_of_refusals() {
    let good = b"a b ".repeat(15_000);
    for reasons in 0..8 {
        let [long, faulty, wide] = [1, 2, 4].map(|reason| reasons & reason != 0);
        let mut text = good.clone();
        if long {
            text.push(b' ');
        }
        if faulty {
            text[59_990] = 0xFF;
        }
        let width = if wide { 256 } else { 1 };
        let number = match (long, faulty, wide) {
            (true, ..) => 1,
            (_, true, _) => 2,
            (.., true) => 3,
            _ => 0,
        };
        assert_eq!(fill(&mut text.clone(), width).number, number, "reasons {reasons:03b}");
        hold(&text, width);
    }
}
