//! Measure, held against the crate `textwrap` and Rust's own test of UTF-8.
//!
//! Number, place and count are always compared, with those of [`expected`] or with numbers written
//! out. `KENUPATUN_SEED` and `KENUPATUN_CASES` set the random cases (see `generate`).

use generate::{cases, damage, every_string, run, text, Rng};
use kenupatun::{display_width, measure, Answer, Refusal, TEXT_MOST};

const fn done(count: u64) -> Answer {
    Answer { number: 0, place: 0, count }
}

const fn refused(number: u32, place: usize) -> Answer {
    Answer { number, place: place as u64, count: 0 }
}

/// What document 01 asks for, said by others: the crate says the width, `std` the fault.
fn expected(text: &[u8]) -> Answer {
    if text.len() > TEXT_MOST {
        return refused(1, text.len());
    }
    match std::str::from_utf8(text) {
        Ok(text) => done(textwrap::core::display_width(text) as u64),
        Err(fault) => refused(2, fault.valid_up_to()),
    }
}

fn agrees(text: &[u8]) -> Result<(), String> {
    let (ours, theirs) = (measure(text), expected(text));
    if ours == theirs {
        return Ok(());
    }
    Err(format!("{} bytes, \"{}\": ours {ours:?}, expected {theirs:?}", text.len(), shown(text)))
}

/// A text for a message, whole unless it is long.
fn shown(text: &[u8]) -> String {
    match text.len() {
        0..=300 => text.escape_ascii().to_string(),
        _ => format!("{}\" .. \"{}", text[..100].escape_ascii(), text[text.len() - 100..].escape_ascii()),
    }
}

/// [`agrees`] for a text that is not random.
#[track_caller]
fn hold(text: &[u8]) {
    if let Err(wrong) = agrees(text) {
        panic!("{wrong}");
    }
}

// ---- document 01's examples

#[test]
fn examples_of_document_01() {
    let link = "\u{1B}]8;;http://example.com\u{1B}\\This is a link\u{1B}]8;;\u{1B}\\";
    for (text, columns) in [
        ("Café Plain", 10),
        ("\u{1B}[31mCafé Rouge\u{1B}[0m", 10),
        (link, 14),
        ("\u{4F60}\u{597D}", 4),
        ("Cafe\u{301} Plain", 11),
        ("ab \u{1B}]cd ef", 3),
    ] {
        assert_eq!(measure(text.as_bytes()), done(columns), "{text:?}");
        assert_eq!(display_width(text.as_bytes()), Ok(columns as usize), "{text:?}");
        hold(text.as_bytes());
    }
}

/// The rows of docs/DIFFERENCES.md: where the crate, and so Kenupatun, leaves ECMA-48.
#[test]
fn departures_from_ecma_48() {
    for (text, columns) in [
        ("\u{1B}[\u{4F60}m", 0),
        ("\u{1B}[\u{1B}[m", 1),
        ("\u{1B}]\u{07}a", 1),
        ("\u{1B}]\u{9C}a", 0),
        ("\u{9B}m", 2),
        ("\u{9D}\u{07}", 2),
        ("\u{1B}Pa\u{1B}\\", 1),
        ("\u{1B}(B", 1),
        ("\u{1B}\n", 0),
        ("\u{1B}\u{1B}[m", 2),
        ("\n", 1),
        ("\u{200D}", 2),
    ] {
        assert_eq!(measure(text.as_bytes()), done(columns), "{text:?}");
        hold(text.as_bytes());
    }
}

/// The columns of one text after another are not the sum of theirs, to either side.
#[test]
fn width_is_no_sum() {
    for (first, second, both) in [("a\u{1B}]", "b", 1), ("\u{1B}[", "\u{1B}[m", 1)] {
        let sum = measure(first.as_bytes()).count + measure(second.as_bytes()).count;
        assert_ne!(sum, both, "{first:?} {second:?}");
        assert_eq!(measure(format!("{first}{second}").as_bytes()), done(both), "{first:?} {second:?}");
    }
}

// ---- texts that are UTF-8

#[test]
fn random_texts() {
    run(0..cases(), text::any, |text| agrees(text.as_bytes()));
}

#[test]
fn random_texts_of_every_length() {
    for len in (0..=600).chain([4_095, 4_096, 4_097, 32_767, 32_768, 32_769, 59_999, 60_000]) {
        let first = 20 * len as u64;
        run(first..first + 20, |rng| text::of_length(rng, len), |text| agrees(text.as_bytes()));
    }
}

/// Each string by itself, and with two plain characters after it, which show by their columns
/// how it ended.
#[test]
fn every_string_of_five_items() {
    let items = ["\u{1B}", "[", "]", "\\", "\u{7}", "m", " ", "é", "\u{4F60}", "\u{1F600}"];
    let mut longer = Vec::new();
    let count = every_string(&items, 5, |text| {
        hold(text);
        longer.clear();
        longer.extend_from_slice(text);
        longer.extend_from_slice(b"  ");
        hold(&longer);
    });
    assert_eq!(count, 111_111);
}

/// Every character alone, right after ESC, and where it may end an escape: the space after it
/// shows by its column whether it did.
#[test]
fn every_character() {
    let mut text = String::new();
    for before in ["", "\u{1B}", "\u{1B}[", "\u{1B}[3", "\u{1B}]", "\u{1B}]\u{1B}"] {
        for c in '\0'..=char::MAX {
            text.clear();
            text.push_str(before);
            text.push(c);
            text.push(' ');
            hold(text.as_bytes());
        }
    }
}

// ---- texts that are not

#[test]
fn every_byte_string_of_length_three() {
    let bytes: Vec<[u8; 1]> = (0..=255).map(|byte| [byte]).collect();
    let count = every_string(&bytes, 3, hold);
    assert_eq!(count, 1 + 256 + 256 * 256 + 256 * 256 * 256);
}

/// Every string of four bytes at which a rule for heads or tails turns; and two such bytes, or one
/// or none, after every pair of a head of four, or what is nearly one, and another byte.
#[test]
fn every_string_of_turning_bytes() {
    let turns = damage::TURNS.map(|byte| [byte]);
    every_string(&turns, 4, hold);
    let mut text = Vec::new();
    for head in 0xF0..=0xF7 {
        for second in 0..=0xFF {
            every_string(&turns, 2, |rest| {
                text.clear();
                text.extend_from_slice(&[head, second]);
                text.extend_from_slice(rest);
                hold(&text);
            });
        }
    }
}

#[test]
fn damaged_texts() {
    let make = |rng: &mut Rng| {
        let good = text::any(rng);
        damage::damaged(rng, good.as_bytes())
    };
    run(0..cases(), make, |text| agrees(text));
}

/// Each fault, before and after each kind of text, also inside an escape.
#[test]
fn faults_in_every_state() {
    let around =
        ["", "a", "é", "\u{4F60}", "\u{1B}", "\u{1B}[", "\u{1B}[3", "\u{1B}]", "\u{1B}]\u{1B}", "\u{1B}]0\u{7}"];
    for fault in damage::FAULTS {
        for before in around {
            for after in around {
                let text = [before.as_bytes(), fault, after.as_bytes()].concat();
                assert_eq!(measure(&text), refused(2, before.len()), "{}", shown(&text));
            }
        }
    }
}

/// A slice that ends inside a character, although the bytes behind it would complete it.
#[test]
fn texts_cut_anywhere() {
    let make = |rng: &mut Rng| text::of_length(rng, 40);
    run(0..cases() / 20, make, |text| (0..=text.len()).try_for_each(|end| agrees(&text.as_bytes()[..end])));
}

// ---- the limit

#[test]
fn sixty_thousand_bytes_pass() {
    assert_eq!(measure(&[b'a'; 59_999]), done(59_999));
    assert_eq!(measure(&[b'a'; 60_000]), done(60_000));
    assert_eq!(measure("\u{4F60}".repeat(20_000).as_bytes()), done(40_000));
    assert_eq!(measure("\u{1B}[m".repeat(20_000).as_bytes()), done(0));
}

#[test]
fn one_byte_more_is_refused() {
    assert_eq!(measure(&[b'a'; 60_001]), refused(1, 60_001));
    assert_eq!(display_width(&[b'a'; 60_001]), Err(Refusal { number: 1, place: 60_001 }));
    for len in [60_002, 65_535, 65_536, 65_537, 120_000, 131_072, 1 << 20, 1 << 24] {
        assert_eq!(measure(&vec![b'a'; len]), refused(1, len));
    }
}

/// 1 goes before 2.
#[test]
fn a_long_text_is_refused_for_its_length_first() {
    assert_eq!(measure(&[0xFF; 60_001]), refused(1, 60_001));
    let mut text = vec![b'a'; 60_001];
    for at in [0, 30_000, 59_999, 60_000] {
        text[at] = 0xFF;
        assert_eq!(measure(&text), refused(1, 60_001));
        text[at] = b'a';
    }
}

#[test]
fn a_fault_is_found_up_to_the_last_byte() {
    for fault in damage::FAULTS {
        for len in [1_000, 60_000] {
            for (at, fill) in [(len - fault.len(), "a"), (len - fault.len() - 2, "é"), (0, "a")] {
                let mut text = fill.repeat(at / fill.len()).into_bytes();
                let place = text.len();
                text.extend_from_slice(fault);
                text.resize(len, b'a');
                assert_eq!(measure(&text), refused(2, place), "{}", shown(&text));
                hold(&text);
            }
        }
    }
}
