//! A whole text as one word, held against the crate's `Word::from` and Rust's own test of UTF-8.
//!
//! All seven numbers of the answer are always compared. `KENUPATUN_SEED` and `KENUPATUN_CASES` set
//! the random cases (see `generate`).

use std::str::from_utf8;

use generate::{cases, damage, every_string, run, text, words, Rng};
use kenupatun::{word_from, word_of, Refusal, Word, WordAnswer, TEXT_MOST};

const fn refused(number: u32, place: usize) -> WordAnswer {
    WordAnswer { number, place: place as u64, count: 0, start: 0, end: 0, white: 0, width: 0 }
}

const fn made(end: usize, white: usize, width: usize) -> WordAnswer {
    let (end, white, width) = (end as u64, white as u64, width as u64);
    WordAnswer { number: 0, place: 0, count: 1, start: 0, end, white, width }
}

/// What document 01 asks for, said by others: the crate makes the word, `std` finds the fault.
fn expected(text: &[u8]) -> WordAnswer {
    if text.len() > TEXT_MOST {
        return refused(1, text.len());
    }
    match from_utf8(text) {
        Ok(line) => {
            let word = textwrap::core::Word::from(line);
            // the crate tells parts and no offsets: these are the parts of which the text is made
            assert_eq!(format!("{}{}", word.word, word.whitespace), line);
            assert_eq!(word.penalty, "");
            made(word.word.len(), word.whitespace.len(), word.width)
        }
        Err(fault) => refused(2, fault.valid_up_to()),
    }
}

fn agrees(text: &[u8]) -> Result<(), String> {
    let (ours, theirs) = (word_of(text), expected(text));
    if ours == theirs {
        return Ok(());
    }
    Err(format!("{} bytes, \"{}\": ours {ours:?}, expected {theirs:?}", text.len(), shown(text)))
}

/// A text for a message, whole unless it is long.
fn shown(text: &[u8]) -> String {
    match text.len() {
        0..=300 => text.escape_ascii().to_string(),
        _ => format!("{}\" .. \"{}", text[..100].escape_ascii(), text[text.len() - 100..].escape_ascii()),
    }
}

/// [`agrees`] for a text that is not random.
#[track_caller]
fn hold(text: &[u8]) {
    if let Err(wrong) = agrees(text) {
        panic!("{wrong}");
    }
}

// ---- texts that are UTF-8

#[test]
fn examples() {
    for (text, end, white, width) in [
        ("", 0, 0, 0),
        (" ", 0, 1, 0),
        ("     ", 0, 5, 0),
        ("Hello!  ", 6, 2, 6),
        (" foo bar  ", 8, 2, 8),
        ("Cafe\u{301} Plain", 12, 0, 11),
        ("\u{4F60}\u{597D} ", 6, 1, 4),
        // only 20 is a space
        ("a \n", 3, 0, 3),
        ("a\t ", 2, 1, 2),
        ("a\u{3000}", 4, 0, 3),
        // an escape that never ends hides what follows it, but no space at the end is content
        ("ab \u{1B}]cd ef  ", 10, 2, 3),
        ("\u{1B}[  ", 2, 2, 0),
        ("\u{1B} ", 1, 1, 0),
    ] {
        assert_eq!(word_of(text.as_bytes()), made(end, white, width), "{text:?}");
        assert_eq!(word_from(text.as_bytes()), Ok(Word { start: 0, end, white, width }), "{text:?}");
        hold(text.as_bytes());
    }
}

#[test]
fn random_texts() {
    run(0..cases() / 4, words::one, |text| agrees(text.as_bytes()));
    run(0..cases() / 12, words::any, |text| agrees(text.as_bytes()));
    run(0..cases() / 12, text::any, |text| agrees(text.as_bytes()));
}

#[test]
fn random_texts_of_every_length() {
    for len in (0..=600).chain([4_095, 4_096, 4_097, 32_768, 59_999, 60_000]) {
        let first = 8 * len as u64;
        run(first..first + 8, |rng| text::of_length(rng, len), |text| agrees(text.as_bytes()));
    }
}

#[test]
fn every_string_of_six_items() {
    let items = [" ", "\u{1B}", "[", "]", "m", "\u{7}", "é", "\u{4F60}"];
    let count = every_string(&items, 6, hold);
    assert_eq!(count, 299_593);
}

/// Nothing but spaces, and spaces after and before content, in every number around each power of two.
#[test]
fn runs_of_spaces() {
    for len in (0..=300).chain([4_095, 4_096, 4_097, 59_998, 59_999, 60_000, 60_001]) {
        let spaces = " ".repeat(len);
        for text in [spaces.clone(), format!("a{spaces}"), format!("{spaces}a"), format!("\u{4F60}{spaces}\u{1B}")] {
            hold(text.as_bytes());
        }
    }
}

/// No width is too large for one word.
#[test]
fn words_wider_than_any_line() {
    for columns in (250..=520).chain([65_534, 65_535, 65_536]) {
        let narrow = "a".repeat(columns);
        let wide = "\u{4F60}".repeat(columns / 2) + "  ";
        hold(narrow.as_bytes());
        hold(wide.as_bytes());
    }
    assert_eq!(word_of("\u{4F60}".repeat(20_000).as_bytes()), made(60_000, 0, 40_000));
    assert_eq!(word_of("a".repeat(300).as_bytes()), made(300, 0, 300));
}

// ---- texts that are not

#[test]
fn every_byte_string_of_length_two() {
    let bytes: Vec<[u8; 1]> = (0..=255).map(|byte| [byte]).collect();
    every_string(&bytes, 2, hold);
}

#[test]
fn damaged_texts() {
    let make = |rng: &mut Rng| {
        let good = words::one(rng);
        damage::damaged(rng, good.as_bytes())
    };
    run(0..cases() / 8, make, |text| agrees(text));
}

/// Each fault, before and after each kind of text, also inside an escape and before spaces at the end.
#[test]
fn faults_everywhere() {
    let around = ["", " ", "a", "a ", " a", "é", "\u{4F60} ", "\u{1B}[ ", "\u{1B}] \u{1B}"];
    for fault in damage::FAULTS {
        for before in around {
            for after in around {
                let text = [before.as_bytes(), fault, after.as_bytes()].concat();
                assert_eq!(word_of(&text), refused(2, before.len()), "{}", shown(&text));
                hold(&text);
            }
        }
    }
}

/// A slice that ends inside a character, although the bytes behind it would complete it.
#[test]
fn texts_cut_anywhere() {
    let make = |rng: &mut Rng| text::of_length(rng, 40);
    run(0..cases() / 60, make, |text| (0..=text.len()).try_for_each(|end| agrees(&text.as_bytes()[..end])));
}

// ---- the limit

#[test]
fn sixty_thousand_bytes_pass_and_one_more_is_refused() {
    for part in ["a", " ", "ab  c ", "\u{4F60}", "\u{1B}[m"] {
        let mut text = part.repeat(60_000 / part.len()).into_bytes();
        assert_eq!((text.len(), word_of(&text).number), (60_000, 0));
        hold(&text);
        text.push(b' ');
        assert_eq!(word_of(&text), refused(1, 60_001));
        // 1 goes before 2
        text[30_000] = 0xFF;
        assert_eq!(word_of(&text), refused(1, 60_001));
        assert_eq!(word_from(&text), Err(Refusal { number: 1, place: 60_001 }));
    }
    for len in [60_002, 65_535, 65_536, 65_537, 131_072, 1 << 20] {
        assert_eq!(word_of(&vec![b' '; len]), refused(1, len));
    }
}
