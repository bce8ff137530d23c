//! The word finder, held against the crate `textwrap` and Rust's own test of UTF-8.
//!
//! Number, place, count and every byte of the four lists are always compared (see `lent`).
//! `KENUPATUN_SEED` and `KENUPATUN_CASES` set the random cases (see `generate`).

mod lent;

use generate::{cases, damage, every_string, run, text, words, Rng};
use kenupatun::{display_width, find_words, Refusal, Word};
use lent::{
    agrees, agrees_in_both_forms, agrees_on, any_lens, done, hold, hold_in_the_order_of_refusals,
    hold_on_lists_of_all_lengths, refused, Call, PLACE,
};

/// Words as tuples: start, content end, whitespace, width.
fn tuples(text: &str) -> Vec<(usize, usize, usize, usize)> {
    let words = find_words(text.as_bytes()).unwrap();
    words.into_iter().map(|Word { start, end, white, width }| (start, end, white, width)).collect()
}

// ---- document 01's examples

#[test]
fn examples_of_document_01() {
    for (text, words) in [
        ("", &[][..]),
        ("ab \u{1B}]cd ef", &[(0, 2, 1, 2), (3, 7, 1, 0), (8, 10, 0, 2)]),
        ("foo  bar", &[(0, 3, 2, 3), (5, 8, 0, 3)]),
        ("  foo", &[(0, 0, 2, 0), (2, 5, 0, 3)]),
        ("Hello!  ", &[(0, 6, 2, 6)]),
        ("\u{4F60}\u{597D}", &[(0, 6, 0, 4)]),
        ("Cafe\u{301} Plain", &[(0, 6, 1, 5), (7, 12, 0, 5)]),
    ] {
        assert_eq!(tuples(text), words, "{text:?}");
        hold(Call::Words, text.as_bytes());
    }
}

/// Only 20 is a space, and nothing else ends a word.
#[test]
fn what_is_no_space() {
    for (text, words) in [
        (" ", &[(0, 0, 1, 0)][..]),
        ("   ", &[(0, 0, 3, 0)]),
        ("a\nb", &[(0, 3, 0, 3)]),
        ("a\n b", &[(0, 2, 1, 2), (3, 4, 0, 1)]),
        ("\n", &[(0, 1, 0, 1)]),
        ("a\tb\r\nc", &[(0, 6, 0, 6)]),
        ("a\u{A0}b\u{3000}c", &[(0, 8, 0, 6)]),
        ("a\0 b", &[(0, 2, 1, 2), (3, 4, 0, 1)]),
    ] {
        assert_eq!(tuples(text), words, "{text:?}");
        hold(Call::Words, text.as_bytes());
    }
}

/// A space inside an escape ends the word, and the escape's state with it.
#[test]
fn an_escape_ends_with_its_word() {
    for (text, words) in [
        ("\u{1B} a", &[(0, 1, 1, 0), (2, 3, 0, 1)][..]),
        ("\u{1B}[ m", &[(0, 2, 1, 0), (3, 4, 0, 1)]),
        ("\u{1B}[3 1mx", &[(0, 3, 1, 0), (4, 7, 0, 3)]),
        ("\u{1B}]0;a b\u{7}c", &[(0, 5, 1, 0), (6, 9, 0, 3)]),
        ("\u{1B}]0;a\u{1B} \\c", &[(0, 6, 1, 0), (7, 9, 0, 2)]),
        ("a\u{1B}]b  \u{4F60}", &[(0, 4, 2, 1), (6, 9, 0, 2)]),
    ] {
        assert_eq!(tuples(text), words, "{text:?}");
        hold(Call::Words, text.as_bytes());
    }
}

// ---- texts that are UTF-8

#[test]
fn random_texts() {
    run(0..cases() / 10, text::any, |text| agrees_in_both_forms(Call::Words, text.as_bytes()));
}

#[test]
fn random_texts_about_words() {
    run(0..cases() / 10, words::any, |text| agrees_in_both_forms(Call::Words, text.as_bytes()));
}

#[test]
fn random_texts_of_every_length() {
    for len in (0..=300).chain([4_095, 4_096, 4_097, 32_767, 32_768, 32_769, 59_999, 60_000]) {
        let first = 5 * len as u64;
        let make = |rng: &mut Rng| text::of_length(rng, len);
        run(first..first + 5, make, |text| agrees_in_both_forms(Call::Words, text.as_bytes()));
    }
}

#[test]
fn every_string_of_six_items() {
    let items = [" ", "\u{1B}", "[", "]", "m", "\u{7}", "é", "\u{4F60}"];
    let count = every_string(&items, 6, |text| agrees(Call::Words, text).unwrap_or_else(|wrong| panic!("{wrong}")));
    assert_eq!(count, 299_593);
}

/// Every character as a word, and where it might be taken for a space.
#[test]
fn every_character() {
    let mut text = String::new();
    for c in ('\0'..='\u{FFFF}').chain(('\u{10000}'..=char::MAX).step_by(0x101)) {
        text.clear();
        text.extend(['a', c, ' ', c]);
        agrees(Call::Words, text.as_bytes()).unwrap_or_else(|wrong| panic!("{wrong}"));
    }
}

// ---- texts that are not

#[test]
fn damaged_texts() {
    let make = |rng: &mut Rng| {
        let good = if rng.one_in(2) { text::any(rng) } else { words::any(rng) };
        damage::damaged(rng, good.as_bytes())
    };
    run(0..cases() / 10, make, |text| agrees_in_both_forms(Call::Words, text));
}

/// Each fault, before and after each kind of text. What stands before it is not listed.
#[test]
fn faults_everywhere() {
    let around = ["", " ", "a", "a ", " a", "a  b", "é", "\u{4F60} ", "\u{1B}", "\u{1B}[ ", "\u{1B}] \u{1B}"];
    for fault in damage::FAULTS {
        for before in around {
            for after in around {
                let text = [before.as_bytes(), fault, after.as_bytes()].concat();
                assert_eq!(find_words(&text), Err(Refusal { number: 2, place: before.len() }));
                hold(Call::Words, &text);
            }
        }
    }
}

/// A slice that ends inside a character, although the bytes behind it would complete it.
#[test]
fn texts_cut_anywhere() {
    let make = |rng: &mut Rng| text::of_length(rng, 40);
    let check = |text: &String| (0..=40).try_for_each(|end| agrees(Call::Words, &text.as_bytes()[..end]));
    run(0..cases() / 300, make, check);
}

// ---- lists

#[test]
fn lists_of_all_lengths() {
    for text in ["", " ", "a", "ab \u{1B}]cd ef", "  a  b  "] {
        hold_on_lists_of_all_lengths(Call::Words, text.as_bytes());
    }
}

#[test]
fn random_lists() {
    let make = |rng: &mut Rng| {
        let text = words::any(rng);
        let lens = any_lens(rng, find_words(text.as_bytes()).map_or(0, |words| words.len()));
        (text, lens)
    };
    run(0..cases() / 20, make, |(text, lens)| agrees_on(Call::Words, text.as_bytes(), lens.map(|len| len as usize)));
}

/// The most words that a text may have.
#[test]
fn half_of_the_bytes_are_words() {
    for (text, count) in
        [("a ".repeat(30_000), 30_000), (" a".repeat(30_000), 30_001), ("a ".repeat(2), 2), (" a".repeat(2), 3)]
    {
        assert_eq!(find_words(text.as_bytes()).map(|words| words.len()), Ok(count));
        hold(Call::Words, text.as_bytes());
        for short in 0..4 {
            let mut lens = [PLACE * count; 4];
            lens[short] -= 1;
            agrees_on(Call::Words, text.as_bytes(), lens).unwrap_or_else(|wrong| panic!("{wrong}"));
        }
    }
}

// ---- limits

#[test]
fn sixty_thousand_bytes_pass_and_one_more_is_refused() {
    for part in ["a", " ", "ab  c ", "\u{4F60} "] {
        let mut text = part.repeat(60_000 / part.len()).into_bytes();
        assert_eq!(text.len(), 60_000);
        hold(Call::Words, &text[..59_999.min(text.len())]);
        hold(Call::Words, &text);
        text.push(b' ');
        assert_eq!(Call::Words.expected(&text), Err(refused(1, 60_001)));
        hold(Call::Words, &text);
    }
    for len in [60_002, 65_535, 65_536, 65_537, 131_072, 1 << 20] {
        let text = vec![b' '; len];
        assert_eq!(Call::Words.expected(&text), Err(refused(1, len)));
        hold(Call::Words, &text);
    }
}

#[test]
fn refusals_in_order() {
    hold_in_the_order_of_refusals(|_| Call::Words);
}

// ---- what words are

/// The words, one after the other, are the text; content has no space, whitespace nothing else, and
/// only the first word's content may be empty.
#[test]
fn words_are_the_text() {
    let check = |text: &String| {
        let bytes = text.as_bytes();
        let words = find_words(bytes).map_err(|refused| refused.to_string())?;
        let mut at = 0;
        for word in &words {
            let whole = word.start == at && word.range().end > at;
            let (content, white) = (word.content(bytes), &bytes[word.end..word.range().end]);
            let parted = !content.contains(&b' ') && white.iter().all(|byte| *byte == b' ');
            if !whole || !parted || (content.is_empty() && at > 0) || display_width(content) != Ok(word.width) {
                return Err(format!("{text:?}: {word:?}"));
            }
            at = word.range().end;
        }
        if at == text.len() {
            Ok(())
        } else {
            Err(format!("{text:?}: the words end at {at}"))
        }
    };
    run(0..cases() / 30, text::any, check);
    run(0..cases() / 30, words::any, check);
}

#[test]
fn an_answer_counts_the_words() {
    for (text, count) in [("", 0), ("a", 1), ("a b", 2), (" a b ", 3)] {
        let mut lists = [[0; 16]; 4];
        let [starts, ends, whites, widths] = &mut lists;
        assert_eq!(kenupatun::words_into(text.as_bytes(), starts, ends, whites, widths), done(count));
    }
}
