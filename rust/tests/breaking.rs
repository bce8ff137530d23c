//! Breaking, of one word and of a text's words, held against the crate `textwrap` and Rust's own test
//! of UTF-8.
//!
//! Number, place, count and every byte of the four lists are always compared (see `lent`).
//! `KENUPATUN_SEED` and `KENUPATUN_CASES` set the random cases (see `generate`).

mod lent;

use generate::{cases, damage, every_string, run, text, words, Rng};
use kenupatun::{break_apart, break_words, display_width, find_words, Refusal, Word, WIDTH_MOST};
use lent::{
    agrees, agrees_in_both_forms, agrees_on, any_lens, done, hold, hold_in_the_order_of_refusals,
    hold_on_lists_of_all_lengths, placed, refused, Call, PLACE,
};

/// Both functions at one width.
fn both(width: u32) -> [Call; 2] {
    [Call::BreakWord(width), Call::BreakWords(width)]
}

/// [`agrees_in_both_forms`] for both functions.
fn both_agree(text: &[u8], width: u32) -> Result<(), String> {
    both(width).into_iter().try_for_each(|call| agrees_in_both_forms(call, text))
}

/// [`agrees`] for both functions at all these widths.
fn agree_at(text: &[u8], mut widths: impl Iterator<Item = u32>) -> Result<(), String> {
    widths.try_for_each(|width| both(width).into_iter().try_for_each(|call| agrees(call, text)))
}

/// [`both_agree`] for a text that is not random.
#[track_caller]
fn hold_both(text: &[u8], width: u32) {
    both(width).into_iter().for_each(|call| hold(call, text));
}

/// Pieces as their content, whitespace and width.
fn told(text: &str, pieces: Result<Vec<Word>, Refusal>) -> Vec<(&str, usize, usize)> {
    pieces.unwrap().into_iter().map(|piece| (&text[piece.start..piece.end], piece.white, piece.width)).collect()
}

// ---- document 01's examples

#[test]
fn examples_of_document_01() {
    for (text, width, pieces) in [
        ("Hello!  ", 3, &[("Hel", 0, 3), ("lo!", 2, 3)][..]),
        ("\u{4F60}\u{597D}", 1, &[("\u{4F60}", 0, 2), ("\u{597D}", 0, 2)]),
    ] {
        assert_eq!(told(text, break_apart(text.as_bytes(), width)), pieces, "{text:?}");
        assert_eq!(told(text, break_words(text.as_bytes(), width)), pieces, "{text:?}");
        hold_both(text.as_bytes(), width);
    }
    let text = "ab \u{1B}]cd ef";
    let words = [("ab", 1, 2), ("\u{1B}]cd", 1, 0), ("ef", 0, 2)];
    assert_eq!(told(text, break_words(text.as_bytes(), 2)), words);
    // as one word, its escape never ends
    assert_eq!(told(text, break_apart(text.as_bytes(), 2)), [("ab", 0, 2), (" \u{1B}]cd ef", 0, 1)]);
}

/// At width 0 each piece has one character that takes columns.
#[test]
fn width_zero() {
    for (text, pieces) in [
        ("ab ", &[("a", 0, 1), ("b", 1, 1)][..]),
        ("\u{4F60}a", &[("\u{4F60}", 0, 2), ("a", 0, 1)]),
        ("\u{1B}[ma\u{1B}[mb", &[("\u{1B}[ma\u{1B}[m", 0, 1), ("b", 0, 1)]),
        ("\u{1B}[m", &[("\u{1B}[m", 0, 0)]),
    ] {
        assert_eq!(told(text, break_apart(text.as_bytes(), 0)), pieces, "{text:?}");
        hold_both(text.as_bytes(), 0);
    }
}

/// An escape stays whole, with the piece in which it was met, although the piece is full.
#[test]
fn escapes_stay_whole() {
    for (text, width, pieces) in [
        ("ab\u{1B}[31mcd\u{1B}[0m", 2, &[("ab\u{1B}[31m", 0, 2), ("cd\u{1B}[0m", 0, 2)][..]),
        ("\u{1B}]8;;x y\u{7}ab", 1, &[("\u{1B}]8;;x y\u{7}a", 0, 1), ("b", 0, 1)]),
        ("a\u{1B}", 1, &[("a\u{1B}", 0, 1)]),
        ("a\u{1B}]b  ", 1, &[("a\u{1B}]b", 2, 1)]),
    ] {
        assert_eq!(told(text, break_apart(text.as_bytes(), width)), pieces, "{text:?}");
        hold_both(text.as_bytes(), width);
    }
}

/// A word with empty content has no pieces; among the words of a text it stays.
#[test]
fn words_with_empty_content() {
    for width in [0, 1, 255] {
        assert_eq!(break_apart(b"", width), Ok(vec![]));
        assert_eq!(break_words(b"", width), Ok(vec![]));
        assert_eq!(break_apart(b"   ", width), Ok(vec![]));
        assert_eq!(break_words(b"   ", width), Ok(vec![Word { start: 0, end: 0, white: 3, width: 0 }]));
        assert_eq!(told("  a", break_words(b"  a", width)), [("", 2, 0), ("a", 0, 1)]);
        for text in ["", "   ", "  a"] {
            hold_both(text.as_bytes(), width);
        }
    }
    // leading spaces are content, where the whole text is the word
    assert_eq!(told("  a", break_apart(b"  a", 1)), [(" ", 0, 1), (" ", 0, 1), ("a", 0, 1)]);
}

// ---- texts that are UTF-8

/// A text, most of them about words, and a width.
fn case(rng: &mut Rng) -> (String, u32) {
    let text = match rng.below(4) {
        0 => text::any(rng),
        1 => words::any(rng),
        _ => words::one(rng),
    };
    (text, words::width(rng))
}

#[test]
fn random_texts_and_widths() {
    run(0..cases() / 12, case, |(text, width)| both_agree(text.as_bytes(), *width));
}

/// Every width for short texts, a few for long ones.
#[test]
fn random_texts_at_all_widths() {
    run(0..cases() / 1000, case, |(text, width)| match text.len() {
        0..=300 => agree_at(text.as_bytes(), 0..=WIDTH_MOST),
        _ => agree_at(text.as_bytes(), [0, 1, 2, *width, 254, 255].into_iter()),
    });
}

#[test]
fn random_texts_of_every_length() {
    for len in (0..=300).chain([4_096, 32_768, 59_999, 60_000]) {
        let first = 4 * len as u64;
        let make = |rng: &mut Rng| (text::of_length(rng, len), words::width(rng));
        run(first..first + 4, make, |(text, width)| both_agree(text.as_bytes(), *width));
    }
}

/// The items of the exhaustive tests.
const ITEMS: [&str; 8] = [" ", "\u{1B}", "[", "]", "m", "\u{7}", "é", "\u{4F60}"];

#[test]
fn every_string_of_five_items() {
    let count = every_string(&ITEMS, 5, |text| {
        // a text of five items is at most ten wide
        agree_at(text, (0..=4).chain([9, 10])).unwrap_or_else(|wrong| panic!("{wrong}"));
    });
    assert_eq!(count, 37_449);
}

#[test]
fn every_string_of_three_items_at_all_widths() {
    every_string(&ITEMS, 3, |text| {
        agree_at(text, 0..=WIDTH_MOST).unwrap_or_else(|wrong| panic!("{wrong}"));
    });
}

/// Words narrower and wider than every width, of narrow and of wide characters.
#[test]
fn short_and_long_words_at_all_widths() {
    for columns in (0..=20).chain(250..=260) {
        for (text, white) in [("a".repeat(columns), ""), ("\u{4F60}".repeat(columns / 2), "  ")] {
            agree_at((text + white).as_bytes(), 0..=WIDTH_MOST).unwrap_or_else(|wrong| panic!("{wrong}"));
        }
    }
}

/// A word that is not broken comes back as `Word::from` makes it. (`word.rs` has that word itself.)
#[test]
fn a_whole_text_as_one_word() {
    let check = |text: &String| {
        let word = placed(text, textwrap::core::Word::from(text));
        if word.end == 0 || word.width > WIDTH_MOST as usize {
            return Ok(());
        }
        for width in word.width as u32..=WIDTH_MOST.min(word.width as u32 + 2) {
            let pieces = break_apart(text.as_bytes(), width);
            if pieces != Ok(vec![word]) {
                return Err(format!("{text:?} at {width}: {pieces:?}, expected {word:?}"));
            }
        }
        Ok(())
    };
    run(0..cases() / 20, words::one, check);
    run(0..cases() / 60, text::any, check);
}

// ---- texts that are not

#[test]
fn damaged_texts() {
    let make = |rng: &mut Rng| {
        let (good, width) = case(rng);
        (damage::damaged(rng, good.as_bytes()), width)
    };
    run(0..cases() / 20, make, |(text, width)| both_agree(text, *width));
}

/// Each fault, before and after each kind of text.
#[test]
fn faults_everywhere() {
    let around = ["", " ", "a", "a ", " a", "é", "\u{4F60} ", "\u{1B}[ ", "\u{1B}] \u{1B}"];
    for fault in damage::FAULTS {
        for before in around {
            for after in around {
                let text = [before.as_bytes(), fault, after.as_bytes()].concat();
                assert_eq!(break_apart(&text, 1), Err(Refusal { number: 2, place: before.len() }));
                hold_both(&text, 1);
            }
        }
    }
}

// ---- lists

#[test]
fn lists_of_all_lengths() {
    for (text, width) in [("", 0), ("  ", 3), ("Hello!  ", 3), ("\u{4F60}\u{597D}", 1), (" ab c", 1)] {
        for call in both(width) {
            hold_on_lists_of_all_lengths(call, text.as_bytes());
        }
    }
}

#[test]
fn random_lists() {
    let make = |rng: &mut Rng| {
        let (text, width) = case(rng);
        let lens = any_lens(rng, break_words(text.as_bytes(), width).map_or(0, |pieces| pieces.len()));
        (text, (width, lens))
    };
    run(0..cases() / 40, make, |(text, (width, lens))| {
        let lens = lens.map(|len| len as usize);
        both(*width).into_iter().try_for_each(|call| agrees_on(call, text.as_bytes(), lens))
    });
}

/// The most pieces that a text may have.
#[test]
fn each_byte_is_a_piece() {
    let text = [b'a'; 60_000];
    for width in [0, 1] {
        for call in both(width) {
            assert_eq!(call.result(&text).map(|pieces| pieces.len()), Ok(60_000));
            hold(call, &text);
            for short in 0..4 {
                let mut lens = [PLACE * 60_000; 4];
                lens[short] -= 1;
                agrees_on(call, &text, lens).unwrap_or_else(|wrong| panic!("{wrong}"));
            }
        }
    }
}

// ---- limits

#[test]
fn sixty_thousand_bytes_pass_and_one_more_is_refused() {
    for part in ["a", " ", "ab  c ", "\u{4F60}", "\u{1B}[m"] {
        let mut text = part.repeat(60_000 / part.len()).into_bytes();
        assert_eq!(text.len(), 60_000);
        for width in [0, 3, 255] {
            hold_both(&text, width);
        }
        text.push(b'a');
        for call in both(255) {
            assert_eq!(call.expected(&text), Err(refused(1, 60_001)));
            hold(call, &text);
        }
    }
    for len in [60_002, 65_535, 65_536, 65_537, 131_072, 1 << 20] {
        hold_both(&vec![b'a'; len], 80);
    }
}

#[test]
fn width_255_passes_and_one_more_is_refused() {
    let word = "a".repeat(256);
    let pieces = [Word { start: 0, end: 255, white: 0, width: 255 }, Word { start: 255, end: 256, white: 0, width: 1 }];
    assert_eq!(break_apart(word.as_bytes(), 255).as_deref(), Ok(&pieces[..]));
    assert_eq!(break_words(word.as_bytes(), 255).as_deref(), Ok(&pieces[..]));
    let wider = [256, 257, 258, 511, 512, 65_535, 65_536, 65_791, 65_792, 1 << 24, 1 << 31, u32::MAX - 1, u32::MAX];
    for text in [word.as_str(), "", " ", "a b"] {
        hold_both(text.as_bytes(), 255);
        for width in wider {
            for call in both(width) {
                assert_eq!(call.result(text.as_bytes()), Err(Refusal { number: 3, place: 0 }));
                hold(call, text.as_bytes());
            }
        }
    }
}

#[test]
fn refusals_in_order() {
    hold_in_the_order_of_refusals(Call::BreakWord);
    hold_in_the_order_of_refusals(Call::BreakWords);
}

// ---- what pieces are

/// The pieces of a word, one after the other, are its content; the last has the whitespace; one that is
/// too wide has one character that takes columns; none could have taken the next one's first character.
#[test]
fn pieces_are_the_content() {
    let check = |(text, width): &(String, u32)| {
        let pieces = break_apart(text.as_bytes(), *width).map_err(|refused| refused.to_string())?;
        let width = *width as usize;
        let len = text.trim_end_matches(' ').len();
        let starts_and_end: Vec<usize> = pieces.iter().map(|piece| piece.start).chain([len]).collect();
        let content_is_whole = starts_and_end.first() == Some(&0) || pieces.is_empty();
        for (piece, next) in pieces.iter().zip(&starts_and_end[1..]) {
            let (content, after) = (&text[piece.start..piece.end], &text[*next..len]);
            let follows = piece.end == *next && !content.is_empty();
            let white = if *next == len { text.len() - len } else { 0 };
            let measured = display_width(content.as_bytes()) == Ok(piece.width);
            let fits = piece.width <= width || takes_columns_once(content);
            let full = after.chars().next().is_none_or(|c| piece.width + columns(c) > width);
            if !follows || piece.white != white || !measured || !fits || !full {
                return Err(format!("{text:?} at {width}: {piece:?}"));
            }
        }
        if content_is_whole {
            Ok(())
        } else {
            Err(format!("{text:?} at {width}: {pieces:?}"))
        }
    };
    run(0..cases() / 30, case, check);
}

/// The columns of a character outside escapes.
fn columns(c: char) -> usize {
    if c < '\u{1100}' {
        1
    } else {
        2
    }
}

/// Whether all but one character, escapes and what they skip, take no columns.
fn takes_columns_once(piece: &str) -> bool {
    let whole = display_width(piece.as_bytes());
    piece.char_indices().all(|(at, _)| {
        let before = display_width(&piece.as_bytes()[..at]);
        before == Ok(0) || before == whole
    })
}

/// Breaking a text's words is finding them, and breaking those that are too wide, each by itself.
#[test]
fn breaking_words_is_breaking_each() {
    let check = |(text, width): &(String, u32)| {
        let bytes = text.as_bytes();
        let mut wanted = Vec::new();
        for word in find_words(bytes).map_err(|refused| refused.to_string())? {
            if word.width <= *width as usize {
                wanted.push(word);
                continue;
            }
            let pieces = break_apart(&bytes[word.range()], *width).map_err(|refused| refused.to_string())?;
            let moved = |piece: Word| Word { start: word.start + piece.start, end: word.start + piece.end, ..piece };
            wanted.extend(pieces.into_iter().map(moved));
        }
        let pieces = break_words(bytes, *width);
        let whole: usize = wanted.iter().map(|piece| piece.range().len()).sum();
        if pieces.as_ref() == Ok(&wanted) && whole == text.len() {
            return Ok(());
        }
        Err(format!("{text:?} at {width}: {pieces:?}, expected {wanted:?}"))
    };
    run(0..cases() / 30, case, check);
}

#[test]
fn an_answer_counts_the_pieces() {
    for (text, one, all) in [("", 0, 0), ("  ", 0, 1), ("abc", 2, 2), (" abc", 2, 3)] {
        let mut lists = [[0; 12]; 4];
        let [starts, ends, whites, widths] = &mut lists;
        assert_eq!(kenupatun::break_word_into(text.as_bytes(), 2, starts, ends, whites, widths), done(one));
        assert_eq!(kenupatun::break_words_into(text.as_bytes(), 2, starts, ends, whites, widths), done(all));
    }
}
