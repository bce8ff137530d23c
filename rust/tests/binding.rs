//! The binding itself: how an answer lies in memory, and what a refusal says.

use std::mem::{align_of, offset_of, size_of};

use kenupatun::{
    break_apart, break_words, display_width, find_words, measure, word_of, words_into, Answer, Refusal, WordAnswer,
};

/// As `kenupatun.h` has it.
#[test]
fn an_answer_lies_as_in_c() {
    assert_eq!((size_of::<Answer>(), align_of::<Answer>()), (24, 8));
    assert_eq!(offset_of!(Answer, number), 0);
    assert_eq!(offset_of!(Answer, place), 8);
    assert_eq!(offset_of!(Answer, count), 16);
}

/// As `kenupatun_word` of `kenupatun.h` has it.
#[test]
fn an_answer_with_a_word_lies_as_in_c() {
    assert_eq!((size_of::<WordAnswer>(), align_of::<WordAnswer>()), (56, 8));
    assert_eq!(offset_of!(WordAnswer, number), 0);
    assert_eq!(offset_of!(WordAnswer, place), 8);
    assert_eq!(offset_of!(WordAnswer, count), 16);
    assert_eq!(offset_of!(WordAnswer, start), 24);
    assert_eq!(offset_of!(WordAnswer, end), 32);
    assert_eq!(offset_of!(WordAnswer, white), 40);
    assert_eq!(offset_of!(WordAnswer, width), 48);
}

#[test]
fn an_empty_slice_is_an_empty_text() {
    let nothing = Answer { number: 0, place: 0, count: 0 };
    assert_eq!(measure(&[]), nothing);
    assert_eq!(measure(&b"abc"[3..]), nothing);
    assert_eq!(measure(&Vec::new()), nothing);
    assert_eq!(words_into(&[], &mut [], &mut [], &mut [], &mut []), nothing);
    assert_eq!(word_of(&[]), WordAnswer { number: 0, place: 0, count: 1, start: 0, end: 0, white: 0, width: 0 });
    assert_eq!((find_words(&[]), break_apart(&[], 0), break_words(&[], 0)), (Ok(vec![]), Ok(vec![]), Ok(vec![])));
}

/// A slice may start at any address.
#[test]
fn a_slice_is_read_from_its_start_to_its_end() {
    let text = "a你é\u{1F600}b".repeat(20);
    for from in 0..32 {
        if text.is_char_boundary(from) {
            let part = &text[from..from + 11 * 4];
            let columns = part.chars().map(|c| if c < '\u{1100}' { 1 } else { 2 }).sum();
            assert_eq!(display_width(part.as_bytes()), Ok(columns));
        }
    }
}

#[test]
fn a_refusal_speaks_plainly() {
    let said = |text: &[u8]| display_width(text).unwrap_err().to_string();
    assert_eq!(said(&[b'a'; 60_001]), "the text has 60001 bytes, more than 60000");
    assert_eq!(said(b"abc\xC0\x80"), "the text is not UTF-8: no character starts at byte 3");
    let wide = break_apart(b"abc", 256).unwrap_err();
    assert_eq!(wide.to_string(), "the line width at index 0 exceeds 255");
    let short = words_into(b"a b c", &mut [0; 12], &mut [0; 12], &mut [0; 11], &mut [0; 12]).result().unwrap_err();
    assert_eq!(short.to_string(), "a list is too short: 3 places are needed");
    let unknown = Refusal { number: 99, place: 7 };
    assert_eq!(unknown.to_string(), "refusal 99 at place 7");
}

/// No two refusals of document 01 say the same, and none is without words.
#[test]
fn every_refusal_has_words() {
    let said: Vec<String> = (1..=14).map(|number| Refusal { number, place: 5 }.to_string()).collect();
    for (at, words) in said.iter().enumerate() {
        assert!(!words.starts_with("refusal"), "{words}");
        assert!(!said[..at].contains(words), "{words}");
    }
}
