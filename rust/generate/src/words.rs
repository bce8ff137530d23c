//! Texts about words: where they end, what follows them, and how wide they are.
//!
//! A text is a row of words and runs of spaces. Words are short, long, wide, of both widths, with an
//! escape inside or nothing but escapes; an escape may have spaces inside, or end at one too early.

use crate::text::{cut, escape, length, push_letters, BEL, ESC, WIDTHS};
use crate::Rng;

/// Escapes that a space cuts: what stands after the space is in another word.
const CUT: [&str; 8] =
    ["\u{1B}", "\u{1B}[", "\u{1B}[3", "\u{1B}]", "\u{1B}]8;;", "\u{1B}]\u{1B}", "a\u{1B}]b", "a\u{1B}["];

/// What would end an escape, had it not ended with its word.
const ENDS: [&str; 5] = ["m", "\u{7}", "\u{1B}\\", "\\", "[m"];

/// Characters that a word may have and that mean something to words or escapes, each alone.
const LOOSE: [char; 14] = [ESC, ESC, '[', ']', '\\', BEL, 'm', '@', '~', '\n', '\t', '\u{A0}', '\u{3000}', '\u{4F60}'];

/// How often each kind of word comes: letters, a long one, wide characters, characters of both
/// widths, letters around an escape, an escape, an escape cut by a space, loose characters.
const MIXTURES: [[usize; 8]; 5] = [
    [10, 0, 0, 0, 0, 0, 0, 0],
    [10, 1, 3, 3, 0, 0, 0, 0],
    [3, 1, 1, 1, 5, 5, 5, 0],
    [0, 0, 0, 0, 0, 2, 0, 10],
    [1, 1, 1, 1, 1, 1, 1, 1],
];

/// A text of many words, some with spaces at its start or end, some nothing but spaces.
/// Its length is as in [`text::any`](crate::text::any).
pub fn any(rng: &mut Rng) -> String {
    let len = length(rng);
    if rng.one_in(30) {
        return " ".repeat(len);
    }
    let mixture = rng.pick(&MIXTURES);
    let mut text = String::with_capacity(len + 64);
    if rng.one_in(3) {
        push_spaces(rng, &mut text);
    }
    while text.len() < len {
        push_word(rng, &mixture, &mut text);
        push_spaces(rng, &mut text);
    }
    cut(&mut text, len);
    if rng.one_in(2) {
        text.truncate(text.trim_end_matches(' ').len());
    }
    text
}

/// A text to be taken as one word: most have spaces at their end alone.
pub fn one(rng: &mut Rng) -> String {
    if rng.one_in(4) {
        return any(rng);
    }
    let mixture = rng.pick(&MIXTURES);
    let mut text = String::new();
    for _ in 0..rng.between(1, 4) {
        push_word(rng, &mixture, &mut text);
    }
    if rng.one_in(3) {
        push_spaces(rng, &mut text);
    }
    text
}

/// A width from 0 to 255, small ones more often.
pub fn width(rng: &mut Rng) -> u32 {
    let most = rng.pick(&[3, 20, 255]);
    rng.between(0, most) as u32
}

/// One space or a few, seldom hundreds.
fn push_spaces(rng: &mut Rng, text: &mut String) {
    let count = match rng.below(200) {
        0 => rng.between(50, 400),
        1..=60 => rng.between(2, 5),
        _ => 1,
    };
    text.extend(std::iter::repeat_n(' ', count));
}

fn push_word(rng: &mut Rng, mixture: &[usize; 8], text: &mut String) {
    match rng.kind(mixture) {
        0 => push_letters(rng, 11, text),
        1 => push_letters(rng, 300, text),
        2 => push_characters(rng, &WIDTHS, text),
        3 => push_characters(rng, &['a', 'b', 'é', '\u{10FF}', '\u{1100}', '\u{4F60}', '\u{1F600}'], text),
        4 => {
            push_letters(rng, 5, text);
            text.push_str(&escape(rng));
            push_letters(rng, 5, text);
        }
        5 => text.push_str(&escape(rng)),
        6 => {
            text.push_str(rng.pick(&CUT));
            push_spaces(rng, text);
            text.push_str(rng.pick(&ENDS));
        }
        _ => push_characters(rng, &LOOSE, text),
    }
}

fn push_characters(rng: &mut Rng, characters: &[char], text: &mut String) {
    for _ in 0..rng.between(1, 20) {
        text.push(rng.pick(characters));
    }
}

#[cfg(test)]
mod tests {
    use super::*;

    /// Each kind of text about words turns up within a thousand.
    #[test]
    fn the_corners_of_words_are_reached() {
        let texts: Vec<String> = (0..1000).map(|case| any(&mut Rng::of_case(7, case))).collect();
        let count = |what: &str, is: fn(&str) -> bool| {
            let count = texts.iter().filter(|text| is(text)).count();
            assert!(count > 10, "{what}: {count} of 1000");
        };
        count("empty", |text| text.is_empty());
        count("only spaces", |text| !text.is_empty() && text.trim_matches(' ').is_empty());
        count("spaces at the start", |text| text.starts_with(' ') && !text.trim_matches(' ').is_empty());
        count("spaces at the end", |text| text.ends_with(' ') && !text.trim_matches(' ').is_empty());
        count("no spaces at either end", |text| !text.is_empty() && text.trim_matches(' ') == text);
        count("a run of spaces", |text| text.contains("   "));
        count("a long run of spaces", |text| text.contains(&" ".repeat(50)));
        count("a long word", |text| text.split(' ').any(|word| word.len() > 100));
        count("a wide word", |text| text.split(' ').any(|word| word.chars().filter(|c| *c >= '\u{1100}').count() > 5));
        count("a space inside an escape", |text| text.contains("\u{1B}] ") || text.contains("\u{1B}[ "));
        count("a line end", |text| text.contains('\n'));
    }

    #[test]
    fn a_text_comes_back_from_its_seed_and_case() {
        for case in 0..100 {
            assert_eq!(any(&mut Rng::of_case(7, case)), any(&mut Rng::of_case(7, case)));
            assert_eq!(one(&mut Rng::of_case(7, case)), one(&mut Rng::of_case(7, case)));
        }
    }

    #[test]
    fn widths_reach_both_ends() {
        let widths: Vec<u32> = (0..5000).map(|case| width(&mut Rng::of_case(7, case))).collect();
        assert!(widths.iter().all(|width| *width <= 255));
        for wanted in [0, 1, 2, 254, 255] {
            assert!(widths.contains(&wanted), "{wanted} never comes");
        }
    }
}
