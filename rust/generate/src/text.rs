//! Texts that are UTF-8.
//!
//! A text is a row of parts: words, spaces, line ends, characters at a corner of UTF-8 or of
//! the width rule, escapes that are whole or cut short. How often each kind of part comes is
//! drawn anew for each text, so that some are prose and some little but escapes.

use crate::Rng;

/// ESC, with which an escape starts.
pub const ESC: char = '\u{1B}';
/// BEL, which ends ESC `]`.
pub const BEL: char = '\u{7}';

/// The first and the last character of each length in UTF-8, and those beside the surrogates.
#[rustfmt::skip]
pub const BOUNDARIES: [char; 10] = [
    '\0', '\u{7F}', '\u{80}', '\u{7FF}', '\u{800}', '\u{D7FF}', '\u{E000}', '\u{FFFF}', '\u{10000}', '\u{10FFFF}',
];

/// Characters about which a width rule may go wrong: the last narrow and the first wide one,
/// combining and joining ones, a variation selector, spaces that are not 20, Han, kana, emoji.
#[rustfmt::skip]
pub const WIDTHS: [char; 14] = [
    '\u{10FF}', '\u{1100}', '\u{301}', '\u{200B}', '\u{200D}', '\u{FE0F}', '\u{A0}', '\u{3000}',
    '\u{4F60}', '\u{597D}', '\u{3042}', '\u{FF21}', '\u{1F600}', '\u{1F468}',
];

/// What ESC `[` may have before the character that ends it, which is one from 40 to 7E.
#[rustfmt::skip]
const CSI_INSIDE: [char; 20] = [
    '0', '1', '3', '8', ';', ':', '?', ' ', '!', '/',
    '\n', '\u{1}', '\u{7F}', ESC, BEL, 'é', '\u{10FF}', '\u{4F60}', '\u{FFFF}', '\u{1F600}',
];
const CSI_FINAL: [char; 10] = ['m', 'm', 'K', '@', 'A', '[', '\\', ']', '~', '}'];

/// What ESC `]` may have before its end. A backslash ends it directly after an ESC alone.
#[rustfmt::skip]
const OSC_INSIDE: [&str; 14] = [
    "8;;", "0;title", "http://example.com/", " ", "  ", "a", "\\", "\n",
    "[", "]", "\u{1B}", "\u{1B}[", "é\\", "\u{4F60}\\",
];
const OSC_END: [&str; 5] = ["\u{7}", "\u{1B}\\", "\u{1B}\u{1B}\\", "\u{1B}a\u{1B}\\", "\u{1B}\u{7}"];

/// Characters that mean something to the escape rule, each alone.
const LOOSE: [char; 14] = [ESC, ESC, ESC, '[', ']', '\\', BEL, 'm', ' ', '?', '@', '~', '\u{7F}', '\u{4F60}'];

/// What ends or divides lines, and what might be taken for it.
const LINE_ENDS: [&str; 8] = ["\n", "\n", "\n\n", "\n \n", "\r\n", "\r", "\t", "\0"];

/// How often each kind of part comes: word, spaces, line end, corner, any character, escape,
/// loose character.
const MIXTURES: [[usize; 7]; 6] = [
    [10, 10, 1, 0, 0, 0, 0],
    [10, 12, 2, 2, 1, 3, 0],
    [4, 4, 1, 0, 0, 10, 2],
    [1, 1, 1, 8, 8, 0, 0],
    [0, 2, 0, 0, 0, 0, 10],
    [1, 1, 1, 1, 1, 1, 1],
];

/// A text of exactly `len` bytes.
pub fn of_length(rng: &mut Rng, len: usize) -> String {
    let mixture = rng.pick(&MIXTURES);
    let mut text = String::with_capacity(len + 64);
    while text.len() < len {
        push_part(rng, &mixture, &mut text);
    }
    let filler = rng.pick(&['a', ' ']);
    cut(&mut text, len);
    while text.len() < len {
        text.push(filler);
    }
    text
}

/// A text of any length: most have a few bytes, some have hundreds, one in a thousand up to 60,000.
pub fn any(rng: &mut Rng) -> String {
    let len = length(rng);
    of_length(rng, len)
}

/// The length of a text of any length.
pub(crate) fn length(rng: &mut Rng) -> usize {
    match rng.below(1000) {
        0 => rng.between(2_000, 60_000),
        1..=49 => rng.between(300, 2_000),
        50..=399 => rng.between(24, 300),
        _ => rng.between(0, 24),
    }
}

/// Any character but a surrogate, each length in UTF-8 as often as the others.
pub fn any_char(rng: &mut Rng) -> char {
    let (low, high) = rng.pick(&[(0, 0x7F), (0x80, 0x7FF), (0x800, 0xFFFF), (0x10000, 0x10FFFF)]);
    let code = rng.between(low, high) as u32;
    char::from_u32(code).unwrap_or('\u{FFFD}')
}

/// An escape, whole or, once in three times, cut short.
pub fn escape(rng: &mut Rng) -> String {
    let mut escape = String::from(ESC);
    match rng.below(8) {
        0..=2 => {
            escape.push('[');
            for _ in 0..rng.between(0, 4) {
                escape.push(rng.pick(&CSI_INSIDE));
            }
            escape.push(rng.pick(&CSI_FINAL));
        }
        3..=5 => {
            escape.push(']');
            for _ in 0..rng.between(0, 4) {
                escape.push_str(rng.pick(&OSC_INSIDE));
            }
            escape.push_str(rng.pick(&OSC_END));
        }
        6 => escape.push(rng.pick(&LOOSE)),
        _ => escape.push(corner(rng)),
    }
    if rng.one_in(3) {
        let len = rng.between(1, escape.len());
        cut(&mut escape, len);
    }
    escape
}

fn push_part(rng: &mut Rng, mixture: &[usize; 7], text: &mut String) {
    match rng.kind(mixture) {
        0 => push_letters(rng, 11, text),
        1 => text.extend(std::iter::repeat_n(' ', if rng.one_in(4) { rng.between(2, 5) } else { 1 })),
        2 => text.push_str(rng.pick(&LINE_ENDS)),
        3 => text.push(corner(rng)),
        4 => text.push(any_char(rng)),
        5 => text.push_str(&escape(rng)),
        _ => text.push(rng.pick(&LOOSE)),
    }
}

/// A word of letters, few of them not ASCII: at least one, at most so many.
pub(crate) fn push_letters(rng: &mut Rng, most: usize, text: &mut String) {
    for _ in 0..rng.between(1, most) {
        text.push(if rng.one_in(12) {
            rng.pick(&['é', 'ß', '-', ',', '.'])
        } else {
            char::from(b'a' + rng.below(26) as u8)
        });
    }
}

fn corner(rng: &mut Rng) -> char {
    if rng.one_in(2) {
        rng.pick(&BOUNDARIES)
    } else {
        rng.pick(&WIDTHS)
    }
}

/// Cuts a text to at most `len` bytes, between two characters.
pub(crate) fn cut(text: &mut String, mut len: usize) {
    if len >= text.len() {
        return;
    }
    while !text.is_char_boundary(len) {
        len -= 1;
    }
    text.truncate(len);
}

#[cfg(test)]
mod tests {
    use super::*;

    #[test]
    fn a_text_has_the_length_asked_for() {
        for len in 0..300 {
            assert_eq!(of_length(&mut Rng::of_case(7, len), len as usize).len(), len as usize);
        }
    }

    #[test]
    fn a_text_comes_back_from_its_seed_and_case() {
        for case in 0..100 {
            assert_eq!(any(&mut Rng::of_case(7, case)), any(&mut Rng::of_case(7, case)));
        }
        assert_ne!(of_length(&mut Rng::of_case(7, 0), 50), of_length(&mut Rng::of_case(8, 0), 50));
    }

    /// Each corner named above turns up within a thousand texts.
    #[test]
    fn the_corners_are_reached() {
        let texts: String = (0..1000).map(|case| of_length(&mut Rng::of_case(7, case), 200)).collect();
        let corners = BOUNDARIES.iter().chain(&WIDTHS).chain(&CSI_INSIDE).chain(&LOOSE);
        for corner in corners {
            assert!(texts.contains(*corner), "{corner:?} never comes");
        }
        for part in OSC_END.iter().chain(&LINE_ENDS).chain(&["\u{1B}[", "\u{1B}]", "\u{1B}\u{1B}", "  "]) {
            assert!(texts.contains(part), "{part:?} never comes");
        }
    }
}
