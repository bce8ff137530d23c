//! Texts that were good once.

use crate::Rng;

/// Bytes that are not UTF-8 wherever they stand.
#[rustfmt::skip]
pub const FAULTS: [&[u8]; 26] = [
    // tails without a head
    b"\x80", b"\xBF",
    // heads without their tails
    b"\xC2", b"\xDF", b"\xE1\x80", b"\xEF\xBF", b"\xF1\x80\x80", b"\xF4\x8F\xBF",
    // a last byte that is no tail
    b"\xC2\x7F", b"\xE1\x80\xC0", b"\xF1\x80\x80\x7F",
    // overlong forms
    b"\xC0\x80", b"\xC1\xBF", b"\xE0\x80\x80", b"\xE0\x9F\xBF", b"\xF0\x80\x80\x80", b"\xF0\x8F\xBF\xBF",
    // surrogates
    b"\xED\xA0\x80", b"\xED\xBF\xBF",
    // above U+10FFFF
    b"\xF4\x90\x80\x80", b"\xF5\x80\x80\x80", b"\xF8\x88\x80\x80\x80", b"\xFC\x84\x80\x80\x80\x80",
    // bytes that UTF-8 never has
    b"\xF5", b"\xFE", b"\xFF",
];

/// Bytes at which a rule for heads and tails turns.
#[rustfmt::skip]
pub const TURNS: [u8; 24] = [
    0x00, 0x1B, 0x41, 0x7F, 0x80, 0x8F, 0x90, 0x9F, 0xA0, 0xBF, 0xC0, 0xC1,
    0xC2, 0xDF, 0xE0, 0xE1, 0xEC, 0xED, 0xEE, 0xEF, 0xF0, 0xF1, 0xF4, 0xF5,
];

/// A copy of a text with one to three things done to it. Most copies are not UTF-8; some still are.
pub fn damaged(rng: &mut Rng, good: &[u8]) -> Vec<u8> {
    let mut text = good.to_vec();
    for _ in 0..rng.between(1, 3) {
        damage(rng, &mut text);
    }
    text
}

fn damage(rng: &mut Rng, text: &mut Vec<u8>) {
    let at = rng.between(0, text.len());
    match rng.below(7) {
        0 => insert(text, at, rng.pick(&FAULTS)),
        1 => insert(text, at, &[rng.pick(&TURNS)]),
        2 if at < text.len() => text[at] = rng.pick(&TURNS),
        3 if at < text.len() => text[at] = rng.below(256) as u8,
        4 if at < text.len() => text[at] ^= 1 << rng.below(8),
        5 if at < text.len() => drop(text.remove(at)),
        _ => text.truncate(at),
    }
}

fn insert(text: &mut Vec<u8>, at: usize, bytes: &[u8]) {
    text.splice(at..at, bytes.iter().copied());
}

#[cfg(test)]
mod tests {
    use super::*;

    #[test]
    fn a_fault_is_one_wherever_it_stands() {
        for fault in FAULTS {
            for (before, after) in [("", ""), ("a", "a"), ("\u{7FF}", "\u{800}"), ("\u{FFFF}", "\u{10FFFF}")] {
                let text = [before.as_bytes(), fault, after.as_bytes()].concat();
                assert_eq!(std::str::from_utf8(&text).unwrap_err().valid_up_to(), before.len(), "{fault:?}");
            }
        }
    }

    #[test]
    fn most_damaged_texts_are_not_utf8() {
        let bad = (0..1000)
            .map(|case| damaged(&mut Rng::of_case(7, case), "Où est l’œuvre ? 你好".as_bytes()))
            .filter(|text| std::str::from_utf8(text).is_err())
            .count();
        assert!((600..1000).contains(&bad), "{bad} of 1000");
    }
}
