//! The check, which the crate `textwrap` does not have: held against a plain reading of demand 3, which
//! tries every grouping of an input line's words, on filled texts, on these with breaks added, moved
//! and removed, on damaged ones and on texts of another length.
//!
//! Number, place and count are always compared. `KENUPATUN_SEED` and `KENUPATUN_CASES` set the random
//! cases (see `generate`).

use std::str::from_utf8;

use generate::{cases, damage, every_string, run, text, words, Rng};
use kenupatun::{check, check_filled, fill_inplace, Answer, Refusal, TEXT_MOST, WIDTH_MOST};

const ACCEPTED: Answer = Answer { number: 0, place: 0, count: 0 };

const fn refused(number: u32, place: usize) -> Answer {
    Answer { number, place: place as u64, count: 0 }
}

// ---- demand 3, read plainly

/// A word of an input line: where it starts in the text, its columns and the spaces after it.
struct Word {
    start: usize,
    width: usize,
    spaces: usize,
}

/// The words of an input line that starts at a place: a word ends where a space is followed by none.
fn words_of(line: &str, start: usize) -> Vec<Word> {
    let bytes = line.as_bytes();
    let ends = (1..bytes.len()).filter(|&at| bytes[at - 1] == b' ' && bytes[at] != b' ').chain([bytes.len()]);
    let mut from = 0;
    let mut words = Vec::new();
    for end in ends.filter(|_| !bytes.is_empty()) {
        let whole = &line[from..end];
        let content = whole.trim_end_matches(' ');
        let width = textwrap::core::display_width(content);
        words.push(Word { start: start + from, width, spaces: whole.len() - content.len() });
        from = end;
    }
    words
}

/// "holds one word, or its word widths and inner spaces sum to no more than the width"
fn good(line: &[Word], width: usize) -> bool {
    let [inner @ .., last] = line else { return false };
    inner.is_empty() || inner.iter().map(|word| word.width + word.spaces).sum::<usize>() + last.width <= width
}

/// The fewest lines over all groupings: every first line is tried, with the fewest for what is left.
/// A line that is too wide is so with more words.
fn fewest(words: &[Word], width: usize) -> usize {
    let mut best = vec![0; words.len() + 1];
    for from in (0..words.len()).rev() {
        let ends = (from + 1..=words.len()).take_while(|&to| good(&words[from..to], width));
        best[from] = ends.map(|to| 1 + best[to]).min().unwrap();
    }
    best[0]
}

/// The same by writing every grouping down, for input lines of few words.
fn fewest_of_all(words: &[Word], width: usize) -> usize {
    let gaps = words.len().saturating_sub(1);
    let lines = |breaks: u32| {
        let mut from = 0;
        let ends = (1..words.len()).filter(|gap| breaks >> (gap - 1) & 1 == 1).chain([words.len()]);
        ends.map(|to| good(&words[std::mem::replace(&mut from, to)..to], width)).all(|good| good)
    };
    let all = (0..1u32 << gaps).filter(|&breaks| words.is_empty() || lines(breaks));
    all.map(|breaks| usize::from(!words.is_empty()) + breaks.count_ones() as usize).min().unwrap()
}

/// What document 01 asks for, at its places and in its order.
fn expected(before: &[u8], after: &[u8], width: u32) -> Answer {
    for text in [before, after] {
        if text.len() > TEXT_MOST {
            return refused(1, text.len());
        }
    }
    let whole = match from_utf8(before) {
        Ok(whole) => whole,
        Err(fault) => return refused(2, fault.valid_up_to()),
    };
    if width > WIDTH_MOST {
        return refused(3, 0);
    }
    if before.len() != after.len() {
        return refused(9, 0);
    }
    let mut lines = Vec::new();
    let mut start = 0;
    for line in whole.split('\n') {
        lines.push((start, words_of(line, start)));
        start += line.len() + 1;
    }
    let further: Vec<usize> = lines.iter().flat_map(|(_, words)| words.iter().skip(1)).map(|word| word.start).collect();
    let bad = (0..before.len()).filter(|&at| before[at] != after[at]).find(|&at| {
        before[at] != b' ' || after[at] != b'\n' || further.binary_search(&(at + 1)).is_err()
    });
    if let Some(at) = bad {
        return refused(10, at);
    }
    let formed = |words: &[Word]| -> Vec<usize> {
        let starts = (0..words.len()).filter(|&at| at == 0 || after[words[at].start - 1] == b'\n');
        starts.chain([words.len()]).collect()
    };
    for (_, words) in &lines {
        for ends in formed(words).windows(2) {
            if !good(&words[ends[0]..ends[1]], width as usize) {
                return refused(11, words[ends[0]].start);
            }
        }
    }
    for (start, words) in &lines {
        let least = fewest(words, width as usize);
        if words.len() <= 8 {
            assert_eq!(least, fewest_of_all(words, width as usize));
        }
        if formed(words).len() - 1 > least {
            return refused(12, *start);
        }
    }
    ACCEPTED
}

// ---- the two side by side

fn agrees(before: &[u8], after: &[u8], width: u32) -> Result<u32, String> {
    let got = check(before, after, width);
    let want = expected(before, after, width);
    if got != want {
        return Err(format!("{}: {got:?}, expected {want:?}", said(before, after, width)));
    }
    if check_filled(before, after, width) != want.result().map(|_| ()) {
        return Err(format!("{}: check_filled answers otherwise", said(before, after, width)));
    }
    Ok(got.number)
}

fn said(before: &[u8], after: &[u8], width: u32) -> String {
    format!("{} and {} bytes at {width}, \"{}\" then \"{}\"", before.len(), after.len(), shown(before), shown(after))
}

/// A text for a message, whole unless it is long.
fn shown(text: &[u8]) -> String {
    match text.len() {
        0..=300 => text.escape_ascii().to_string(),
        _ => format!("{}\" .. \"{}", text[..100].escape_ascii(), text[text.len() - 100..].escape_ascii()),
    }
}

/// The number that both answer, for texts that are not random.
#[track_caller]
fn number(before: &[u8], after: &[u8], width: u32) -> u32 {
    agrees(before, after, width).unwrap_or_else(|wrong| panic!("{wrong}"))
}

fn filled(text: &[u8], width: u32) -> Vec<u8> {
    let mut ours = text.to_vec();
    fill_inplace(&mut ours, width).unwrap();
    ours
}

// ---- document 01's examples

#[test]
fn examples_of_document_01() {
    assert_eq!(check(b"a b c", b"a\nb c", 3), ACCEPTED);
    assert_eq!(check(b"a b c", b"a\nb\nc", 3), refused(12, 0));
    assert_eq!(check(b"a b c", b"a b c", 3), refused(11, 0));
}

/// The place of each refusal, and that the whole text is judged for one before the next.
#[test]
fn places() {
    for (before, after, width, want) in [
        ("a  b", "a\n b", 1, refused(10, 1)),
        ("a  b", "a \nb", 1, ACCEPTED),
        ("a b", "a\tb", 1, refused(10, 1)),
        ("a b", "axb", 1, refused(10, 1)),
        ("a\nb", "a b", 1, refused(10, 1)),
        ("a ", "a\n", 1, refused(10, 1)),
        ("a \nb", "a\n\nb", 1, refused(10, 1)),
        ("a b\nc d e", "a b\nc\nd x", 1, refused(10, 8)),
        ("a b\nc d e", "a b\nc\nd\ne", 1, refused(11, 0)),
        ("a b\nc d e", "a\nb\nc\nd e", 1, refused(11, 6)),
        ("a b\nc d e", "a\nb\nc d\ne", 3, refused(12, 0)),
        ("a b\nc d e", "a\nb\nc d e", 3, refused(11, 4)),
        ("a b\nc d", "a b\nc\nd", 3, refused(12, 4)),
        ("  foo", " \nfoo", 3, ACCEPTED),
        ("  foo", " \nfoo", 5, refused(12, 0)),
        ("a b  ", "a b  ", 3, ACCEPTED),
        ("", "", 0, ACCEPTED),
        ("\n\n", "\n\n", 0, ACCEPTED),
        ("   ", "   ", 0, ACCEPTED),
    ] {
        assert_eq!(check(before.as_bytes(), after.as_bytes(), width), want, "{before:?} {after:?} at {width}");
        number(before.as_bytes(), after.as_bytes(), width);
    }
}

/// An escape that is not ended hides nothing after its word: the line is 6 wide, though it measures 3.
#[test]
fn a_line_is_not_measured_as_a_whole() {
    let text = "ab \u{1B}]cd ef".as_bytes();
    assert_eq!(check(text, text, 6), ACCEPTED);
    assert_eq!(check(text, text, 5), refused(11, 0));
    assert_eq!(check(text, &filled(text, 5), 5), ACCEPTED);
}

// ---- every layout of short texts

/// Every text of seven items, and every way to turn some of its spaces into newlines.
#[test]
fn every_layout_of_short_texts() {
    let mut numbers = [0; 13];
    every_string(&["a", " ", "\n", "\u{4F60}"], 7, |text| {
        let spaces: Vec<usize> = (0..text.len()).filter(|&at| text[at] == b' ').collect();
        for turned in 0..1 << spaces.len() {
            let mut after = text.to_vec();
            for (bit, &at) in spaces.iter().enumerate() {
                if turned >> bit & 1 == 1 {
                    after[at] = b'\n';
                }
            }
            for width in 0..=6 {
                numbers[number(text, &after, width) as usize] += 1;
            }
        }
    });
    assert!([0, 10, 11, 12].iter().all(|&number| numbers[number] > 1_000), "{numbers:?}");
}

/// Every change of one byte of a few texts.
#[test]
fn every_change_of_one_byte() {
    for text in ["a b\nc  d ", " a\n\n b", "\u{E9} \u{4F60} ", "a\r\nb c"] {
        for at in 0..text.len() {
            for byte in 0..=255 {
                let mut after = text.as_bytes().to_vec();
                after[at] = byte;
                for width in 0..=4 {
                    number(text.as_bytes(), &after, width);
                }
            }
        }
    }
}

// ---- random texts

fn some_text(rng: &mut Rng) -> String {
    let text = if rng.one_in(2) { text::any(rng) } else { words::any(rng) };
    text.chars().map(|c| if c == ' ' && rng.one_in(12) { '\n' } else { c }).collect()
}

/// Whatever the fill writes is accepted; and at another width as the plain reading says.
#[test]
fn filled_texts() {
    let make = |rng: &mut Rng| (some_text(rng), [words::width(rng), words::width(rng)]);
    run(0..cases() / 20, make, |(text, [width, other])| {
        let after = filled(text.as_bytes(), *width);
        agrees(text.as_bytes(), &after, *other)?;
        match agrees(text.as_bytes(), &after, *width)? {
            0 => Ok(()),
            number => Err(format!("{}: a fill is refused by {number}", said(text.as_bytes(), &after, *width))),
        }
    });
}

/// A filled text with breaks added, moved and removed, each where one may stand.
#[test]
fn filled_texts_with_other_breaks() {
    let make = |rng: &mut Rng| {
        let turned = [0, 1, 2].map(|_| rng.below(1_000) as u32);
        (some_text(rng), (turned, words::width(rng)))
    };
    run(0..cases() / 10, make, |(text, (turned, width))| {
        let bytes = text.as_bytes();
        let is_gap = |at: &usize| bytes[*at] == b' ' && ![b' ', b'\n'].contains(&bytes[*at + 1]);
        let gaps: Vec<usize> = (0..bytes.len().saturating_sub(1)).filter(is_gap).collect();
        let mut after = filled(bytes, *width);
        for gap in turned.iter().filter(|_| !gaps.is_empty()) {
            let at = gaps[*gap as usize % gaps.len()];
            after[at] = if after[at] == b' ' { b'\n' } else { b' ' };
        }
        agrees(bytes, &after, *width).map(|_| ())
    });
}

/// A text after with bytes of any kind changed, or of another length; a text before that is damaged.
#[test]
fn other_texts() {
    let make = |rng: &mut Rng| {
        let text = some_text(rng);
        let width = words::width(rng);
        let after = filled(text.as_bytes(), width);
        let before = if rng.one_in(4) { damage::damaged(rng, text.as_bytes()) } else { text.into_bytes() };
        let after = if rng.one_in(4) { after } else { damage::damaged(rng, &after) };
        (before, (after, width))
    };
    run(0..cases() / 20, make, |(before, (after, width))| agrees(before, after, *width).map(|_| ()));
}

// ---- limits

#[test]
fn limits() {
    let text = b"a ".repeat(30_001);
    for before in [59_999, 60_000, 60_001] {
        for after in [59_999, 60_000, 60_001] {
            for width in [0, 1, 255, 256, u32::MAX] {
                number(&text[..before], &text[..after], width);
            }
        }
    }
    let most = &text[..60_000];
    assert_eq!(check(most, &filled(most, 255), 255), ACCEPTED);
    assert_eq!(check(most, &filled(most, 0), 0), ACCEPTED);
    assert_eq!(check(most, &text[..60_001], 0), refused(1, 60_001));
    assert_eq!(check(&text[..60_001], most, 0), refused(1, 60_001));
    assert_eq!(check(b"a b", b"a b", 256), refused(3, 0));
    let one = b"x".repeat(60_000);
    assert_eq!(check(&one, &one, 0), ACCEPTED);
    assert_eq!(check_filled(&one, most, 0), Err(Refusal { number: 10, place: 0 }));
}

/// Every set of reasons to refuse, or none: 1, 1, 2, 3, 9, 10, 11, 12.
#[test]
fn order_of_refusals() {
    for reasons in 0..256 {
        let [long, after_long, faulty, wide, shorter, bad, full, many] = [0, 1, 2, 3, 4, 5, 6, 7].map(|bit| reasons >> bit & 1 == 1);
        let mut before = b"aa\nb c\nd e\n".to_vec();
        let mut after = b"aa\nb\nc\nd\ne\n".to_vec();
        let mut width = 2;
        if full {
            after[8] = b' ';
        }
        if many {
            width = if full { width } else { 3 };
            before.extend(b"f g\n");
            after.extend(b"f g\n");
        }
        if bad {
            after[0] = b'x';
        }
        if faulty {
            before[1] = 0xFF;
        }
        if shorter {
            after.pop();
        }
        if long {
            before.resize(60_001, b'z');
        }
        if after_long {
            after.resize(60_002, b'z');
        }
        number(&before, &after, if wide { 256 } else { width });
    }
}
