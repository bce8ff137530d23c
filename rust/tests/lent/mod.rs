//! What the comparisons of words and of breaking share: a call with lent lists, held against the
//! crate `textwrap`, Rust's own test of UTF-8 and every byte that the lists must have afterwards.

use std::mem::take;
use std::str::from_utf8;

use generate::Rng;
use kenupatun::{
    break_apart, break_word_into, break_words, break_words_into, find_words, words_into, Answer, Refusal, Word,
    TEXT_MOST, WIDTH_MOST,
};
use textwrap::WordSeparator::AsciiSpace;

/// The bytes of one place.
pub const PLACE: usize = 4;

/// Bytes before, between and after the lists, which nobody may touch.
const GUARD: usize = 8;

/// What the lists hold before a call: no two bytes near each other are the same.
const PATTERN: [u8; 64] = {
    let mut pattern = [0; 64];
    let mut at = 0;
    while at < 64 {
        pattern[at] = (at as u8).wrapping_mul(0x3B) ^ 0xA5;
        at += 1;
    }
    pattern
};

pub const fn done(count: usize) -> Answer {
    Answer { number: 0, place: 0, count: count as u64 }
}

pub const fn refused(number: u32, place: usize) -> Answer {
    Answer { number, place: place as u64, count: 0 }
}

/// One of the functions, with the width that it is given. Each comparison makes its own.
#[allow(dead_code)]
#[derive(Clone, Copy, Debug)]
pub enum Call {
    Words,
    BreakWord(u32),
    BreakWords(u32),
}

impl Call {
    fn is_too_wide(self) -> bool {
        matches!(self, Call::BreakWord(width) | Call::BreakWords(width) if width > WIDTH_MOST)
    }

    /// The plain form.
    fn answer(self, text: &[u8], [starts, ends, whites, widths]: [&mut [u8]; 4]) -> Answer {
        match self {
            Call::Words => words_into(text, starts, ends, whites, widths),
            Call::BreakWord(width) => break_word_into(text, width, starts, ends, whites, widths),
            Call::BreakWords(width) => break_words_into(text, width, starts, ends, whites, widths),
        }
    }

    /// The form as in `textwrap`.
    pub fn result(self, text: &[u8]) -> Result<Vec<Word>, Refusal> {
        match self {
            Call::Words => find_words(text),
            Call::BreakWord(width) => break_apart(text, width),
            Call::BreakWords(width) => break_words(text, width),
        }
    }

    /// What `textwrap` makes of it.
    fn by_the_crate(self, text: &str) -> Vec<Word> {
        let place = |word| placed(text, word);
        match self {
            Call::Words => AsciiSpace.find_words(text).map(place).collect(),
            Call::BreakWord(width) => textwrap::core::Word::from(text).break_apart(width as usize).map(place).collect(),
            Call::BreakWords(width) => textwrap::core::break_words(AsciiSpace.find_words(text), width as usize)
                .into_iter()
                .map(place)
                .collect(),
        }
    }

    /// What document 01 asks for where no list is too short, said by others.
    pub fn expected(self, text: &[u8]) -> Result<Vec<Word>, Answer> {
        if text.len() > TEXT_MOST {
            return Err(refused(1, text.len()));
        }
        let line = from_utf8(text).map_err(|fault| refused(2, fault.valid_up_to()))?;
        if self.is_too_wide() {
            return Err(refused(3, 0));
        }
        Ok(self.by_the_crate(line))
    }
}

/// A word of `textwrap` by its offsets, which it does not tell: they are found by its addresses.
pub fn placed(text: &str, word: textwrap::core::Word) -> Word {
    let offset = |part: &str| part.as_ptr() as usize - text.as_ptr() as usize;
    let start = offset(word.word);
    let end = start + word.word.len();
    assert_eq!(&text[start..end], word.word);
    if !word.whitespace.is_empty() {
        assert_eq!(offset(word.whitespace), end, "the whitespace of {word:?} does not follow it in {text:?}");
    }
    assert_eq!(word.penalty, "");
    Word { start, end, white: word.whitespace.len(), width: word.width }
}

/// Four lists, each of so many bytes, in one block.
#[derive(Clone, PartialEq)]
struct Lent {
    block: Vec<u8>,
    lens: [usize; 4],
}

impl Lent {
    fn new(lens: [usize; 4]) -> Lent {
        let size = lens.iter().sum::<usize>() + 5 * GUARD;
        let mut block = PATTERN.repeat(size.div_ceil(PATTERN.len()));
        block.truncate(size);
        Lent { block, lens }
    }

    fn lists(&mut self) -> [&mut [u8]; 4] {
        let mut rest = &mut self.block[..];
        self.lens.map(|len| {
            let (list, after) = take(&mut rest)[GUARD..].split_at_mut(len);
            rest = after;
            list
        })
    }

    /// Writes what a success writes.
    fn write(&mut self, words: &[Word]) {
        let [starts, ends, whites, widths] = self.lists();
        for (at, word) in words.iter().enumerate() {
            let bytes = PLACE * at..PLACE * (at + 1);
            starts[bytes.clone()].copy_from_slice(&(word.start as u32).to_be_bytes());
            ends[bytes.clone()].copy_from_slice(&(word.end as u32).to_be_bytes());
            whites[bytes.clone()].copy_from_slice(&(word.white as u32).to_be_bytes());
            widths[bytes].copy_from_slice(&(word.width as u32).to_be_bytes());
        }
    }
}

/// Calls with lists of so many bytes. The answer must be the expected one, and so must every byte of
/// the lists and around them.
fn agrees_with(expected: &Result<Vec<Word>, Answer>, call: Call, text: &[u8], lens: [usize; 4]) -> Result<(), String> {
    let mut ours = Lent::new(lens);
    let mut theirs = ours.clone();
    let places = lens.iter().min().unwrap() / PLACE;
    let wanted = match expected {
        Err(refusal) => *refusal,
        Ok(words) if words.len() > places => refused(7, words.len()),
        Ok(words) => {
            theirs.write(words);
            done(words.len())
        }
    };
    let answer = call.answer(text, ours.lists());
    if answer != wanted {
        return Err(format!("{}: {answer:?}, expected {wanted:?}", said(call, text, lens)));
    }
    if ours != theirs {
        let names = ["starts", "ends", "whites", "widths"];
        for ((list, wanted), name) in ours.lists().into_iter().zip(theirs.lists()).zip(names) {
            if let Some(at) = (0..list.len()).find(|at| list[*at] != wanted[*at]) {
                let (byte, wanted) = (list[at], wanted[at]);
                return Err(format!("{}: byte {at} of {name} is {byte}, expected {wanted}", said(call, text, lens)));
            }
        }
        return Err(format!("{}: bytes outside the lists have changed", said(call, text, lens)));
    }
    Ok(())
}

/// The call for a message, its text whole unless it is long.
fn said(call: Call, text: &[u8], lens: [usize; 4]) -> String {
    let shown = match text.len() {
        0..=300 => text.escape_ascii().to_string(),
        _ => format!("{}\" .. \"{}", text[..100].escape_ascii(), text[text.len() - 100..].escape_ascii()),
    };
    format!("{call:?} of {} bytes, \"{shown}\", lists of {lens:?} bytes", text.len())
}

/// [`agrees_with`] the crate, with lists of so many bytes.
pub fn agrees_on(call: Call, text: &[u8], lens: [usize; 4]) -> Result<(), String> {
    agrees_with(&call.expected(text), call, text, lens)
}

/// [`agrees_with`] the crate, with lists that have the places needed, or one more, and some bytes left
/// over; and with one list too short.
pub fn agrees(call: Call, text: &[u8]) -> Result<(), String> {
    agrees_full_and_short(&call.expected(text), call, text)
}

fn agrees_full_and_short(expected: &Result<Vec<Word>, Answer>, call: Call, text: &[u8]) -> Result<(), String> {
    let needed = PLACE * expected.as_ref().map_or(2, Vec::len);
    let spare = if text.len() % 3 == 0 { PLACE } else { 0 };
    let mut lens = [0, 1, 2, 3].map(|left_over| needed + spare + left_over);
    lens.rotate_left(text.len() % 4);
    agrees_with(expected, call, text, lens)?;
    if needed > 0 {
        lens[text.len() / 4 % 4] = needed - 1;
        agrees_with(expected, call, text, lens)?;
    }
    Ok(())
}

/// [`agrees`], and the form as in `textwrap` too.
pub fn agrees_in_both_forms(call: Call, text: &[u8]) -> Result<(), String> {
    let expected = call.expected(text);
    agrees_full_and_short(&expected, call, text)?;
    let wanted = expected.map_err(|refused| refused.result().unwrap_err());
    let result = call.result(text);
    if result == wanted {
        return Ok(());
    }
    Err(format!("{}: {result:?}, expected {wanted:?}", said(call, text, [0; 4])))
}

/// [`agrees_in_both_forms`] for a text that is not random.
#[track_caller]
pub fn hold(call: Call, text: &[u8]) {
    if let Err(wrong) = agrees_in_both_forms(call, text) {
        panic!("{wrong}");
    }
}

/// Lists of every length near what is needed, each against each: empty, one place short, full,
/// longer, with and without bytes left over.
#[track_caller]
pub fn hold_on_lists_of_all_lengths(call: Call, text: &[u8]) {
    let expected = call.expected(text);
    let full = PLACE * expected.as_ref().unwrap().len();
    let lens: Vec<usize> = [0, 3].into_iter().chain(full.saturating_sub(PLACE)..=full + PLACE + 1).collect();
    for a in &lens {
        for b in &lens {
            for c in &lens {
                for d in &lens {
                    if let Err(wrong) = agrees_with(&expected, call, text, [*a, *b, *c, *d]) {
                        panic!("{wrong}");
                    }
                }
            }
        }
    }
}

/// The lengths of four lists, most of them with about the places that a text needs.
pub fn any_lens(rng: &mut Rng, places: usize) -> [u32; 4] {
    let about = PLACE * places;
    let spread = rng.pick(&[3, 8, 40]);
    [(); 4].map(|()| if rng.one_in(40) { 0 } else { (about + rng.below(2 * spread)).saturating_sub(spread) as u32 })
}

/// Every set of reasons to refuse, or none: 1 goes before 2, 2 before 3, 3 before 7.
#[track_caller]
pub fn hold_in_the_order_of_refusals(call: impl Fn(u32) -> Call) {
    let good = b"a b ".repeat(15_000);
    let full = PLACE * call(255).expected(&good).unwrap().len();
    for reasons in 0..16 {
        let [long, faulty, wide, short] = [1, 2, 4, 8].map(|reason| reasons & reason != 0);
        let mut text = good.clone();
        if long {
            text.push(b' ');
        }
        if faulty {
            text[59_990] = 0xFF;
        }
        let call = call(if wide { 256 } else { 255 });
        let lens = if short { [full, full, full - PLACE, full] } else { [full; 4] };
        let number = match (long, faulty, wide, short) {
            (true, ..) => 1,
            (_, true, ..) => 2,
            (_, _, true, _) if !matches!(call, Call::Words) => 3,
            (.., true) => 7,
            _ => 0,
        };
        assert_eq!(call.answer(&text, Lent::new(lens).lists()).number, number, "{call:?}, reasons {reasons:04b}");
        if let Err(wrong) = agrees_on(call, &text, lens) {
            panic!("{wrong}");
        }
    }
}
