//! Writes the stored answers of the crate `textwrap` that the program `vectors` replays, on standard output.
//! `tools/vectors` runs it. Nothing here knows Kenupatun: each answer is the crate's own, on a fixed list of
//! inputs (`inputs`).
//!
//! # The file
//!
//! Records, one after the other. A record is
//!
//! | bytes | what |
//! |---|---|
//! | 1 | the kind, a letter |
//! | 1 | a line width, 0 where the kind has none |
//! | 2 | how many bytes are asked |
//! | 2 | how many bytes are stored |
//! | | what is asked |
//! | | what is stored: the crate's answer |
//!
//! Numbers are of 16 bits and stand high first. The kinds:
//!
//! | kind | the crate's function | asked | stored |
//! |---|---|---|---|
//! | `M` | `core::display_width` | a text | its columns |
//! | `W` | `WordSeparator::AsciiSpace.find_words` | a text | of all words the starts, then the content ends, the whitespace lengths, the widths |
//! | `A` | `Word::from`, `break_apart` at the width | a text | the pieces, as words |
//! | `B` | `find_words`, `break_words` at the width | a text | the pieces, as words |
//! | `F` | `wrap_first_fit` | a layout | the end of each line |
//! | `L` | `wrap_optimal_fit` | five penalties as two numbers each (per line, overflow, fraction, short, hyphen), then a layout of one line width | the cost as two numbers, then the end of each line |
//! | `I` | `fill_inplace` at the width | a text | how many bytes it changed, then the text after it |
//! | `!` | | nothing | nothing: from here on every answer is wrong on purpose |
//!
//! A layout is the count of fragments, all word widths, all whitespace widths, all penalty widths, then the
//! line widths. The crate tells no offsets and no costs: offsets are found by addresses, the count of changed
//! bytes by comparing, and the cost is that of the crate's lines by document 01's price.

mod inputs;
#[path = "../../tests/plain/mod.rs"]
mod plain;

use std::io::{stdout, Write as _};

use generate::layouts::Layout;
use textwrap::core::{break_words, display_width, Word};
use textwrap::WordSeparator::AsciiSpace;

/// One record of the file.
#[derive(Clone)]
struct Record {
    kind: u8,
    width: u8,
    asked: Vec<u8>,
    stored: Vec<u8>,
}

impl Record {
    fn of_text(kind: u8, width: u8, text: &str, stored: Vec<u8>) -> Record {
        Record { kind, width, asked: text.into(), stored }
    }

    fn push_to(&self, file: &mut Vec<u8>) {
        file.extend([self.kind, self.width]);
        file.extend(number(self.asked.len()));
        file.extend(number(self.stored.len()));
        file.extend(&self.asked);
        file.extend(&self.stored);
    }
}

/// A number of the file.
fn number(n: usize) -> [u8; 2] {
    u16::try_from(n).unwrap_or_else(|_| panic!("{n} has more than 16 bits")).to_be_bytes()
}

/// A number of the file that takes the place of two.
fn long(n: u64) -> [u8; 4] {
    u32::try_from(n).unwrap_or_else(|_| panic!("{n} has more than 32 bits")).to_be_bytes()
}

fn measured(text: &str) -> Record {
    Record::of_text(b'M', 0, text, number(display_width(text)).into())
}

/// Words of a text as four lists.
fn lists<'a>(text: &str, words: impl Iterator<Item = Word<'a>>) -> Vec<u8> {
    let mut lists: [Vec<u8>; 4] = Default::default();
    for word in words {
        let start = word.word.as_ptr() as usize - text.as_ptr() as usize;
        let end = start + word.word.len();
        assert_eq!(&text[start..end], word.word);
        for (list, n) in lists.iter_mut().zip([start, end, word.whitespace.len(), word.width]) {
            list.extend(number(n));
        }
    }
    lists.concat()
}

fn found(text: &str) -> Record {
    Record::of_text(b'W', 0, text, lists(text, AsciiSpace.find_words(text)))
}

fn broken_apart(text: &str, width: u8) -> Record {
    Record::of_text(b'A', width, text, lists(text, Word::from(text).break_apart(width.into())))
}

fn broken(text: &str, width: u8) -> Record {
    let pieces = break_words(AsciiSpace.find_words(text), width.into());
    Record::of_text(b'B', width, text, lists(text, pieces.into_iter()))
}

fn filled(text: &str, width: u8) -> Record {
    let mut after = text.to_owned();
    textwrap::fill_inplace(&mut after, width.into());
    let changed = text.bytes().zip(after.bytes()).filter(|(before, after)| before != after).count();
    Record::of_text(b'I', width, text, [&number(changed), after.as_bytes()].concat())
}

/// The bytes of a layout.
fn layout_bytes(layout: &Layout) -> Vec<u8> {
    let mut bytes = number(layout.fragments.len()).to_vec();
    for part in 0..3 {
        bytes.extend(layout.fragments.iter().flat_map(|fragment| fragment[part].to_be_bytes()));
    }
    bytes.extend(layout.line_widths.iter().flat_map(|width| width.to_be_bytes()));
    bytes
}

fn ends(ends: &[usize]) -> Vec<u8> {
    ends.iter().flat_map(|end| number(*end)).collect()
}

fn laid_first(layout: &Layout) -> Record {
    let lines = plain::first_fit_by_the_crate(layout);
    Record { kind: b'F', width: 0, asked: layout_bytes(layout), stored: ends(&lines) }
}

fn laid_least(layout: &Layout) -> Record {
    let lines = plain::optimal_fit_by_the_crate(layout);
    let penalties = layout.penalties.iter().flat_map(|penalty| long((*penalty).into()));
    Record {
        kind: b'L',
        width: 0,
        asked: penalties.chain(layout_bytes(layout)).collect(),
        stored: [long(plain::cost_of(layout, &lines)).to_vec(), ends(&lines)].concat(),
    }
}

/// All records whose answers are the crate's, kind by kind.
fn right() -> Vec<Record> {
    let mut records: Vec<Record> = inputs::texts().iter().map(|text| measured(text)).collect();
    records.extend(inputs::texts_of_words().iter().map(|text| found(text)));
    records.extend(inputs::single_words().iter().map(|(text, width)| broken_apart(text, *width)));
    records.extend(inputs::texts_at_widths().iter().map(|(text, width)| broken(text, *width)));
    records.extend(inputs::layouts().iter().map(laid_first));
    records.extend(inputs::layouts_of_one_width().iter().map(laid_least));
    records.extend(inputs::texts_at_widths().iter().map(|(text, width)| filled(text, *width)));
    records
}

/// Records with wrong answers: of each kind the first three with a long enough answer, in which the last bit of
/// the answer, the last bit of its first number, or its last byte is not the crate's.
fn wrong(right: &[Record]) -> Vec<Record> {
    let mut records = Vec::new();
    for kind in *b"MWABFLI" {
        let of_kind = right.iter().filter(|record| record.kind == kind && record.stored.len() > 1);
        for (mut record, way) in of_kind.take(3).cloned().zip(0..) {
            let last = record.stored.len() - 1;
            match way {
                0 => record.stored[last] ^= 1,
                1 => record.stored[if kind == b'L' { 3 } else { 1 }] ^= 1,
                _ => record.stored.truncate(last),
            }
            records.push(record);
        }
    }
    records
}

/// The whole file.
fn file() -> Vec<u8> {
    let mut file = Vec::new();
    let right = right();
    right.iter().for_each(|record| record.push_to(&mut file));
    Record { kind: b'!', width: 0, asked: Vec::new(), stored: Vec::new() }.push_to(&mut file);
    wrong(&right).iter().for_each(|record| record.push_to(&mut file));
    file
}

fn main() {
    stdout().write_all(&file()).unwrap();
}

#[cfg(test)]
mod tests {
    use super::*;
    use std::path::Path;

    /// The stored answers are those of the crate, byte for byte.
    #[test]
    fn the_stored_file_is_what_the_crate_says() {
        let path = Path::new(env!("CARGO_MANIFEST_DIR")).join("../../crates/vectors/stdin");
        let stored = std::fs::read(&path).unwrap();
        let made = file();
        let differs = stored.iter().zip(&made).position(|(stored, made)| stored != made);
        assert!(
            stored == made,
            "{} is not what the crate says (first at byte {differs:?}): see tools/vectors",
            path.display()
        );
    }
}
