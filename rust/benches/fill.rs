//! How fast a text is filled: ours, which tests it for UTF-8 first, against the crate's `fill_inplace`,
//! which is handed a tested one and collects the words of each line into a new `Vec`. Both are handed a
//! fresh copy at each turn, since a filled text is not filled again.

mod timing;

use std::hint::black_box;

use timing::{texts, Table};

const WIDTH: u32 = 42;

fn main() {
    let mut table = Table::new("fill at 42", "byte");
    for (name, text) in texts::all() {
        let mut ours = text.clone().into_bytes();
        let mut theirs = text.clone();
        table.row(
            name,
            text.len(),
            || {
                ours.copy_from_slice(text.as_bytes());
                kenupatun::fill(&mut ours, WIDTH);
                newlines(black_box(&ours))
            },
            || {
                theirs.clear();
                theirs.push_str(&text);
                textwrap::fill_inplace(&mut theirs, WIDTH as usize);
                newlines(black_box(theirs.as_bytes()))
            },
        );
    }
}

/// What both must agree on. Few bytes are looked at, so that it takes no time.
fn newlines(text: &[u8]) -> usize {
    text.iter().rev().take(1_000).filter(|byte| **byte == b'\n').count()
}
