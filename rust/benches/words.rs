//! How fast words are found: ours, which tests the text for UTF-8 on its way and writes into four
//! lists of bytes that are there already, against the crate's `find_words`, which is handed a tested
//! text and whose words are collected into a new `Vec`.

mod timing;

use textwrap::WordSeparator::AsciiSpace;
use timing::{texts, Table};

fn main() {
    println!("find_words: ours writes into lists of bytes that are there already, the crate's words go into a new Vec");
    let mut table = Table::new("find_words", "byte");
    for (name, text) in texts::all() {
        let list = vec![0; 4 * (text.len() / 2 + 1)];
        let (mut starts, mut ends, mut whites, mut widths) = (list.clone(), list.clone(), list.clone(), list);
        table.row(
            name,
            text.len(),
            || kenupatun::words_into(text.as_bytes(), &mut starts, &mut ends, &mut whites, &mut widths).count as usize,
            || AsciiSpace.find_words(&text).collect::<Vec<_>>().len(),
        );
    }
}
