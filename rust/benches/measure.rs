//! How fast measure is: ours, which tests the text for UTF-8 on its way, against the crate's
//! `display_width`, which is handed a tested one.

mod timing;

use timing::{texts, Table};

fn main() {
    let mut table = Table::new("measure", "byte");
    for (name, text) in texts::all() {
        table.row(
            name,
            text.len(),
            || kenupatun::measure(text.as_bytes()).count as usize,
            || textwrap::core::display_width(&text),
        );
    }
}
