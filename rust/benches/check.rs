//! How fast a filled text is checked: against our own fill, since the crate has no check. The aim is at
//! most twice the time of the fill.

mod timing;

use timing::{texts, Table};

const WIDTH: u32 = 42;

fn main() {
    let mut table = Table::of("check and fill at 42", "byte", "check", "fill");
    for (name, text) in texts::all() {
        let mut filled = text.clone().into_bytes();
        kenupatun::fill(&mut filled, WIDTH);
        let mut again = filled.clone();
        table.row(
            name,
            text.len(),
            || kenupatun::check(text.as_bytes(), &filled, WIDTH).number as usize,
            || {
                again.copy_from_slice(text.as_bytes());
                kenupatun::fill(&mut again, WIDTH).number as usize
            },
        );
    }
}
