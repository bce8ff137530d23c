//! First fit, held against the crate `textwrap` and against a plain reading of document 01.
//!
//! Number, place, count and every byte of all lists are always compared (see `laid`).
//! `KENUPATUN_SEED` and `KENUPATUN_CASES` set the random cases (see `generate`).

mod laid;
mod plain;

use generate::layouts::{
    self, all_lists, every_fragment, every_list, Fragment, Layout, DEFAULT_PENALTIES, FRAGMENTS_MOST,
};
use generate::{cases, run, Rng, MORE_CASES};
use laid::{
    agrees_as_lines, agrees_on, agrees_on_lens, any_faulty, done, expected, hold_in_the_order_of_refusals,
    hold_on_lists_of_all_lengths, refused, Call, Given,
};

/// Fragments at these line widths. Penalties are nothing to first fit.
fn layout(fragments: &[Fragment], line_widths: &[u16]) -> Layout {
    Layout { fragments: fragments.to_vec(), line_widths: line_widths.to_vec(), penalties: DEFAULT_PENALTIES }
}

/// Ours must be the plain reading's layout, byte for byte, and the crate's.
fn agrees(layout: &Layout) -> Result<(), String> {
    let ends = laid::agrees(Call::FirstFit, layout)?.ends;
    let theirs = plain::first_fit_by_the_crate(layout);
    if ends != theirs {
        return Err(format!("{layout:?}: ends {ends:?}, the crate's {theirs:?}"));
    }
    Ok(())
}

/// [`agrees`] for a layout that is not random, and the lines must have these ends.
#[track_caller]
fn hold(fragments: &[Fragment], line_widths: &[u16], ends: &[usize]) {
    let layout = layout(fragments, line_widths);
    assert_eq!(plain::first_fit(&layout), ends);
    agrees(&layout)
        .and_then(|()| agrees_as_lines(Call::FirstFit, &layout, ends))
        .unwrap_or_else(|wrong| panic!("{wrong}"));
}

// ---- layouts written out

#[test]
fn where_lines_end() {
    // the words of document 01 that least cost lays out in another way
    let words = [2, 3, 2, 3, 2, 3, 4, 2, 3, 8].map(|word| [word, 1, 0]);
    hold(&words, &[10], &[3, 6, 8, 9, 10]);
    // whitespace at the end of a line takes no room
    hold(&[[3, 9, 0], [3, 0, 0]], &[3], &[1, 2]);
    hold(&[[3, 1, 0], [3, 9, 0]], &[7], &[2]);
    hold(&[[3, 1, 0], [3, 0, 0]], &[6], &[1, 2]);
    // a penalty takes room for the last fragment alone
    hold(&[[3, 0, 1], [3, 0, 1]], &[7], &[2]);
    hold(&[[3, 0, 1], [3, 0, 1]], &[6], &[1, 2]);
    // a fragment that is too wide has a line of its own
    hold(&[[300, 1, 0], [1, 0, 0]], &[255], &[1, 2]);
    hold(&[[65_535, 65_535, 65_535]; 3], &[0], &[1, 2, 3]);
    // the k-th line has the k-th width, those beyond the last
    hold(&[[1, 0, 0]; 7], &[1, 2, 3], &[1, 3, 6, 7]);
    hold(&[[1, 0, 0]; 7], &[3, 2], &[3, 5, 7]);
    hold(&[[0, 0, 0], [1, 0, 0], [0, 0, 0]], &[], &[1, 2, 3]);
}

#[test]
fn no_fragments_make_one_line() {
    for line_widths in [&[][..], &[0], &[255], &[3, 2, 1]] {
        hold(&[], line_widths, &[0]);
    }
    assert_eq!(expected(Call::FirstFit, &Given::new(&layout(&[], &[]))).map(|least| least.ends), Ok(vec![0]));
    let mut ends = [7; 3];
    assert_eq!(kenupatun::first_fit_into(&[], &[], &[], &[], &mut ends), done(1));
    assert_eq!(ends, [0, 0, 7]);
    assert_eq!(kenupatun::first_fit_into(&[1], &[2], &[3], &[4], &mut ends[..1]), refused(7, 1));
}

// ---- all short ones

/// Every list of at most so many of these fragments, at every list of at most three of these line widths.
fn hold_all(items: &[Fragment], most: usize, line_widths: &[u16]) -> u64 {
    let line_widths = all_lists(line_widths, 3);
    let mut count = 0;
    for len in 0..=most {
        every_list(items, len, |fragments| {
            for line_widths in &line_widths {
                agrees(&layout(fragments, line_widths)).unwrap_or_else(|wrong| panic!("{wrong}"));
                count += 1;
            }
        });
    }
    count
}

#[test]
fn every_layout_of_two_fragments() {
    assert_eq!(hold_all(&every_fragment(&[0, 1, 2], &[0, 1, 2], &[0, 1]), 2, &[0, 1, 2, 3]), 343 * 85);
}

/// With more cases the whitespace of 1 too.
#[test]
fn every_layout_of_three_fragments() {
    let whites: &[u16] = if cases() >= MORE_CASES { &[0, 1, 2] } else { &[0, 2] };
    hold_all(&every_fragment(&[0, 1, 2], whites, &[0, 1]), 3, &[0, 1, 3]);
}

/// Every list of six words, one column of whitespace between them.
#[test]
fn every_layout_of_six_words() {
    let items = every_fragment(&[0, 1, 3], &[1], &[0]);
    for line_widths in all_lists(&[0, 1, 4, 5, 7], 2) {
        every_list(&items, 6, |fragments| {
            agrees(&layout(fragments, &line_widths)).unwrap_or_else(|wrong| panic!("{wrong}"));
        });
    }
}

// ---- random ones

#[test]
fn random_layouts() {
    run(0..cases() / 10, layouts::any, agrees);
}

#[test]
fn random_layouts_as_lines() {
    let check = |layout: &Layout| agrees_as_lines(Call::FirstFit, layout, &plain::first_fit_by_the_crate(layout));
    run(0..cases() / 60, layouts::any, check);
}

#[test]
fn random_layouts_of_many_fragments() {
    for count in [100, 255, 256, 257, 1_024, 4_095, 4_096] {
        let make = |rng: &mut Rng| layouts::of_count(rng, count);
        run(0..cases() / 15_000, make, agrees);
    }
}

/// Faults of every kind, and lists of any length.
#[test]
fn random_faults() {
    let make = |rng: &mut Rng| {
        let layout = layouts::any(rng);
        any_faulty(rng, layout)
    };
    let check =
        |(layout, lens): &(Layout, [u32; 7])| agrees_on_lens(Call::FirstFit, layout, lens.map(|len| len as usize));
    run(0..cases() / 10, make, check);
}

// ---- lists and limits

#[test]
fn lists_of_all_lengths() {
    hold_on_lists_of_all_lengths(Call::FirstFit);
}

#[test]
fn refusals_in_order() {
    hold_in_the_order_of_refusals(Call::FirstFit);
}

/// The answer to lists that are exactly full.
fn answer(layout: &Layout) -> Result<Vec<usize>, kenupatun::Answer> {
    let given = Given::new(layout);
    agrees_on(Call::FirstFit, &given).unwrap_or_else(|wrong| panic!("{wrong}")).map(|least| least.ends)
}

#[test]
fn fragments_4096_pass_and_one_more_is_refused() {
    for fragment in [[1, 1, 0], [0, 0, 0], [65_535, 65_535, 65_535]] {
        let most = vec![fragment; FRAGMENTS_MOST];
        assert!(answer(&layout(&most, &[80])).is_ok());
        agrees(&layout(&most, &[80])).unwrap_or_else(|wrong| panic!("{wrong}"));
        for more in [1, 2, 100, 61_439, 61_440, 61_441, 70_000] {
            let more = vec![fragment; FRAGMENTS_MOST + more];
            assert_eq!(answer(&layout(&more, &[80])), Err(refused(4, 0)));
        }
    }
    // each fragment a line
    assert_eq!(answer(&layout(&[[1, 0, 0]; FRAGMENTS_MOST], &[1])), Ok((1..=FRAGMENTS_MOST).collect()));
}

#[test]
fn width_255_passes_and_one_more_is_refused() {
    let words = [[200, 1, 0], [54, 0, 0]];
    assert_eq!(answer(&layout(&words, &[255])), Ok(vec![2]));
    for wide in [256, 257, 511, 512, 65_535] {
        assert_eq!(answer(&layout(&words, &[wide])), Err(refused(3, 0)));
        assert_eq!(answer(&layout(&[], &[wide])), Err(refused(3, 0)));
        assert_eq!(answer(&layout(&words, &[0, 255, wide, 0, wide])), Err(refused(3, 2)));
    }
}

/// A list of line widths may be longer than 4,096, and a fault may stand anywhere in it.
#[test]
fn many_line_widths() {
    let words = [[1, 0, 0]; 9];
    for count in [4_095, 4_096, 4_097, 10_000, 65_536, 70_000] {
        let mut line_widths = vec![2; count];
        assert_eq!(answer(&layout(&words, &line_widths)), Ok(vec![2, 4, 6, 8, 9]));
        line_widths[count - 1] = 256;
        assert_eq!(answer(&layout(&words, &line_widths)), Err(refused(3, count - 1)));
    }
    // as many lines as there are widths, and one more
    let rising: Vec<u16> = (0..4_096).map(|k| k % 3 + 1).collect();
    agrees(&layout(&[[1, 0, 0]; FRAGMENTS_MOST], &rising)).unwrap_or_else(|wrong| panic!("{wrong}"));
    agrees(&layout(&[[9, 0, 0]; FRAGMENTS_MOST], &rising[..4_095])).unwrap_or_else(|wrong| panic!("{wrong}"));
}
