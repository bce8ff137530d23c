//! Least cost, held against a plain reading of document 01 and against the crate `textwrap`.
//!
//! Number, place, count and every byte of all lists are always compared with the plain reading (see `laid`).
//! The crate's layouts may differ, in the kinds of `plain::Difference` alone. `KENUPATUN_SEED` and
//! `KENUPATUN_CASES` set the random cases (see `generate`); `-- --nocapture` shows how many differ.

mod laid;
mod plain;

use std::cell::RefCell;
use std::collections::BTreeMap;

use generate::layouts::{
    self, all_lists, every_fragment, every_list, Fragment, Layout, DEFAULT_PENALTIES, FRAGMENTS_MOST, PENALTY_MOST,
};
use generate::{cases, run, Rng, MORE_CASES};
use laid::{
    agrees_as_lines, agrees_on, agrees_on_lens, any_faulty, done, hold_in_the_order_of_refusals,
    hold_on_lists_of_all_lengths, refused, Call, Given,
};
use plain::{cheapest_of_all, cost_of, Difference, Least};

/// How often the crate's layout differed, by kind.
#[derive(Default)]
struct Tally {
    count: RefCell<u64>,
    differences: RefCell<BTreeMap<Difference, u64>>,
}

impl Tally {
    /// Ours must be the plain reading's layout, byte for byte, and the crate's but for the known differences.
    fn agrees(&self, layout: &Layout) -> Result<Least, String> {
        let least = laid::agrees(Call::LeastCost, layout)?;
        *self.count.borrow_mut() += 1;
        if let Some(difference) = plain::difference(layout, &least)? {
            *self.differences.borrow_mut().entry(difference).or_default() += 1;
        }
        Ok(least)
    }

    /// Says how many differed.
    fn print(&self, what: &str) {
        println!("{what}: {} layouts, the crate's differ: {:?}", self.count.borrow(), self.differences.borrow());
    }

    /// So many layouts were tried, and the crate's differed in these kinds at least.
    #[track_caller]
    fn hold_kinds(&self, what: &str, count: u64, kinds: &[Difference]) {
        self.print(what);
        assert_eq!(*self.count.borrow(), count);
        let differences = self.differences.borrow();
        assert!(kinds.iter().all(|kind| differences.contains_key(kind)), "{differences:?}");
    }
}

/// Fragments at these line widths with the default penalties.
fn layout(fragments: &[Fragment], line_widths: &[u16]) -> Layout {
    Layout { fragments: fragments.to_vec(), line_widths: line_widths.to_vec(), penalties: DEFAULT_PENALTIES }
}

/// A layout that is not random must agree and have these ends and this cost.
#[track_caller]
fn hold(layout: &Layout, ends: &[usize], cost: u64) {
    let least = Tally::default().agrees(layout).unwrap_or_else(|wrong| panic!("{wrong}"));
    assert_eq!((&least.ends[..], least.cost()), (ends, cost), "{layout:?}");
    agrees_as_lines(Call::LeastCost, layout, ends).unwrap_or_else(|wrong| panic!("{wrong}"));
}

// ---- document 01's examples

#[test]
fn examples_of_document_01() {
    let words = [[3, 1, 0], [50, 0, 0]];
    hold(&layout(&words, &[54]), &[2], 1000);
    hold(&layout(&words, &[53]), &[2], 3500);
    hold(&layout(&words, &[52]), &[1, 2], 4401);

    let mut words = [2, 3, 2, 3, 2, 3, 4, 2, 3, 8].map(|word| [word, 1, 0]);
    words[9][1] = 0;
    let tied = layout(&words, &[10]);
    hold(&tied, &[2, 5, 7, 9, 10], 5037);
    assert_eq!(cost_of(&tied, &[3, 5, 7, 9, 10]), 5037);
    assert_eq!(plain::optimal_fit_by_the_crate(&tied), [2, 5, 7, 9, 10]);
}

// ---- the price, term by term

#[test]
fn the_last_line_pays_for_no_gap() {
    hold(&layout(&[[1, 1, 0], [1, 0, 0]], &[255]), &[2], 1000);
    hold(&layout(&[[5, 1, 0], [5, 0, 0]], &[5]), &[1, 2], 2000);
    hold(&layout(&[[5, 1, 0], [5, 0, 0]], &[7]), &[1, 2], 2004);
}

#[test]
fn a_short_last_line_has_one_fragment() {
    // one fragment, narrower than a quarter
    hold(&layout(&[[1, 0, 0]], &[5]), &[1], 1025);
    hold(&layout(&[[1, 0, 0]], &[4]), &[1], 1000);
    // two are never short
    hold(&layout(&[[0, 0, 0], [0, 0, 0]], &[255]), &[2], 1000);
    // a fraction of 0 makes every last line of one fragment short that fits, one of 1 those with a gap
    for (fraction, width, cost) in
        [(0, 3, 1025), (0, 4, 1025), (0, 2, 3500), (1, 3, 1000), (1, 4, 1025), (3, 9, 1000), (3, 10, 1025)]
    {
        let penalties = [1000, 2500, fraction, 25, 25];
        hold(&Layout { penalties, ..layout(&[[3, 0, 0]], &[width]) }, &[1], cost);
    }
}

#[test]
fn a_line_that_ends_in_a_penalty_is_wider_and_costs_more() {
    hold(&layout(&[[3, 0, 1]], &[3]), &[1], 3525);
    hold(&layout(&[[3, 0, 1]], &[4]), &[1], 1025);
    // inside a line a penalty is nothing
    hold(&layout(&[[3, 0, 9], [3, 0, 0]], &[6]), &[2], 1000);
}

#[test]
fn widths_0_and_1_are_the_same() {
    for line_widths in [&[][..], &[0], &[1], &[0, 1], &[1, 0]] {
        hold(&layout(&[[1, 0, 0], [1, 0, 0]], line_widths), &[1, 2], 2000);
        hold(&layout(&[[0, 0, 0]], line_widths), &[1], 1025);
    }
}

#[test]
fn no_fragments_make_one_line_of_no_cost() {
    for line_widths in [&[][..], &[0], &[255], &[3, 2, 1]] {
        hold(&layout(&[], line_widths), &[0], 0);
        hold(&Layout { penalties: [PENALTY_MOST; 5], ..layout(&[], line_widths) }, &[0], 0);
    }
    let (mut ends, mut costs, mut starts) = ([7; 3], [7; 9], [7; 3]);
    let answer = kenupatun::least_cost_into(&[], &[], &[], &[], Default::default(), &mut ends, &mut costs, &mut starts);
    assert_eq!((answer, ends, costs, starts), (done(1), [0, 0, 7], [0, 0, 0, 0, 0, 0, 0, 0, 7], [0, 0, 7]));
}

/// With three line widths a dearer way to a position may have the better line number: least cost as
/// document 01 has it does not look for that.
#[test]
fn with_three_widths_it_may_not_be_the_least() {
    let three = layout(&[[0, 0, 0], [0, 0, 0], [2, 0, 0]], &[0, 0, 2]);
    hold(&three, &[3], 3500);
    assert_eq!(cheapest_of_all(&three), (3002, vec![1, 2, 3]));
}

// ---- all short ones

/// Penalties for the layouts that are all tried: those of the crate, and small ones, that make many ties. They
/// are five, so that each meets each fragment as they take turns.
const TRIED: [[u32; 5]; 5] = [DEFAULT_PENALTIES, [1, 2, 2, 1, 1], [0, 1, 0, 0, 0], [0; 5], [3, 0, 1, 2, 1]];

/// Every list of at most so many of these fragments, at each of these lists of line widths, with one of the
/// penalties after the other.
fn hold_all(tally: &Tally, items: &[Fragment], most: usize, line_widths: &[Vec<u16>]) {
    let mut penalties = TRIED.into_iter().cycle();
    for len in 0..=most {
        for line_widths in line_widths {
            every_list(items, len, |fragments| {
                let layout = Layout { penalties: penalties.next().unwrap(), ..layout(fragments, line_widths) };
                tally.agrees(&layout).unwrap_or_else(|wrong| panic!("{wrong}"));
            });
        }
    }
}

#[test]
fn every_layout_of_two_fragments() {
    let tally = Tally::default();
    let items = every_fragment(&[0, 1, 2], &[0, 1, 2], &[0, 1]);
    hold_all(&tally, &items, 2, &all_lists(&[0, 1, 2, 3], 3));
    tally.hold_kinds("every layout of two fragments", 343 * 85, &[]);
    // they leave the crate's search no room to go astray
    assert!(tally.differences.borrow().is_empty());
}

/// With more cases the whitespace of 1 and the line width of 1 too.
#[test]
fn every_layout_of_three_fragments() {
    let (whites, widths, count): (&[u16], &[u16], u64) = match cases() {
        MORE_CASES.. => (&[0, 1, 2], &[0, 1, 3], 6_175 * 40),
        _ => (&[0, 2], &[0, 3], 1_885 * 15),
    };
    let tally = Tally::default();
    hold_all(&tally, &every_fragment(&[0, 1, 2], whites, &[0, 1]), 3, &all_lists(widths, 3));
    let kinds = [Difference::Tie, Difference::CrateDearer, Difference::SeveralTie, Difference::SeveralCrateDearer];
    tally.hold_kinds("every layout of three fragments", count, &kinds);
}

/// Every list of five of a few fragments that lead the crate's search astray. At one width and at two the cost
/// is the least of all layouts.
#[test]
fn every_layout_of_five_fragments() {
    let tally = Tally::default();
    let items = [[0, 1, 0], [0, 0, 1], [0, 0, 0], [2, 0, 1]];
    for line_widths in [&[0][..], &[2], &[0, 2], &[0, 0, 2]] {
        for penalties in [TRIED[0], TRIED[1]] {
            every_list(&items, 5, |fragments| {
                let layout = Layout { penalties, ..layout(fragments, line_widths) };
                let least = tally.agrees(&layout).unwrap_or_else(|wrong| panic!("{wrong}"));
                if line_widths.len() < 3 {
                    assert_eq!(least.cost(), cheapest_of_all(&layout).0, "{layout:?}");
                }
            });
        }
    }
    let kinds = [
        Difference::Tie,
        Difference::CrateDearer,
        Difference::SeveralTie,
        Difference::SeveralCrateDearer,
        Difference::SeveralOursDearer,
    ];
    tally.hold_kinds("every layout of five fragments", 8 * 1_024, &kinds);
}

// ---- random ones

#[test]
fn random_layouts() {
    let tally = Tally::default();
    run(0..cases() / 40, layouts::any, |layout| tally.agrees(layout).map(|_| ()));
    tally.print("random layouts");
}

#[test]
fn random_layouts_at_one_width() {
    let tally = Tally::default();
    run(0..cases() / 40, layouts::plain, |layout| tally.agrees(layout).map(|_| ()));
    tally.print("random layouts at one width");
}

/// The cost of few fragments is the least of all layouts, with one line width.
#[test]
fn random_layouts_at_the_least_cost() {
    let make = |rng: &mut Rng| {
        let count = rng.between(0, 9);
        let mut layout = layouts::of_count(rng, count);
        layout.line_widths.truncate(1);
        layout
    };
    let check = |layout: &Layout| {
        let least = laid::agrees(Call::LeastCost, layout)?;
        let (cost, ends) = cheapest_of_all(layout);
        if least.cost() == cost && cost == cost_of(layout, &least.ends) {
            return Ok(());
        }
        Err(format!("{layout:?}: {least:?}, but {ends:?} cost {cost}"))
    };
    run(0..cases() / 60, make, check);
}

#[test]
fn random_layouts_as_lines() {
    let check = |layout: &Layout| agrees_as_lines(Call::LeastCost, layout, &plain::least_cost(layout).ends);
    run(0..cases() / 100, layouts::any, check);
}

#[test]
fn random_layouts_of_many_fragments() {
    let tally = Tally::default();
    for (count, part) in [(255, 30_000), (256, 30_000), (257, 30_000), (1_024, 100_000), (4_096, 150_000)] {
        let make = |rng: &mut Rng| layouts::of_count(rng, count);
        run(0..cases() / part, make, |layout| tally.agrees(layout).map(|_| ()));
    }
    tally.print("random layouts of many fragments");
}

/// Faults of every kind, and lists of any length.
#[test]
fn random_faults() {
    let make = |rng: &mut Rng| {
        let layout = layouts::any(rng);
        any_faulty(rng, layout)
    };
    let check =
        |(layout, lens): &(Layout, [u32; 7])| agrees_on_lens(Call::LeastCost, layout, lens.map(|len| len as usize));
    run(0..cases() / 15, make, check);
}

// ---- lists and limits

#[test]
fn lists_of_all_lengths() {
    hold_on_lists_of_all_lengths(Call::LeastCost);
}

#[test]
fn refusals_in_order() {
    hold_in_the_order_of_refusals(Call::LeastCost);
}

/// The answer to lists that are exactly full.
fn answer(layout: &Layout) -> Result<Least, kenupatun::Answer> {
    agrees_on(Call::LeastCost, &Given::new(layout)).unwrap_or_else(|wrong| panic!("{wrong}"))
}

#[test]
fn fragments_4096_pass_and_one_more_is_refused() {
    let most = layout(&[[1, 1, 0]; FRAGMENTS_MOST], &[80]);
    // forty words a line, two columns free or one: 79 of 80
    assert_eq!(answer(&most).map(|least| least.ends.len()), Ok(103));
    for more in [1, 2, 61_439, 61_440, 61_441] {
        let more = layout(&vec![[1, 1, 0]; FRAGMENTS_MOST + more], &[80]);
        assert_eq!(answer(&more), Err(refused(4, 0)));
    }
}

/// The dearest layout: refusal 8 is for more than 2^53, which the bounds do not let a cost reach.
#[test]
fn the_dearest_layout_is_below_the_limit() {
    let penalties = [PENALTY_MOST; 5];
    let dearest = Layout { penalties, ..layout(&[[65_535; 3]; FRAGMENTS_MOST], &[0]) };
    let cost = answer(&dearest).map(|least| least.cost()).unwrap();
    assert!((500_000_000_000_000..1 << 53).contains(&cost), "{cost}");
}

#[test]
fn width_255_passes_and_one_more_is_refused() {
    let words = [[200, 1, 0], [54, 0, 0]];
    assert_eq!(answer(&layout(&words, &[255])).map(|least| least.ends), Ok(vec![2]));
    for wide in [256, 257, 511, 512, 65_535] {
        assert_eq!(answer(&layout(&words, &[wide])), Err(refused(3, 0)));
        assert_eq!(answer(&layout(&[], &[wide])), Err(refused(3, 0)));
        assert_eq!(answer(&layout(&words, &[0, 255, wide, 0, wide])), Err(refused(3, 2)));
    }
}

/// A list of line widths may be longer than 4,096, and a fault may stand anywhere in it.
#[test]
fn many_line_widths() {
    let words = [[1, 0, 0]; 9];
    for count in [4_096, 4_097, 70_000] {
        let mut line_widths = vec![2; count];
        assert_eq!(answer(&layout(&words, &line_widths)).map(|least| least.cost()), Ok(5_000));
        line_widths[count - 1] = 256;
        assert_eq!(answer(&layout(&words, &line_widths)), Err(refused(3, count - 1)));
    }
}

#[test]
fn penalty_1000000_passes_and_one_more_is_refused() {
    for at in 0..5 {
        for large in [PENALTY_MOST + 1, 1 << 20, 1 << 24, u32::MAX] {
            let mut penalties = DEFAULT_PENALTIES;
            penalties[at] = PENALTY_MOST;
            hold_passes(penalties);
            penalties[at] = large;
            let refusing = Layout { penalties, ..layout(&[[1, 0, 1]], &[80]) };
            assert_eq!(answer(&refusing), Err(refused(6, at)));
            // the first of several
            penalties[4] = large;
            assert_eq!(answer(&Layout { penalties, ..refusing }), Err(refused(6, at)));
        }
    }
}

/// These penalties are not refused.
#[track_caller]
fn hold_passes(penalties: [u32; 5]) {
    assert!(answer(&Layout { penalties, ..layout(&[[1, 0, 1], [300, 1, 0]], &[80]) }).is_ok());
}
