//! Where the crate's layouts differ from document 01's, each kind with its smallest input: the plain reading
//! of document 01 is held against the crate, and Kenupatun is not called. `docs/DIFFERENCES.md` tells of them.
//!
//! The size of a layout is what it would take to write its lists in strokes: 1 for each number, and the
//! number. All layouts up to a size are tried, at one to three line widths, with the default penalties.
//! `tools/compare --test layout_differences -- --ignored` goes on to the largest of the smallest inputs.

mod plain;

use std::collections::BTreeMap;

use generate::layouts::{every_layout_of_size, Fragment, Layout, DEFAULT_PENALTIES};
use plain::{
    cheapest_of_all, cost_of, difference, first_fit, first_fit_by_the_crate, least_cost, optimal_fit_by_the_crate,
    widths_that_count, Difference,
};

/// Layouts up to this size are tried in every run.
const SIZE: usize = 16;

/// A layout by the ends of its lines, and its cost.
type Laid = (&'static [usize], u64);

/// An input, its size, what document 01 makes of it, and what another does.
struct Known {
    size: usize,
    fragments: &'static [Fragment],
    line_widths: &'static [u16],
    ours: Laid,
    other: Laid,
}

/// Each kind with its smallest input. The other layout is the crate's.
#[rustfmt::skip]
const SMALLEST: [(Difference, Known); 5] = [
    (Difference::CrateDearer, Known {
        size: 12, fragments: &[[0, 1, 0], [0, 0, 1], [0, 0, 0]], line_widths: &[0],
        ours: (&[3], 1000), other: (&[1, 3], 2001),
    }),
    (Difference::Tie, Known {
        size: 16, fragments: &[[1, 0, 0], [0, 1, 0], [0, 0, 1], [0, 0, 0]], line_widths: &[0],
        ours: (&[1, 4], 2000), other: (&[2, 4], 2000),
    }),
    (Difference::SeveralCrateDearer, Known {
        size: 15, fragments: &[[0, 0, 0], [0, 0, 2], [0, 0, 0]], line_widths: &[0, 2],
        ours: (&[3], 1000), other: (&[1, 3], 2001),
    }),
    (Difference::SeveralTie, Known {
        size: 19, fragments: &[[0, 0, 0], [0, 1, 0], [1, 0, 1], [0, 0, 0]], line_widths: &[0, 2],
        ours: (&[1, 4], 2001), other: (&[2, 4], 2001),
    }),
    (Difference::SeveralOursDearer, Known {
        size: 21, fragments: &[[0, 1, 0], [0, 0, 1], [0, 0, 0], [0, 0, 2]], line_widths: &[0, 0, 2],
        ours: (&[1, 2, 4], 3051), other: (&[1, 3, 4], 3027),
    }),
];

/// The smallest input for which document 01's least cost is not the least of all layouts. The other layout
/// is the cheapest; the crate's is document 01's.
#[rustfmt::skip]
const NOT_LEAST: Known = Known {
    size: 16, fragments: &[[0, 0, 0], [0, 0, 0], [2, 0, 0]], line_widths: &[0, 0, 2],
    ours: (&[3], 3500), other: (&[1, 2, 3], 3002),
};

/// A layout with three widths and no penalty widths that differs. It is not known to be the smallest.
#[rustfmt::skip]
const NO_PENALTY_WIDTHS: (Difference, Known) = (Difference::SeveralCrateDearer, Known {
    size: 110,
    fragments: &[[3, 0, 0], [4, 1, 0], [2, 1, 0], [4, 1, 0], [2, 0, 0], [0, 0, 0], [0, 0, 0]], line_widths: &[15, 53, 0],
    ours: (&[4, 7], 2000), other: (&[3, 7], 2025),
});

impl Known {
    fn layout(&self) -> Layout {
        Layout {
            fragments: self.fragments.to_vec(),
            line_widths: self.line_widths.to_vec(),
            penalties: DEFAULT_PENALTIES,
        }
    }
}

fn size(layout: &Layout) -> usize {
    layout.fragments.iter().flatten().chain(&layout.line_widths).map(|number| 1 + usize::from(*number)).sum()
}

#[test]
fn each_kind_has_its_input() {
    for (kind, known) in SMALLEST.into_iter().chain([NO_PENALTY_WIDTHS]) {
        let layout = known.layout();
        let least = least_cost(&layout);
        let ends = optimal_fit_by_the_crate(&layout);
        assert_eq!(size(&layout), known.size);
        assert_eq!(difference(&layout, &least), Ok(Some(kind)));
        assert_eq!((&least.ends[..], least.cost()), known.ours);
        assert_eq!((&ends[..], cost_of(&layout, &ends)), known.other);
    }
}

#[test]
fn least_cost_at_three_widths_may_not_be_the_least() {
    let layout = NOT_LEAST.layout();
    let least = least_cost(&layout);
    let (cost, ends) = cheapest_of_all(&layout);
    assert_eq!(size(&layout), NOT_LEAST.size);
    assert_eq!((&least.ends[..], least.cost()), NOT_LEAST.ours);
    assert_eq!((&ends[..], cost), NOT_LEAST.other);
    assert_eq!(optimal_fit_by_the_crate(&layout), least.ends);
}

/// Tries all layouts up to a size. None may differ in a kind that is not known, none at one width or two may
/// cost more than the cheapest, and first fit may not differ at all. Answers the size at which each kind
/// comes first, and that at which a layout comes that is not the cheapest.
fn first_of_each(most: usize) -> (BTreeMap<Difference, usize>, Option<usize>) {
    let (mut differ, mut not_least, mut counts) = (BTreeMap::new(), None, BTreeMap::<Difference, u64>::new());
    for size in 0..=most {
        every_layout_of_size(size, 3, DEFAULT_PENALTIES, |layout| {
            assert_eq!(first_fit(layout), first_fit_by_the_crate(layout), "{layout:?}");
            let least = least_cost(layout);
            if let Some(kind) = difference(layout, &least).unwrap_or_else(|wrong| panic!("{wrong}")) {
                differ.entry(kind).or_insert(size);
                *counts.entry(kind).or_default() += 1;
            }
            if cheapest_of_all(layout).0 < least.cost() {
                assert!(widths_that_count(&layout.line_widths) > 2, "{layout:?}");
                not_least = not_least.or(Some(size));
            }
        });
    }
    println!("layouts up to size {most}, the crate's differ: {counts:?}");
    (differ, not_least)
}

/// No layout up to a size differs in a kind before the smallest input of that kind.
fn hold_up_to(most: usize) {
    let smallest = SMALLEST.into_iter().map(|(kind, known)| (kind, known.size)).filter(|(_, size)| *size <= most);
    assert_eq!(first_of_each(most), (smallest.collect(), Some(NOT_LEAST.size)));
}

#[test]
fn no_smaller_input_differs() {
    hold_up_to(SIZE);
}

#[test]
#[ignore = "minutes under an emulator"]
fn no_smaller_input_differs_in_any_kind() {
    hold_up_to(21);
}
