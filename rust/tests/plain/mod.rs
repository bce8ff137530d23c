//! Layouts as document 01 says them, sentence by sentence and without a thought for speed; and the
//! layouts of the crate `textwrap`, to be held against them. Nothing here knows Kenupatun.

#![allow(dead_code)]

use std::cell::RefCell;
use std::cmp::Ordering;

use generate::layouts::{Fragment, Layout};
use textwrap::wrap_algorithms::{wrap_first_fit, wrap_optimal_fit, Penalties};

/// A least-cost layout: where its lines end, and best and the chosen start of each position.
#[derive(Clone, Debug, PartialEq)]
pub struct Least {
    pub ends: Vec<usize>,
    pub costs: Vec<u64>,
    pub starts: Vec<usize>,
}

impl Least {
    /// What the whole layout costs.
    pub fn cost(&self) -> u64 {
        *self.costs.last().unwrap()
    }
}

/// "Line k has the k-th width, beyond the list the last one; an empty list counts as a single 0."
pub fn width_of_line(line_widths: &[u16], k: usize) -> u64 {
    line_widths.get(k).or(line_widths.last()).copied().unwrap_or(0).into()
}

/// "(width of the current fragments, each with its whitespace)"
fn with_whitespace(fragments: &[Fragment]) -> u64 {
    fragments.iter().map(|[word, white, _]| u64::from(*word) + u64::from(*white)).sum()
}

/// "a new line starts before a fragment if the current line has one and (width of the current fragments,
/// each with its whitespace) + word + penalty exceeds the line width."
pub fn first_fit(layout: &Layout) -> Vec<usize> {
    let mut ends = Vec::new();
    let mut start = 0;
    for (at, [word, _, penalty_width]) in layout.fragments.iter().enumerate() {
        let current = &layout.fragments[start..at];
        let width = with_whitespace(current) + u64::from(*word) + u64::from(*penalty_width);
        if !current.is_empty() && width > width_of_line(&layout.line_widths, ends.len()) {
            ends.push(at);
            start = at;
        }
    }
    ends.push(layout.fragments.len());
    ends
}

/// "L is the sum of words and whitespace, less the last whitespace, plus the last penalty width."
fn line_length(fragments: &[Fragment]) -> u64 {
    let [_, white, penalty_width] = fragments[fragments.len() - 1];
    with_whitespace(fragments) - u64::from(white) + u64::from(penalty_width)
}

/// What the line from i up to, not including, j adds, its length being L and its number k: "the per-line
/// penalty, plus one of: overflow × (L−T) if L > T; else (T−L)² if j is not the end; else the
/// short-last-line penalty if the line has one fragment and L × fraction < T. Add the hyphen penalty if
/// the last penalty width is above 0."
fn line_price(layout: &Layout, length: u64, k: usize, i: usize, j: usize) -> u64 {
    let [per_line, overflow, fraction, short, hyphen] = layout.penalties.map(u64::from);
    let target = width_of_line(&layout.line_widths, k).max(1);
    let fit = if length > target {
        overflow * (length - target)
    } else if j < layout.fragments.len() {
        (target - length) * (target - length)
    } else if j - i == 1 && length * fraction < target {
        short
    } else {
        0
    };
    per_line + fit + if layout.fragments[j - 1][2] > 0 { hyphen } else { 0 }
}

/// "The line number of a position is 0 at 0, otherwise one more than that of its chosen start."
fn line_number(starts: &[usize], position: usize) -> usize {
    let (mut position, mut number) = (position, 0);
    while position > 0 {
        position = starts[position];
        number += 1;
    }
    number
}

/// "best(0) = 0; best(j) is the least price, and of equal prices the smallest i is chosen."
pub fn least_cost(layout: &Layout) -> Least {
    let (mut costs, mut starts, mut numbers) = (vec![0], vec![0], vec![0]);
    for j in 1..=layout.fragments.len() {
        let (mut best, mut start) = (u64::MAX, 0);
        let mut length = line_length(&layout.fragments[j - 1..j]);
        // from the last start down, so that of equal prices the smallest start stays
        for i in (0..j).rev() {
            let price = costs[i] + line_price(layout, length, numbers[i], i, j);
            if price <= best {
                (best, start) = (price, i);
            }
            if i > 0 {
                length += with_whitespace(&layout.fragments[i - 1..i]);
            }
        }
        costs.push(best);
        starts.push(start);
        numbers.push(line_number(&starts, j));
    }
    Least { ends: ends_of(&starts), costs, starts }
}

/// The ends of the lines that the chosen starts come to. No fragments give one line with end 0.
fn ends_of(starts: &[usize]) -> Vec<usize> {
    let mut ends = vec![starts.len() - 1];
    while starts[ends[ends.len() - 1]] > 0 {
        ends.push(starts[ends[ends.len() - 1]]);
    }
    ends.reverse();
    ends
}

/// What lines with these ends cost by document 01's price, the k-th line having the k-th width.
pub fn cost_of(layout: &Layout, ends: &[usize]) -> u64 {
    if layout.fragments.is_empty() {
        return 0;
    }
    let starts = [0].into_iter().chain(ends.iter().copied());
    let lines = starts.zip(ends).enumerate();
    lines.map(|(k, (i, j))| line_price(layout, line_length(&layout.fragments[i..*j]), k, i, *j)).sum()
}

/// The cheapest of all layouts, the k-th line having the k-th width: each of them is tried.
pub fn cheapest_of_all(layout: &Layout) -> (u64, Vec<usize>) {
    let count = layout.fragments.len();
    let breaks = count.saturating_sub(1);
    let all = (0..1_u32 << breaks).map(|broken| {
        let inner = (1..count).filter(|at| broken >> (at - 1) & 1 == 1);
        let ends: Vec<usize> = inner.chain([count]).collect();
        (cost_of(layout, &ends), ends)
    });
    all.min().unwrap()
}

/// A fragment as the crate wants it.
#[derive(Clone, Copy, Debug)]
pub struct Widths {
    word: f64,
    white: f64,
    penalty: f64,
}

impl textwrap::core::Fragment for Widths {
    fn width(&self) -> f64 {
        self.word
    }

    fn whitespace_width(&self) -> f64 {
        self.white
    }

    fn penalty_width(&self) -> f64 {
        self.penalty
    }
}

/// A layout as the crate wants it.
pub fn for_the_crate(layout: &Layout) -> (Vec<Widths>, Vec<f64>, Penalties) {
    let of = |[word, white, penalty]: &Fragment| Widths {
        word: f64::from(*word),
        white: f64::from(*white),
        penalty: f64::from(*penalty),
    };
    let [nline_penalty, overflow_penalty, short_last_line_fraction, short_last_line_penalty, hyphen_penalty] =
        layout.penalties.map(|penalty| penalty as usize);
    let penalties = Penalties {
        nline_penalty,
        overflow_penalty,
        short_last_line_fraction,
        short_last_line_penalty,
        hyphen_penalty,
    };
    (layout.fragments.iter().map(of).collect(), layout.line_widths.iter().copied().map(f64::from).collect(), penalties)
}

/// Where the crate's first fit ends its lines.
pub fn first_fit_by_the_crate(layout: &Layout) -> Vec<usize> {
    let (fragments, line_widths, _) = for_the_crate(layout);
    ends_of_lines(&wrap_first_fit(&fragments, &line_widths))
}

/// Where the crate's optimal fit ends its lines. Within document 01's bounds its costs do not overflow.
pub fn optimal_fit_by_the_crate(layout: &Layout) -> Vec<usize> {
    let (fragments, line_widths, penalties) = for_the_crate(layout);
    ends_of_lines(&wrap_optimal_fit(&fragments, &line_widths, &penalties).unwrap())
}

fn ends_of_lines<T>(lines: &[&[T]]) -> Vec<usize> {
    let mut end = 0;
    let ends = lines.iter().map(|line| {
        end += line.len();
        end
    });
    ends.collect()
}

/// Where the crate's search ends the lines when it is given document 01's price, in whole numbers. It must be
/// where the crate ends them: then all that sets the two apart is the search.
fn searched_by_document_01s_price(layout: &Layout) -> Vec<usize> {
    let mut before = vec![0];
    for fragment in &layout.fragments {
        before.push(before[before.len() - 1] + with_whitespace(&[*fragment]));
    }
    let numbers = RefCell::new(vec![0]);
    let minima = smawk::online_column_minima(0, layout.fragments.len() + 1, |minima: &[(usize, u64)], i, j| {
        let mut numbers = numbers.borrow_mut();
        for position in numbers.len()..=i {
            let number = 1 + numbers[minima[position].0];
            numbers.push(number);
        }
        let [_, white, penalty_width] = layout.fragments[j - 1];
        let length = before[j] - before[i] - u64::from(white) + u64::from(penalty_width);
        minima[i].1 + line_price(layout, length, numbers[i], i, j)
    });
    let starts: Vec<usize> = minima.iter().map(|(start, _)| *start).collect();
    ends_of(&starts)
}

/// How the crate's layout differs from document 01's least-cost layout. The last three are for line widths
/// of which several come to something different.
#[derive(Clone, Copy, Debug, PartialEq, Eq, PartialOrd, Ord)]
pub enum Difference {
    Tie,
    CrateDearer,
    SeveralTie,
    SeveralCrateDearer,
    SeveralOursDearer,
}

/// How many line widths make a difference to least cost: widths of 0 and 1 are the same to it, and so are
/// one last width and several that are equal.
pub fn widths_that_count(line_widths: &[u16]) -> usize {
    let mut targets: Vec<u16> = line_widths.iter().map(|width| *width.max(&1)).collect();
    while targets.len() > 1 && targets[targets.len() - 1] == targets[targets.len() - 2] {
        targets.pop();
    }
    targets.len()
}

/// The kind of difference between the crate's layout and this one of document 01, or none. A difference of
/// a kind that is not known is an error:
///
/// - It may come from the search alone: by document 01's price the crate's search must find the crate's layout.
/// - With one width the layout is the cheapest of all, and with two as well, since then each line but the
///   first has the same width: the crate's may not cost less.
/// - With one width or two and no penalty widths the prices have the order that the crate's search assumes:
///   the layouts must be the same.
pub fn difference(layout: &Layout, ours: &Least) -> Result<Option<Difference>, String> {
    let theirs = optimal_fit_by_the_crate(layout);
    let searched = searched_by_document_01s_price(layout);
    if searched != theirs {
        return Err(format!("{layout:?}: the crate's ends {theirs:?}, by document 01's price {searched:?}"));
    }
    if ours.ends == theirs {
        return Ok(None);
    }
    let (cost, their_cost) = (ours.cost(), cost_of(layout, &theirs));
    let widths = widths_that_count(&layout.line_widths);
    let plain = layout.fragments.iter().all(|fragment| fragment[2] == 0);
    if widths < 3 && (plain || cost > their_cost) {
        let ends = &ours.ends;
        return Err(format!("{layout:?}: ends {ends:?} cost {cost}, the crate's {theirs:?} {their_cost}"));
    }
    Ok(Some(match (widths < 2, cost.cmp(&their_cost)) {
        (true, Ordering::Equal) => Difference::Tie,
        (true, _) => Difference::CrateDearer,
        (false, Ordering::Equal) => Difference::SeveralTie,
        (false, Ordering::Less) => Difference::SeveralCrateDearer,
        (false, Ordering::Greater) => Difference::SeveralOursDearer,
    }))
}
