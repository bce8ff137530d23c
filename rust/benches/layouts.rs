//! How fast layouts are: ours, which reads lists of bytes and writes into lists that are there already,
//! against the crate's `wrap_first_fit` and `wrap_optimal_fit`, which read a slice of fragments and answer
//! a new `Vec` of lines. What is read is made before the clock starts, in the form that each wants.

mod timing;

use generate::layouts::{natural, Fragment, DEFAULT_PENALTIES};
use generate::Rng;
use kenupatun::{first_fit_into, least_cost_into};
use textwrap::wrap_algorithms::{wrap_first_fit, wrap_optimal_fit};
use timing::Table;

/// How many fragments are laid out.
const COUNTS: [usize; 3] = [256, 1_024, 4_096];

/// A fragment as the crate wants it.
#[derive(Debug)]
struct Widths([f64; 3]);

impl textwrap::core::Fragment for Widths {
    fn width(&self) -> f64 {
        self.0[0]
    }

    fn whitespace_width(&self) -> f64 {
        self.0[1]
    }

    fn penalty_width(&self) -> f64 {
        self.0[2]
    }
}

/// What is laid out, as ours and as theirs read it.
struct Input {
    words: Vec<u8>,
    whites: Vec<u8>,
    penalty_widths: Vec<u8>,
    line_widths: Vec<u8>,
    their_fragments: Vec<Widths>,
    their_line_widths: Vec<f64>,
}

impl Input {
    fn new(fragments: &[Fragment], line_widths: &[u16]) -> Input {
        let part = |part: usize| fragments.iter().flat_map(|fragment| fragment[part].to_be_bytes()).collect();
        Input {
            words: part(0),
            whites: part(1),
            penalty_widths: part(2),
            line_widths: line_widths.iter().flat_map(|width| width.to_be_bytes()).collect(),
            their_fragments: fragments.iter().map(|fragment| Widths(fragment.map(f64::from))).collect(),
            their_line_widths: line_widths.iter().map(|width| f64::from(*width)).collect(),
        }
    }
}

/// Text of so many words.
fn text(count: usize) -> Vec<Fragment> {
    natural(&mut Rng::of_case(1, 1), count)
}

/// Words of 0 and 1 columns, so that a line has hundreds.
fn narrow(count: usize) -> Vec<Fragment> {
    (0..count).map(|at| [at as u16 % 2, 0, 0]).collect()
}

/// Times first fit on one input. Both answer the lines.
fn first_fit(table: &mut Table, name: &str, fragments: &[Fragment], line_widths: &[u16]) {
    let input = Input::new(fragments, line_widths);
    let mut ends = vec![0; 2 * fragments.len()];
    table.row(
        &format!("{} {name}", fragments.len()),
        fragments.len(),
        || {
            first_fit_into(&input.words, &input.whites, &input.penalty_widths, &input.line_widths, &mut ends).count
                as usize
        },
        || wrap_first_fit(&input.their_fragments, &input.their_line_widths).len(),
    );
}

/// Times least cost on one input. Both answer the lines.
fn least_cost(table: &mut Table, name: &str, fragments: &[Fragment], line_widths: &[u16], penalties: [u32; 5]) {
    let input = Input::new(fragments, line_widths);
    let (ours, theirs) = both_penalties(penalties);
    let places = fragments.len() + 1;
    let (mut ends, mut costs, mut starts) = (vec![0; 2 * places], vec![0; 8 * places], vec![0; 2 * places]);
    table.row(
        &format!("{} {name}", fragments.len()),
        fragments.len(),
        || {
            let (words, whites, penalty_widths) = (&input.words, &input.whites, &input.penalty_widths);
            let line_widths = &input.line_widths;
            least_cost_into(words, whites, penalty_widths, line_widths, ours, &mut ends, &mut costs, &mut starts).count
                as usize
        },
        || wrap_optimal_fit(&input.their_fragments, &input.their_line_widths, &theirs).unwrap().len(),
    );
}

/// Penalties as ours and as theirs wants them.
fn both_penalties(penalties: [u32; 5]) -> (kenupatun::Penalties, textwrap::wrap_algorithms::Penalties) {
    let [nline_penalty, overflow_penalty, short_last_line_fraction, short_last_line_penalty, hyphen_penalty] =
        penalties;
    let ours = kenupatun::Penalties {
        nline_penalty,
        overflow_penalty,
        short_last_line_fraction,
        short_last_line_penalty,
        hyphen_penalty,
    };
    let theirs = textwrap::wrap_algorithms::Penalties {
        nline_penalty: nline_penalty as usize,
        overflow_penalty: overflow_penalty as usize,
        short_last_line_fraction: short_last_line_fraction as usize,
        short_last_line_penalty: short_last_line_penalty as usize,
        hyphen_penalty: hyphen_penalty as usize,
    };
    (ours, theirs)
}

fn main() {
    println!(
        "layouts: ours reads and writes lists of bytes that are there already, the crate's lines go into a new Vec"
    );
    let mut table = Table::new("first fit", "fragment");
    for count in COUNTS {
        first_fit(&mut table, "at 42", &text(count), &[42]);
        first_fit(&mut table, "at 80", &text(count), &[80]);
        first_fit(&mut table, "narrow at 255", &narrow(count), &[255]);
    }
    let free_overflow = [1_000, 0, 4, 25, 25];
    let mut table = Table::new("least cost", "fragment");
    for count in COUNTS {
        least_cost(&mut table, "at 42", &text(count), &[42], DEFAULT_PENALTIES);
        least_cost(&mut table, "at 80", &text(count), &[80], DEFAULT_PENALTIES);
        least_cost(&mut table, "at 30, 42, 80", &text(count), &[30, 42, 80], DEFAULT_PENALTIES);
        least_cost(&mut table, "narrow at 255", &narrow(count), &[255], DEFAULT_PENALTIES);
        least_cost(&mut table, "at 42, free overflow", &text(count), &[42], free_overflow);
    }
}
