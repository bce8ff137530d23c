//! What every benchmark shares: the clock, the table, the texts.

// not every benchmark is about texts
#[allow(dead_code)]
pub mod texts;

use std::hint::black_box;
use std::time::{Duration, Instant};

/// Ours and theirs take turns, so that a slow moment of the machine strikes both. The fastest
/// of all rounds counts: what is slower was disturbed.
const ROUNDS: usize = 40;
/// A round is long enough for the clock to be exact.
const ROUND: Duration = Duration::from_millis(5);

/// Times as a table, a row for each kind of input.
pub struct Table;

impl Table {
    /// Prints the head of a table of times for one unit, as a byte.
    #[allow(dead_code)]
    pub fn new(what: &str, unit: &str) -> Table {
        Table::of(what, unit, "ours", "crate")
    }

    /// The same for two things of any name.
    pub fn of(what: &str, unit: &str, first: &str, second: &str) -> Table {
        let (one, other) = (format!("{first} ns/{unit}"), format!("{second} ns/{unit}"));
        println!("{what:<30} {one:>18} {other:>18} {:>14}", format!("{second} / {first}"));
        Table
    }

    /// Times both on one input of so many units and prints a row. Above 1 in the last column, ours is
    /// faster. Both answer what they computed, and it must be the same.
    pub fn row(
        &mut self,
        name: &str,
        units: usize,
        mut ours: impl FnMut() -> usize,
        mut theirs: impl FnMut() -> usize,
    ) {
        assert_eq!(ours(), theirs(), "{name}: ours and the crate's differ");
        let (our_turns, their_turns) = (turns_in_a_round(&mut ours), turns_in_a_round(&mut theirs));
        let (mut our_best, mut their_best) = (f64::MAX, f64::MAX);
        for _ in 0..ROUNDS {
            our_best = our_best.min(nanoseconds(&mut ours, our_turns));
            their_best = their_best.min(nanoseconds(&mut theirs, their_turns));
        }
        let per_unit = |nanoseconds: f64| nanoseconds / units as f64;
        let (our_best, their_best) = (per_unit(our_best), per_unit(their_best));
        println!("{name:<30} {our_best:>18.3} {their_best:>18.3} {:>14.2}", their_best / our_best);
    }
}

/// How often `work` is done in a round. Finding out warms it up.
fn turns_in_a_round(work: &mut impl FnMut() -> usize) -> u32 {
    let start = Instant::now();
    let mut turns = 0;
    while start.elapsed() < ROUND {
        black_box(work());
        turns += 1;
    }
    turns
}

/// The time of one turn, out of one round.
fn nanoseconds(work: &mut impl FnMut() -> usize, turns: u32) -> f64 {
    let start = Instant::now();
    for _ in 0..turns {
        black_box(work());
    }
    start.elapsed().as_nanos() as f64 / f64::from(turns)
}
