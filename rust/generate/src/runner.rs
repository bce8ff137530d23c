//! Running a check on many cases.

use std::env;
use std::fmt::Debug;
use std::ops::Range;

use crate::{Rng, Shrink};

const SEED: u64 = 20_260_101;
const CASES: u64 = 300_000;

/// From so many cases on, a comparison that tries all short inputs takes more kinds of them.
pub const MORE_CASES: u64 = 1_000_000;

/// The seed of all runs: `KENUPATUN_SEED`, or the same number every time.
pub fn seed() -> u64 {
    from_environment("KENUPATUN_SEED", SEED)
}

/// How many cases a run has: `KENUPATUN_CASES`, or 300,000. A comparison whose cases are
/// costly takes a part of it.
pub fn cases() -> u64 {
    from_environment("KENUPATUN_CASES", CASES)
}

fn from_environment(name: &str, usual: u64) -> u64 {
    match env::var(name) {
        Ok(number) => number.parse().unwrap_or_else(|_| panic!("{name} is {number:?}, which is no number")),
        Err(_) => usual,
    }
}

/// Says how many cases were run. `cargo test` shows it with `-- --show-output`; `tools/try-many` adds it up.
pub fn say_cases(count: u64) {
    println!("cases: {count}");
}

/// Makes the cases of these numbers and checks each, and says how many there were. Where a check fails, this panics with the seed,
/// the number of the case, and the smallest case found that fails too, with what was wrong about it.
pub fn run<T: Shrink + Debug>(
    numbers: Range<u64>,
    make: impl Fn(&mut Rng) -> T,
    check: impl Fn(&T) -> Result<(), String>,
) {
    let seed = seed();
    say_cases(numbers.end.saturating_sub(numbers.start));
    for number in numbers {
        let case = make(&mut Rng::of_case(seed, number));
        if let Err(first) = check(&case) {
            let small = case.shrink(&mut |case| check(case).is_err());
            let wrong = check(&small).err().unwrap_or(format!("{first}\n(not so when tried again)"));
            panic!("seed {seed}, case {number}: {wrong}\nsmallest case: {small:?}");
        }
    }
}

#[cfg(test)]
mod tests {
    use super::run;
    use crate::text;

    #[test]
    #[should_panic(expected = "there is a tab\nsmallest case: \"\\t\"")]
    fn a_failure_names_its_smallest_case() {
        run(0..1000, text::any, |text| if text.contains('\t') { Err("there is a tab".into()) } else { Ok(()) });
    }
}
