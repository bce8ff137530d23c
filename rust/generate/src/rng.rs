//! Numbers from a seed.

/// SplitMix64 (Steele, Lea and Flood, 2014): small, and even enough for making tests.
#[derive(Clone, Debug)]
pub struct Rng(u64);

impl Rng {
    /// The numbers of one case of a run. Two cases of one seed have nothing in common, so
    /// that a single case can be made again without those before it.
    pub fn of_case(seed: u64, case: u64) -> Rng {
        let mut start = Rng(seed);
        Rng(start.next() ^ Rng(case).next())
    }

    /// The next number.
    #[allow(clippy::should_implement_trait)]
    pub fn next(&mut self) -> u64 {
        self.0 = self.0.wrapping_add(0x9E37_79B9_7F4A_7C15);
        let mut z = self.0;
        z = (z ^ (z >> 30)).wrapping_mul(0xBF58_476D_1CE4_E5B9);
        z = (z ^ (z >> 27)).wrapping_mul(0x94D0_49BB_1331_11EB);
        z ^ (z >> 31)
    }

    /// A number from 0 up to, not including, `end`, which is above 0.
    pub fn below(&mut self, end: usize) -> usize {
        assert!(end > 0, "there is no number below 0");
        ((u128::from(self.next()) * end as u128) >> 64) as usize
    }

    /// A number from `low` through `high`.
    pub fn between(&mut self, low: usize, high: usize) -> usize {
        low + self.below(high - low + 1)
    }

    /// True once in `n` times.
    pub fn one_in(&mut self, n: usize) -> bool {
        self.below(n) == 0
    }

    /// One of a list that is not empty.
    pub fn pick<T: Copy>(&mut self, list: &[T]) -> T {
        list[self.below(list.len())]
    }

    /// A number below the length of a list that says how often each comes.
    pub fn kind(&mut self, mixture: &[usize]) -> usize {
        let mut at = self.below(mixture.iter().sum());
        let mut kind = 0;
        while at >= mixture[kind] {
            at -= mixture[kind];
            kind += 1;
        }
        kind
    }
}

#[cfg(test)]
mod tests {
    use super::Rng;

    #[test]
    fn the_numbers_are_those_of_the_paper() {
        // The first numbers of SplitMix64 from 1234567, as published with it.
        let mut rng = Rng(1_234_567);
        let first = [rng.next(), rng.next(), rng.next()];
        assert_eq!(first, [6457827717110365317, 3203168211198807973, 9817491932198370423]);
    }

    #[test]
    fn a_range_is_reached_to_both_ends() {
        let mut rng = Rng::of_case(1, 1);
        let mut seen = [0; 7];
        for _ in 0..1000 {
            seen[rng.between(3, 6)] += 1;
        }
        assert_eq!(seen[..3], [0, 0, 0]);
        assert!(seen[3..].iter().all(|&times| times > 150), "{seen:?}");
    }

    #[test]
    fn kinds_come_as_often_as_asked() {
        let mut rng = Rng::of_case(1, 1);
        let mut seen = [0; 4];
        for _ in 0..1000 {
            seen[rng.kind(&[0, 1, 0, 3])] += 1;
        }
        assert_eq!((seen[0], seen[2]), (0, 0));
        assert!((150..350).contains(&seen[1]), "{seen:?}");
    }
}
