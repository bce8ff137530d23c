//! Making a case that fails smaller while it still fails.

use std::time::{Duration, Instant};

/// Tries made before the smallest case so far is taken: a long text is tried often enough
/// to become short, and a case that cannot shrink does not hold up the run.
const TRIES_MOST: usize = 5_000;
/// The same for the time that they take: a long text is slow to try.
const TIME_MOST: Duration = Duration::from_secs(10);

/// A kind of case that can be made smaller.
pub trait Shrink: Clone {
    /// The smallest case found on which `fails` is true. It is true of `self`.
    fn shrink(&self, fails: &mut dyn FnMut(&Self) -> bool) -> Self;
}

/// One item of a list.
pub trait Item: Clone + PartialEq {
    /// Items that say less, the plainest first.
    fn simpler(&self) -> Vec<Self>;
}

impl Item for u8 {
    fn simpler(&self) -> Vec<u8> {
        vec![b'a', b' ']
    }
}

impl Item for char {
    fn simpler(&self) -> Vec<char> {
        vec!['a', ' ']
    }
}

impl Item for u16 {
    fn simpler(&self) -> Vec<u16> {
        [0, 1, self / 2, self.saturating_sub(1)].into_iter().filter(|n| n < self).collect()
    }
}

impl<T: Item> Shrink for Vec<T> {
    fn shrink(&self, fails: &mut dyn FnMut(&Vec<T>) -> bool) -> Vec<T> {
        let mut search = Search { best: self.clone(), tries: 0, start: Instant::now(), fails };
        while search.shorter() || search.plainer() {}
        search.best
    }
}

impl Shrink for String {
    fn shrink(&self, fails: &mut dyn FnMut(&String) -> bool) -> String {
        let chars: Vec<char> = self.chars().collect();
        chars.shrink(&mut |chars| fails(&chars.iter().collect())).iter().collect()
    }
}

impl<A: Shrink, B: Shrink> Shrink for (A, B) {
    fn shrink(&self, fails: &mut dyn FnMut(&(A, B)) -> bool) -> (A, B) {
        let first = self.0.shrink(&mut |first| fails(&(first.clone(), self.1.clone())));
        let second = self.1.shrink(&mut |second| fails(&(first.clone(), second.clone())));
        (first, second)
    }
}

impl<T: Shrink, const N: usize> Shrink for [T; N] {
    fn shrink(&self, fails: &mut dyn FnMut(&[T; N]) -> bool) -> [T; N] {
        let mut best = self.clone();
        for at in 0..N {
            let part = best[at].shrink(&mut |part| {
                let mut parts = best.clone();
                parts[at] = part.clone();
                fails(&parts)
            });
            best[at] = part;
        }
        best
    }
}

impl Shrink for u32 {
    fn shrink(&self, fails: &mut dyn FnMut(&u32) -> bool) -> u32 {
        let mut best = *self;
        while let Some(less) = [0, best / 2, best.saturating_sub(1)].into_iter().find(|n| *n < best && fails(n)) {
            best = less;
        }
        best
    }
}

/// The smallest list so far.
struct Search<'a, T> {
    best: Vec<T>,
    tries: usize,
    start: Instant,
    fails: &'a mut dyn FnMut(&Vec<T>) -> bool,
}

impl<T: Item> Search<'_, T> {
    /// Whether a list still fails. It is then the best.
    fn takes(&mut self, list: Vec<T>) -> bool {
        self.tries += 1;
        let fails = (self.fails)(&list);
        if fails {
            self.best = list;
        }
        fails
    }

    fn is_tired(&self) -> bool {
        self.tries >= TRIES_MOST || self.start.elapsed() >= TIME_MOST
    }

    /// Leaves out what the failure does not need, halves first, single items last.
    fn shorter(&mut self) -> bool {
        let before = self.best.len();
        let mut part = before.div_ceil(2);
        while part > 0 {
            let mut at = 0;
            while at < self.best.len() && !self.is_tired() {
                let mut list = self.best.clone();
                list.drain(at..(at + part).min(list.len()));
                if !self.takes(list) {
                    at += part;
                }
            }
            part /= 2;
        }
        self.best.len() < before
    }

    /// Makes the items plainer, each as far as it goes.
    fn plainer(&mut self) -> bool {
        let mut changed = false;
        for at in 0..self.best.len() {
            let item = self.best[at].clone();
            // only what stands before the item itself is plainer than it
            for simpler in item.simpler().into_iter().take_while(|simpler| *simpler != item) {
                if self.is_tired() {
                    return changed;
                }
                let mut list = self.best.clone();
                list[at] = simpler;
                if self.takes(list) {
                    changed = true;
                    break;
                }
            }
        }
        changed
    }
}

#[cfg(test)]
mod tests {
    use super::*;

    #[test]
    fn a_text_shrinks_to_what_fails() {
        let text = "some words \u{1B}]8;;x 你 and more".to_string();
        let small = text.shrink(&mut |text| text.contains('\u{1B}') && text.contains('你'));
        assert_eq!(small, "\u{1B}你");
        let small = text.into_bytes().shrink(&mut |text| text.len() >= 3);
        assert_eq!(small, b"aaa");
    }

    #[test]
    fn lists_of_numbers_shrink() {
        let lists = (vec![9_u16, 300, 7], vec![500_u16, 2]);
        let small = lists.shrink(&mut |(a, b)| a.iter().any(|n| *n > 20) && b.len() > 1);
        assert_eq!(small, (vec![21], vec![0, 0]));
    }

    #[test]
    fn numbers_shrink() {
        assert_eq!(255_u32.shrink(&mut |n| *n > 99), 100);
        assert_eq!([9_u32, 300, 7].shrink(&mut |[a, b, c]| a + b > 20 && *c > 2), [0, 21, 3]);
    }

    #[test]
    fn what_cannot_shrink_stays_and_ends() {
        let text = vec![b'b'; 10_001];
        let small = text.shrink(&mut |text| text.len() > 10_000);
        assert_eq!(small.len(), 10_001);
    }

    #[test]
    fn what_is_too_long_shrinks_to_the_limit() {
        let text = vec![b'b'; 3_000];
        let small = text.shrink(&mut |text| text.len() > 100);
        assert_eq!(small, [b'a'; 101]);
    }
}
