//! What the comparisons of the two layouts share: a call on lists of bytes, held against the plain reading
//! of document 01 (see `plain`), with every byte that was lent or lies around it.

use std::mem::take;

use generate::layouts::{Fragment, Layout, FRAGMENTS_MOST, PENALTY_MOST, WIDTH_MOST};
use generate::Rng;
use kenupatun::{first_fit_into, least_cost_into, Answer, Penalties, Refusal};

use crate::plain::{self, Least};

/// Bytes before, between and after the lists, which nobody may touch.
const GUARD: usize = 8;

/// The bytes of a place in each of the lists that are written: ends, costs, starts.
pub const PLACES: [usize; 3] = [2, 8, 2];

/// The lists by name, as they lie in a block.
const NAMES: [&str; 7] = ["words", "whites", "penalty_widths", "line_widths", "ends", "costs", "starts"];

/// The largest cost that is not refused.
const COST_MOST: u64 = 1 << 53;

pub const fn done(count: usize) -> Answer {
    Answer { number: 0, place: 0, count: count as u64 }
}

pub const fn refused(number: u32, place: usize) -> Answer {
    Answer { number, place: place as u64, count: 0 }
}

/// One of the two functions. Each comparison makes its own.
#[allow(dead_code)]
#[derive(Clone, Copy, Debug, PartialEq)]
pub enum Call {
    FirstFit,
    LeastCost,
}

/// The bytes that a function is given: the four lists that it reads, the penalties, and how many bytes
/// the lists have that it writes: ends, costs, starts.
#[derive(Clone, Debug)]
pub struct Given {
    pub lists: [Vec<u8>; 4],
    pub penalties: [u32; 5],
    pub lens: [usize; 3],
}

impl Given {
    /// A layout with lists that are exactly full.
    pub fn new(layout: &Layout) -> Given {
        let count = layout.fragments.len();
        Given {
            lists: layout.lists(),
            penalties: layout.penalties,
            lens: [PLACES[0] * count.max(1), PLACES[1] * (count + 1), PLACES[2] * (count + 1)],
        }
    }

    /// A layout with lists of so many bytes: those that are read are cut, or go on with bytes of 1.
    pub fn of_lens(layout: &Layout, lens: [usize; 7]) -> Given {
        let mut given = Given::new(layout);
        for (list, len) in given.lists.iter_mut().zip(lens) {
            list.resize(len, 1);
        }
        given.lens.copy_from_slice(&lens[4..]);
        given
    }

    /// The lengths of all lists in bytes.
    pub fn all_lens(&self) -> [usize; 7] {
        let [words, whites, penalty_widths, line_widths] = [0, 1, 2, 3].map(|list: usize| self.lists[list].len());
        let [ends, costs, starts] = self.lens;
        [words, whites, penalty_widths, line_widths, ends, costs, starts]
    }

    /// A byte left over at the end of each list that is read, and spare room in those that are written.
    pub fn with_left_over(mut self, places: usize) -> Given {
        for list in &mut self.lists {
            list.push(0xFF);
        }
        for (len, (place, left_over)) in self.lens.iter_mut().zip(PLACES.into_iter().zip([1, 7, 1])) {
            *len += places * place + left_over;
        }
        self
    }
}

/// The numbers of a list. A byte left over is none.
fn numbers(list: &[u8]) -> Vec<u16> {
    list.chunks_exact(2).map(|number| u16::from_be_bytes([number[0], number[1]])).collect()
}

/// What document 01 asks for: a layout, or a refusal in the order 5, 4, 3, 6, 7.
pub fn expected(call: Call, given: &Given) -> Result<Least, Answer> {
    let [words, whites, penalty_widths, line_widths] = [0, 1, 2, 3].map(|list: usize| numbers(&given.lists[list]));
    let count = words.len();
    if whites.len() != count || penalty_widths.len() != count {
        return Err(refused(5, 0));
    }
    if count > FRAGMENTS_MOST {
        return Err(refused(4, 0));
    }
    if let Some(at) = line_widths.iter().position(|width| *width > WIDTH_MOST) {
        return Err(refused(3, at));
    }
    let large = given.penalties.iter().position(|penalty| *penalty > PENALTY_MOST);
    if let (Call::LeastCost, Some(at)) = (call, large) {
        return Err(refused(6, at));
    }
    let [ends, costs, starts] = [0, 1, 2].map(|list: usize| given.lens[list] / PLACES[list]);
    if ends < count.max(1) {
        return Err(refused(7, count.max(1)));
    }
    if call == Call::LeastCost && costs.min(starts) < count + 1 {
        return Err(refused(7, count + 1));
    }
    let fragments = (0..count).map(|at| [words[at], whites[at], penalty_widths[at]]).collect();
    let layout = Layout { fragments, line_widths, penalties: given.penalties };
    Ok(plainly(call, &layout))
}

/// All lists in one block.
#[derive(Clone, PartialEq)]
struct Lent {
    block: Vec<u8>,
    lens: [usize; 7],
}

impl Lent {
    /// The lists that are read, and those that are written with bytes of which no two near each other are the same.
    fn new(given: &Given) -> Lent {
        let lens = given.all_lens();
        let size = lens.iter().sum::<usize>() + 8 * GUARD;
        let block = (0..size).map(|at| (at as u8).wrapping_mul(0x3B) ^ 0xA5).collect();
        let mut lent = Lent { block, lens };
        for (list, bytes) in lent.lists().into_iter().zip(&given.lists) {
            list.copy_from_slice(bytes);
        }
        lent
    }

    fn lists(&mut self) -> [&mut [u8]; 7] {
        let mut rest = &mut self.block[..];
        self.lens.map(|len| {
            let (list, after) = take(&mut rest)[GUARD..].split_at_mut(len);
            rest = after;
            list
        })
    }

    /// Writes what a success writes.
    fn write(&mut self, least: &Least) {
        let [.., ends, costs, starts] = self.lists();
        for (place, end) in ends.chunks_exact_mut(2).zip(&least.ends) {
            place.copy_from_slice(&(*end as u16).to_be_bytes());
        }
        for (place, cost) in costs.chunks_exact_mut(8).zip(&least.costs) {
            place.copy_from_slice(&cost.to_be_bytes());
        }
        for (place, start) in starts.chunks_exact_mut(2).zip(&least.starts) {
            place.copy_from_slice(&(*start as u16).to_be_bytes());
        }
    }

    /// Calls with all lists.
    fn call(&mut self, call: Call, penalties: [u32; 5]) -> Answer {
        let penalties = penalties_of(penalties);
        let [words, whites, penalty_widths, line_widths, ends, costs, starts] = self.lists();
        match call {
            Call::FirstFit => first_fit_into(words, whites, penalty_widths, line_widths, ends),
            Call::LeastCost => {
                least_cost_into(words, whites, penalty_widths, line_widths, penalties, ends, costs, starts)
            }
        }
    }
}

fn penalties_of(penalties: [u32; 5]) -> Penalties {
    let [nline_penalty, overflow_penalty, short_last_line_fraction, short_last_line_penalty, hyphen_penalty] =
        penalties;
    Penalties { nline_penalty, overflow_penalty, short_last_line_fraction, short_last_line_penalty, hyphen_penalty }
}

/// Calls with what is given. The answer must be the expected one, and so must every byte of the lists and
/// around them. Answers what was expected.
pub fn agrees_on(call: Call, given: &Given) -> Result<Result<Least, Answer>, String> {
    let expected = expected(call, given);
    agrees_with(&expected, call, given)?;
    Ok(expected)
}

fn agrees_with(expected: &Result<Least, Answer>, call: Call, given: &Given) -> Result<(), String> {
    let mut ours = Lent::new(given);
    let mut theirs = ours.clone();
    let wanted = match expected {
        Err(refusal) => *refusal,
        Ok(least) => {
            assert!(least.costs.last().is_none_or(|cost| *cost <= COST_MOST), "8 within the bounds: {given:?}");
            theirs.write(least);
            done(least.ends.len())
        }
    };
    let answer = ours.call(call, given.penalties);
    if answer != wanted {
        return Err(format!("{}: {answer:?}, expected {wanted:?}", said(call, given)));
    }
    if ours == theirs {
        return Ok(());
    }
    for ((list, wanted), name) in ours.lists().into_iter().zip(theirs.lists()).zip(NAMES) {
        if let Some(at) = (0..list.len()).find(|at| list[*at] != wanted[*at]) {
            let (byte, wanted) = (list[at], wanted[at]);
            return Err(format!("{}: byte {at} of {name} is {byte}, expected {wanted}", said(call, given)));
        }
    }
    Err(format!("{}: bytes outside the lists have changed", said(call, given)))
}

/// The call for a message, its lists whole unless they are long.
fn said(call: Call, given: &Given) -> String {
    let shown = |list: &Vec<u8>| {
        let numbers = numbers(list);
        match numbers.len() {
            0..=40 => format!("{numbers:?}"),
            count => format!("{:?} .. of {count}", &numbers[..20]),
        }
    };
    let [words, whites, penalty_widths, line_widths] = [0, 1, 2, 3].map(|list: usize| shown(&given.lists[list]));
    format!(
        "{call:?} of words {words}, whites {whites}, penalty widths {penalty_widths} at {line_widths}, {:?}, lists of {:?} bytes",
        given.penalties,
        given.all_lens()
    )
}

/// A layout within all bounds, by the plain reading.
fn plainly(call: Call, layout: &Layout) -> Least {
    match call {
        Call::FirstFit => Least { ends: plain::first_fit(layout), costs: vec![], starts: vec![] },
        Call::LeastCost => plain::least_cost(layout),
    }
}

/// A layout within all bounds must be the plain reading's, in lists that are exactly full, or with bytes left
/// over and sometimes places to spare. Answers it.
pub fn agrees(call: Call, layout: &Layout) -> Result<Least, String> {
    let given = Given::new(layout);
    let given = match layout.fragments.len() % 3 {
        0 => given.with_left_over(1),
        1 => given.with_left_over(0),
        _ => given,
    };
    let least = Ok(plainly(call, layout));
    agrees_with(&least, call, &given)?;
    least.map_err(|refusal| format!("{refusal:?}"))
}

/// [`agrees_on`] lists of so many bytes.
pub fn agrees_on_lens(call: Call, layout: &Layout, lens: [usize; 7]) -> Result<(), String> {
    agrees_on(call, &Given::of_lens(layout, lens)).map(|_| ())
}

/// The form as in `textwrap` must give these ends.
pub fn agrees_as_lines(call: Call, layout: &Layout, ends: &[usize]) -> Result<(), String> {
    let of = |[word, white, penalty]: &Fragment| kenupatun::Fragment { word: *word, white: *white, penalty: *penalty };
    let fragments: Vec<kenupatun::Fragment> = layout.fragments.iter().map(of).collect();
    let lines = lines(call, &fragments, layout).map_err(|refusal| refusal.to_string())?;
    let starts = [0].into_iter().chain(ends.iter().copied());
    let wanted: Vec<&[kenupatun::Fragment]> = starts.zip(ends).map(|(start, end)| &fragments[start..*end]).collect();
    if lines == wanted {
        return Ok(());
    }
    Err(format!("{layout:?}: lines {lines:?}, expected {wanted:?}"))
}

fn lines<'a>(
    call: Call,
    fragments: &'a [kenupatun::Fragment],
    layout: &Layout,
) -> Result<Vec<&'a [kenupatun::Fragment]>, Refusal> {
    match call {
        Call::FirstFit => kenupatun::wrap_first_fit(fragments, &layout.line_widths),
        Call::LeastCost => kenupatun::wrap_optimal_fit(fragments, &layout.line_widths, &penalties_of(layout.penalties)),
    }
}

/// A layout that may break any bound, and the lengths of all lists, most of them about right.
pub fn any_faulty(rng: &mut Rng, mut layout: Layout) -> (Layout, [u32; 7]) {
    for _ in 0..rng.below(3) {
        let width = rng.pick(&[255, 256, 257, 65_535]);
        let at = rng.between(0, layout.line_widths.len());
        layout.line_widths.insert(at, width);
    }
    if rng.one_in(3) {
        let at = rng.below(5);
        layout.penalties[at] = rng.pick(&[PENALTY_MOST, PENALTY_MOST + 1, 1 << 20, u32::MAX]);
    }
    let mut lens = Given::new(&layout).all_lens();
    let (off, spread) = (rng.between(1, 8), rng.pick(&[1, 3, 20]));
    for len in &mut lens {
        if rng.one_in(off) {
            *len = (*len + rng.between(0, 2 * spread)).saturating_sub(spread);
        }
    }
    (layout, lens.map(|len| len as u32))
}

/// Lists of every length near what three fragments, one or none need, those that are read and those that
/// are written.
pub fn hold_on_lists_of_all_lengths(call: Call) {
    for count in [0, 1, 3] {
        let fragments = [[3, 1, 0], [2, 0, 1], [4, 1, 0]][..count].to_vec();
        let layout = Layout { fragments, line_widths: vec![6, 5], penalties: [1_000, 2_500, 4, 25, 25] };
        let full = Given::new(&layout).all_lens();
        let near = |list: usize| full[list].saturating_sub(3)..=full[list] + 3;
        let with = |changes: [(usize, usize); 3]| {
            let mut lens = full;
            for (list, len) in changes {
                lens[list] = len;
            }
            agrees_on_lens(call, &layout, lens).unwrap_or_else(|wrong| panic!("{wrong}"));
        };
        for [a, b, c] in [[0, 1, 2], [0, 2, 3], [3, 4, 5], [4, 5, 6]] {
            for a_len in near(a) {
                for b_len in near(b) {
                    near(c).for_each(|c_len| with([(a, a_len), (b, b_len), (c, c_len)]));
                }
            }
        }
        (0..=full[5] + 17).for_each(|len| with([(5, len), (5, len), (5, len)]));
        (0..=full[6] + 9).for_each(|len| with([(6, len), (6, len), (6, len)]));
    }
}

/// Every set of reasons to refuse, or none: 5 goes before 4, then 3, 6, 7 for the ends, 7 for the scratch.
pub fn hold_in_the_order_of_refusals(call: Call) {
    for reasons in 0..64 {
        let [differ, many, wide, large, ends, scratch] = [1, 2, 4, 8, 16, 32].map(|reason| reasons & reason != 0);
        let count = if many { FRAGMENTS_MOST + 1 } else { FRAGMENTS_MOST };
        let mut layout =
            Layout { fragments: vec![[255, 1, 0]; count], line_widths: vec![255; 5], penalties: [PENALTY_MOST; 5] };
        if wide {
            layout.line_widths[3] = 256;
        }
        if large {
            layout.penalties[2] = PENALTY_MOST + 1;
        }
        let mut given = Given::new(&layout);
        if differ {
            given.lists[1].truncate(2 * count - 1);
        }
        if ends {
            given.lens[0] -= 1;
        }
        if scratch {
            given.lens[1 + reasons as usize % 2] -= 1;
        }
        let least = call == Call::LeastCost;
        let (number, place) = match (differ, many, wide, large, ends, scratch) {
            (true, ..) => (5, 0),
            (_, true, ..) => (4, 0),
            (_, _, true, ..) => (3, 3),
            (_, _, _, true, ..) if least => (6, 2),
            (.., true, _) => (7, FRAGMENTS_MOST),
            (.., true) if least => (7, FRAGMENTS_MOST + 1),
            _ => (0, 0),
        };
        let answer = Lent::new(&given).call(call, given.penalties);
        assert_eq!((answer.number, answer.place), (number, place as u64), "{call:?}, reasons {reasons:06b}");
        if reasons > 0 {
            assert_eq!(expected(call, &given).err(), Some(answer).filter(|answer| answer.number > 0));
            agrees_on(call, &given).map(|_| ()).unwrap_or_else(|wrong| panic!("{wrong}"));
        }
    }
}
