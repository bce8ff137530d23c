//! The job program, held against a plain reading of document 01's section "Job program", in which the
//! crate `textwrap` fills and Rust says what is UTF-8.
//!
//! `tools/make job` makes the program (`target/bin/job` at the root of the repository). Every byte that it
//! writes is compared. `KENUPATUN_SEED` and `KENUPATUN_CASES` set the random cases (see `generate`).

mod program;

use std::str::from_utf8;

use generate::{cases, damage, say_cases, seed, text, words, Rng};
use program::{root, written_on};

// ---- what it must write, said by others

/// A job's record.
fn job(width: u8, text: &[u8]) -> Vec<u8> {
    let length = u16::try_from(text.len()).unwrap();
    [b"WJ", &[width][..], &length.to_be_bytes(), text].concat()
}

/// A reply's record: number, count or place, and the text.
fn reply(number: u8, value: usize, text: &[u8]) -> Vec<u8> {
    let value = u16::try_from(value).unwrap();
    let length = u16::try_from(text.len()).unwrap();
    [b"WR", &[number][..], &value.to_be_bytes(), &length.to_be_bytes(), text].concat()
}

/// The reply to a job of which all bytes came.
fn answer(width: u8, text: &[u8]) -> Vec<u8> {
    if text.len() > 60_000 {
        return reply(1, text.len(), b"");
    }
    match from_utf8(text) {
        Err(fault) => reply(2, fault.valid_up_to(), b""),
        Ok(whole) => {
            let mut filled = whole.to_string();
            textwrap::fill_inplace(&mut filled, width.into());
            let changed = text.iter().zip(filled.as_bytes()).filter(|(before, after)| before != after).count();
            reply(0, changed, filled.as_bytes())
        }
    }
}

/// The replies to a whole input.
fn expected(mut input: &[u8]) -> Vec<u8> {
    let mut replies = Vec::new();
    loop {
        match input {
            [] => return replies,
            [b'W', b'J', width, high, low, rest @ ..] if rest.len() >= u16::from_be_bytes([*high, *low]).into() => {
                let (text, after) = rest.split_at(u16::from_be_bytes([*high, *low]).into());
                replies.extend(answer(*width, text));
                input = after;
            }
            [_] | [b'W', b'J', ..] => return [replies, reply(14, 0, b"")].concat(),
            _ => return [replies, reply(13, 0, b"")].concat(),
        }
    }
}

/// Runs the program on an input that comes in parts, and compares.
#[track_caller]
fn hold_parts(parts: Vec<Vec<u8>>) {
    let input = parts.concat();
    let got = written_on("job", &[], parts);
    let wanted = expected(&input);
    if got != wanted {
        let at = got.iter().zip(&wanted).take_while(|(a, b)| a == b).count();
        let shown = |bytes: &[u8]| bytes[..bytes.len().min(200)].escape_ascii().to_string();
        let (input, size) = (shown(&input), input.len());
        let (got, wanted) = (shown(&got[at..]), shown(&wanted[at..]));
        panic!("job on {size} bytes, \"{input}\": from byte {at} on \"{got}\", expected \"{wanted}\"");
    }
}

#[track_caller]
fn hold(input: &[u8]) {
    hold_parts(vec![input.to_vec()]);
}

// ---- the inputs

const EXAMPLE: &[u8] = b"WJ\x03\x00\x05a b c";

/// Document 01's example, byte for byte.
#[test]
fn the_whole_example() {
    assert_eq!(expected(EXAMPLE), b"WR\x00\x00\x01\x00\x05a b\nc");
    hold(EXAMPLE);
}

/// The runs that `rt ci` makes: what the programs must write there is what this reading says.
#[test]
fn the_stored_runs() {
    let stored = |name: &str| std::fs::read(root().join("crates").join(name)).unwrap();
    assert!(stored("job/stdout") == expected(&stored("job/stdin")));
    let names = String::from_utf8(stored("job_cases/args")).unwrap();
    let case =
        |name: &str| [name.as_bytes(), b"\n", &expected(&stored(&format!("job_cases/data/{name}"))), b"\n"].concat();
    assert!(stored("job_cases/stdout") == names.lines().flat_map(case).collect::<Vec<u8>>());
}

/// A short input of several jobs, one of them refused, cut at every byte.
#[test]
fn cut_at_every_byte() {
    let input = [EXAMPLE, &job(0, b""), &job(3, b"a\xC3("), &job(7, "foo bar caf\u{E9}".as_bytes())].concat();
    for end in 0..=input.len() {
        hold(&input[..end]);
    }
}

/// The bytes of an input come one by one, so that reads are short in every place.
#[test]
fn short_reads() {
    let input = [EXAMPLE, &job(2, b"a b c d"), &job(3, b"\xFF"), EXAMPLE, b"WR"].concat();
    hold_parts(input.iter().map(|byte| vec![*byte]).collect());
    let long = [job(5, &b"ab ".repeat(20_000)), job(5, &b"ab ".repeat(20_001)), EXAMPLE.to_vec()].concat();
    hold_parts(long.chunks(7_001).map(<[u8]>::to_vec).collect());
}

/// Every mark but one is wrong, and nothing after it is answered.
#[test]
fn marks() {
    for mark in [b"WR", b"WK", b"wj", b"JW", b"WW", b"\0\0", b"VJ", b"WI"] {
        hold(&[EXAMPLE, mark].concat());
        hold(&[EXAMPLE, mark, &EXAMPLE[2..], EXAMPLE].concat());
    }
}

/// Texts at, below and above 60,000 bytes, whole and cut: 14 goes before 1.
#[test]
fn long_texts() {
    for length in [59_999, 60_000, 60_001, 65_535] {
        let text: Vec<u8> = b"ab  c ".iter().copied().cycle().take(length).collect();
        let whole = [&job(11, &text), EXAMPLE].concat();
        hold(&whole);
        for cut in [5, 6, 60_003, 60_004, 60_005, 60_006, length + 3, length + 4] {
            hold(&whole[..cut.min(length + 5)]);
        }
    }
}

/// Random jobs, some refused, and then the end, a wrong mark or a cut.
#[test]
fn random_inputs() {
    let inputs = cases() / 2_000;
    say_cases(inputs);
    for case in 0..inputs {
        let mut rng = Rng::of_case(seed(), case);
        let mut input = Vec::new();
        for _ in 0..rng.pick(&[0, 1, 2, 10, 40]) {
            let good = if rng.one_in(2) { words::any(&mut rng) } else { text::any(&mut rng) }.into_bytes();
            let text = if rng.one_in(4) { damage::damaged(&mut rng, &good) } else { good };
            let width = if rng.one_in(2) { words::width(&mut rng) as u8 } else { rng.pick(&[0, 1, 42, 255]) };
            input.extend(job(width, &text[..text.len().min(65_535)]));
        }
        if rng.one_in(3) {
            input.extend(b"WL\x00\x00\x00WJ\x00\x00\x00");
        } else if rng.one_in(2) && !input.is_empty() {
            input.truncate(rng.below(input.len()));
        }
        hold(&input);
    }
}
