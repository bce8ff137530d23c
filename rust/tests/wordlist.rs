//! The program `wordlist`, held against the crate `textwrap` and Rust's own test of UTF-8: the reader, and
//! the forms on lists of 32-bit numbers, which C does not get.
//!
//! `tools/make wordlist` makes the program (`target/bin/wordlist` at the root of the repository). It is
//! given many texts at once, and all that it writes is compared. `KENUPATUN_SEED` and `KENUPATUN_CASES`
//! set the random cases (see `generate`); `KENUPATUN_RUN` names an emulator, where one is needed.

mod program;

use std::fmt::Write as _;
use std::str::from_utf8;

use generate::{cases, damage, every_string, say_cases, seed, text, words, Rng};
use program::{root, written_on};
use textwrap::core::Word;
use textwrap::WordSeparator::AsciiSpace;

/// Between two texts of the input: a byte that no text here has.
const BETWEEN: u8 = 0xFF;

/// What the program reads at most.
const INPUT_MOST: usize = 65_536;

// ---- the program

/// What the program writes.
fn written(input: &[u8], words: &[String]) -> String {
    String::from_utf8(written_on("wordlist", words, vec![input.to_vec()])).unwrap()
}

// ---- what it must write, said by others

/// The refusal of a text, or the text.
fn read(text: &[u8]) -> Result<&str, (u32, usize)> {
    if text.len() > 60_000 {
        return Err((1, text.len()));
    }
    from_utf8(text).map_err(|fault| (2, fault.valid_up_to()))
}

/// Words of the crate on lines, by their places in a text.
fn lines<'a>(found: impl IntoIterator<Item = Word<'a>>, text: &str) -> Vec<String> {
    let place = |word: Word| {
        let start = word.word.as_ptr() as usize - text.as_ptr() as usize;
        let end = start + word.word.len();
        assert_eq!(&text[start..end], word.word);
        format!("{start} {end} {} {}\n", word.whitespace.len(), word.width)
    };
    found.into_iter().map(place).collect()
}

/// The lines for one entry that fills lists.
fn listed(name: &str, found: Result<Vec<String>, (u32, usize)>, places: usize) -> String {
    match found {
        Err((number, place)) => format!("{name} {number} {place} 0\n"),
        Ok(lines) if lines.len() > places => format!("{name} 7 {} 0\n", lines.len()),
        Ok(lines) => format!("{name} 0 0 {}\n{}", lines.len(), lines.concat()),
    }
}

/// All lines for one text.
fn expected(text: &[u8], width: usize, places: usize) -> String {
    let line = read(text);
    let wide = |text| if width > 255 { Err((3, 0)) } else { Ok(text) };
    let found = line.map(|text| lines(AsciiSpace.find_words(text), text));
    let apart = line.and_then(wide).map(|text| lines(Word::from(text).break_apart(width), text));
    let broken = line.and_then(wide).map(|text| {
        let words = AsciiSpace.find_words(text);
        lines(textwrap::core::break_words(words, width), text)
    });
    let mut out = String::new();
    match &found {
        Ok(lines) => write!(out, "reader 0 0 0\n{}", lines.concat()).unwrap(),
        Err((number, place)) => writeln!(out, "reader {number} {place} 0").unwrap(),
    }
    // the reader stands at the end, after the last word and if it is refused
    writeln!(out, "no more {}", text.len()).unwrap();
    out += &listed("find_words", found, places);
    out += &listed("break_apart", apart, places);
    out += &listed("break_words", broken, places);
    out
}

// ---- holding the two against each other

/// Texts that go to the program together.
struct Batch {
    width: usize,
    places: usize,
    texts: Vec<Vec<u8>>,
    size: usize,
}

impl Batch {
    fn new(width: usize, places: usize) -> Batch {
        Batch { width, places, texts: Vec::new(), size: 0 }
    }

    /// Adds a text; those before it are held first, where it does not go with them.
    fn add(&mut self, text: &[u8]) {
        assert!(!text.contains(&BETWEEN) && text.len() <= INPUT_MOST);
        if self.size + text.len() + 1 > INPUT_MOST {
            self.hold();
        }
        self.size += text.len() + 1;
        self.texts.push(text.to_vec());
    }

    /// Runs the program on the texts and compares.
    fn hold(&mut self) {
        let words = [self.width.to_string(), self.places.to_string()];
        let output = written(&self.texts.join(&BETWEEN), &words);
        let mut rest = &output[..];
        for text in &self.texts {
            let wanted = expected(text, self.width, self.places);
            let Some(after) = rest.strip_prefix(&wanted[..]) else {
                let shown = text[..text.len().min(300)].escape_ascii();
                let got: String = rest.chars().take(wanted.len() + 200).take(2_000).collect();
                let wanted: String = wanted.chars().take(2_000).collect();
                panic!("wordlist {words:?} on \"{shown}\"\n-- got\n{got}\n-- expected\n{wanted}");
            };
            rest = after;
        }
        assert_eq!(rest, "", "wordlist {words:?} wrote more than was asked");
        self.texts.clear();
        self.size = 0;
    }
}

/// Holds a few texts at one width.
fn hold(texts: &[&[u8]], width: usize, places: usize) {
    let mut batch = Batch::new(width, places);
    texts.iter().for_each(|text| batch.add(text));
    batch.hold();
}

/// Holds random texts, as many as are asked for, each batch at a width and with lists of its own.
fn hold_random(cases: u64, make: impl Fn(&mut Rng) -> Vec<u8>) {
    let mut rng = Rng::of_case(seed(), 0);
    let mut batch = Batch::new(0, 0);
    say_cases(cases);
    for case in 0..cases {
        if case % 100 == 0 {
            if !batch.texts.is_empty() {
                batch.hold();
            }
            batch.width = if rng.one_in(20) { 256 } else { words::width(&mut rng) as usize };
            batch.places = rng.pick(&[0, 1, 2, 3, 5, 8, 20, 100, 1_000]);
        }
        let mut text = make(&mut Rng::of_case(seed(), case));
        // no text has the byte that goes between them: FE is no UTF-8 either
        text.iter_mut().filter(|byte| **byte == BETWEEN).for_each(|byte| *byte = 0xFE);
        batch.add(&text);
    }
    batch.hold();
}

// ---- the texts

/// The run that `rt ci` makes of the program: what it must write is what the crate says.
#[test]
fn the_stored_run() {
    let stored = |name: &str| std::fs::read(root().join("crates/wordlist").join(name)).unwrap();
    let arguments: Vec<usize> =
        String::from_utf8(stored("args")).unwrap().lines().map(|word| word.parse().unwrap()).collect();
    let input = stored("stdin");
    let wanted: String =
        input.split(|byte| *byte == BETWEEN).map(|text| expected(text, arguments[0], arguments[1])).collect();
    assert_eq!(String::from_utf8(stored("stdout")).unwrap(), wanted);
}

/// With no arguments pieces have 42 columns and lists 60,000 places.
#[test]
fn no_arguments() {
    let text = "a".repeat(100) + "  b";
    assert_eq!(written(text.as_bytes(), &[]), expected(text.as_bytes(), 42, 60_000));
    assert_eq!(written(b"", &[]), expected(b"", 42, 60_000));
    assert_eq!(written(b"ab", &["1".into()]), expected(b"ab", 1, 60_000));
    assert_eq!(written(b"ab", &["99999999".into(), "99999999".into()]), expected(b"ab", 99_999, 60_000));
}

#[test]
fn random_texts() {
    hold_random(cases() / 60, |rng| words::any(rng).into_bytes());
    hold_random(cases() / 60, |rng| words::one(rng).into_bytes());
    hold_random(cases() / 60, |rng| text::any(rng).into_bytes());
}

#[test]
fn damaged_texts() {
    hold_random(cases() / 60, |rng| {
        let good = words::any(rng);
        damage::damaged(rng, good.as_bytes())
    });
}

#[test]
fn every_string_of_four_items() {
    let items = [" ", "\u{1B}", "[", "]", "m", "\u{7}", "é", "\u{4F60}"];
    for (width, places) in [(0, 3), (1, 8), (2, 2), (3, 4)] {
        let mut batch = Batch::new(width, places);
        assert_eq!(every_string(&items, 4, |text| batch.add(text)), 4_681);
        batch.hold();
    }
}

#[test]
fn widths_in_and_out_of_bounds() {
    let texts = ["a".repeat(300), "\u{4F60}".repeat(150) + "  ", "ab \u{1B}]cd ef ".repeat(3), " ".into(), "".into()];
    let texts: Vec<&[u8]> = texts.iter().map(|text| text.as_bytes()).collect();
    for width in (0..=12).chain([42, 127, 128, 254, 255, 256, 257, 511, 512, 65_535, 65_536, 99_999]) {
        hold(&texts, width, 310);
    }
}

/// Lists exactly full, one place short, and with one to spare.
#[test]
fn places() {
    for places in 0..=9 {
        let texts: [&[u8]; 5] = [b"", b"  ", b"a b c d", b"Hello!  ", b"  ab \x1B]cd  ef "];
        hold(&texts, 2, places);
    }
    let texts: [&[u8]; 1] = [&[b'a'; 60_000]];
    for places in [59_999, 60_000] {
        hold(&texts, 1, places);
    }
}

#[test]
fn sixty_thousand_bytes_pass_and_one_more_is_refused() {
    for part in ["a", " ", "ab  c ", "\u{4F60} ", "\u{1B}[m"] {
        let mut text = part.repeat(60_000 / part.len()).into_bytes();
        hold(&[&text], 255, 60_000);
        text.push(b' ');
        hold(&[&text], 255, 60_000);
        // 1 goes before 2
        text[30_000] = 0xFE;
        hold(&[&text], 256, 0);
    }
    hold(&[&[b'a'; INPUT_MOST - 1]], 80, 10);
    // the order of refusals: 2, 3, 7
    hold(&[b"a b\xFE", b"a b"], 256, 0);
    hold(&[b"a b\xFE", b"a b"], 255, 0);
}
