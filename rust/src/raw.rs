//! The functions as C sees them, in the order of `include/kenupatun.h`.
//!
//! Each pointer and the length after it are those of one slice. None of them keeps a pointer.

use crate::words::WordAnswer;
use crate::Answer;

extern "C" {
    pub fn kenupatun_measure(text: *const u8, text_len: usize) -> Answer;

    pub fn kenupatun_words(
        text: *const u8,
        text_len: usize,
        starts: *mut u8,
        starts_len: usize,
        ends: *mut u8,
        ends_len: usize,
        whites: *mut u8,
        whites_len: usize,
        widths: *mut u8,
        widths_len: usize,
    ) -> Answer;

    pub fn kenupatun_word_from(text: *const u8, text_len: usize) -> WordAnswer;

    pub fn kenupatun_break_word(
        text: *const u8,
        text_len: usize,
        width: u32,
        starts: *mut u8,
        starts_len: usize,
        ends: *mut u8,
        ends_len: usize,
        whites: *mut u8,
        whites_len: usize,
        widths: *mut u8,
        widths_len: usize,
    ) -> Answer;

    pub fn kenupatun_break_words(
        text: *const u8,
        text_len: usize,
        width: u32,
        starts: *mut u8,
        starts_len: usize,
        ends: *mut u8,
        ends_len: usize,
        whites: *mut u8,
        whites_len: usize,
        widths: *mut u8,
        widths_len: usize,
    ) -> Answer;

    pub fn kenupatun_first_fit(
        words: *const u8,
        words_len: usize,
        whites: *const u8,
        whites_len: usize,
        penalty_widths: *const u8,
        penalty_widths_len: usize,
        line_widths: *const u8,
        line_widths_len: usize,
        ends: *mut u8,
        ends_len: usize,
    ) -> Answer;

    pub fn kenupatun_least_cost(
        words: *const u8,
        words_len: usize,
        whites: *const u8,
        whites_len: usize,
        penalty_widths: *const u8,
        penalty_widths_len: usize,
        line_widths: *const u8,
        line_widths_len: usize,
        per_line: u32,
        overflow: u32,
        short_fraction: u32,
        short_last: u32,
        hyphen: u32,
        ends: *mut u8,
        ends_len: usize,
        costs: *mut u8,
        costs_len: usize,
        starts: *mut u8,
        starts_len: usize,
    ) -> Answer;

    pub fn kenupatun_fill(text: *mut u8, text_len: usize, width: u32) -> Answer;

    pub fn kenupatun_check(
        before: *const u8,
        before_len: usize,
        after: *const u8,
        after_len: usize,
        width: u32,
    ) -> Answer;
}
