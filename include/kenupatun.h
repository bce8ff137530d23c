/*
 * kenupatun.h: Kenupatun for C and C++.
 *
 * The functions stand in the archive libkenupatun.a, which
 * `tools/make archive` writes. They keep no memory between calls, allocate
 * nothing and may be called from several threads at once.
 *
 * A text is a pointer, which is never NULL, and a number of bytes. No final 0 is
 * needed, and a 0 inside is a character like any other. The bytes must not change
 * during the call.
 *
 * A list of numbers is a pointer, which is never NULL, and a length in bytes. A number
 * of 16, 32 or 64 bits takes two, four or eight bytes, the high one first, and these are
 * a place of the list. Bytes left over at the end, which make no place, are never
 * touched. Lists that are written must not overlap each other, the text, or a list that
 * is read.
 */
#ifndef KENUPATUN_H
#define KENUPATUN_H

#include <stddef.h>
#include <stdint.h>

#ifdef __cplusplus
extern "C" {
#endif

/* A text has at most this many bytes. */
#define KENUPATUN_TEXT_MOST 60000

/* A line width is at most this. */
#define KENUPATUN_WIDTH_MOST 255

/* A layout has at most this many fragments. */
#define KENUPATUN_FRAGMENTS_MOST 4096

/* A penalty is at most this. */
#define KENUPATUN_PENALTY_MOST 1000000

/*
 * What every function answers, kenupatun_word_from with a word besides.
 *
 *   number  0: done. Any other: refused, and the number says why.
 *   place   0 when done. When refused, where the fault is (see the numbers below).
 *   count   what was asked for, such as the columns of a text. 0 when refused.
 *
 * A refusal changes nothing that the function was lent, but for 8, which sets scratch to
 * zero. Where several hold, the one named first with the function is given.
 */
typedef struct {
    uint32_t number;
    uint64_t place;
    uint64_t count;
} kenupatun_answer;

/* The text has more than 60,000 bytes; the place is its length. */
#define KENUPATUN_TEXT_TOO_LONG 1

/*
 * The text is not UTF-8 (RFC 3629); the place is the first byte at which no
 * well-formed character starts, all before it being whole characters.
 */
#define KENUPATUN_NOT_UTF8 2

/* A line width exceeds 255; the place is its index, 0 where there is but one. */
#define KENUPATUN_WIDTH_TOO_LARGE 3

/* There are more than 4,096 fragments; the place is 0. */
#define KENUPATUN_TOO_MANY_FRAGMENTS 4

/* The three lists of fragments differ in length, counted in places; the place is 0. */
#define KENUPATUN_LISTS_DIFFER 5

/* A penalty exceeds 1,000,000; the place is its index, the first penalty having 0. */
#define KENUPATUN_PENALTY_TOO_LARGE 6

/* A list is too short; the place is the places that it needs. */
#define KENUPATUN_LIST_TOO_SHORT 7

/* The least cost exceeds 2^53; the place is 0. */
#define KENUPATUN_COST_TOO_LARGE 8

/* The two texts of a check differ in length; the place is 0. */
#define KENUPATUN_LENGTHS_DIFFER 9

/* A change is not an allowed break; the place is the first such byte. */
#define KENUPATUN_BAD_CHANGE 10

/* A line of two or more words is too wide; the place is the first byte of the first such line. */
#define KENUPATUN_LINE_TOO_WIDE 11

/* An input line has more lines than needed; the place is the first byte of the first such one. */
#define KENUPATUN_TOO_MANY_LINES 12

/*
 * The columns that a text takes on a terminal: 1 for a character below U+1100,
 * 2 for any other, 0 for an escape (from ESC to its end). The count is the columns.
 *
 * Refusals: 1, then 2. An empty text has 0 columns.
 */
kenupatun_answer kenupatun_measure(const uint8_t *text, size_t text_len);

/*
 * The words of a text. A word is its content and the spaces after it: it ends where a
 * space is followed by a character that is none. Only 20 is a space, and it is one also
 * inside an escape; a newline is a character like any other. Spaces at the start of the
 * text are a word with empty content.
 *
 * The count is the words. The i-th word has the i-th place of each of four lists:
 *
 *   starts  the offset of its first byte, 0 being the text's first
 *   ends    the offset after the last byte of its content, where its spaces start
 *   whites  how many spaces follow its content
 *   widths  the columns of its content, measured by itself
 *
 * So the words, one after the other, are the text. The places past the last word keep
 * what they held.
 *
 * Refusals: 1, then 2, then 7 where the shortest of the four lists has fewer places than
 * there are words. A text of n bytes has at most n / 2 + 1 words.
 */
kenupatun_answer kenupatun_words(const uint8_t *text, size_t text_len,
                                 uint8_t *starts, size_t starts_len, uint8_t *ends, size_t ends_len,
                                 uint8_t *whites, size_t whites_len, uint8_t *widths, size_t widths_len);

/*
 * An answer and a word: `number`, `place` and `count` as in kenupatun_answer, then the
 * numbers that kenupatun_words lists for a word. They are all 0 when refused.
 */
typedef struct {
    uint32_t number;
    uint64_t place;
    uint64_t count;
    uint64_t start;
    uint64_t end;
    uint64_t white;
    uint64_t width;
} kenupatun_word;

/*
 * A whole text as one word: the spaces at its end are its whitespace, all before them,
 * also other spaces, its content. So the start is 0, and the content may be empty.
 *
 * The count is 1. Refusals: 1, then 2.
 */
kenupatun_word kenupatun_word_from(const uint8_t *text, size_t text_len);

/*
 * One word, broken into pieces of at most `width` columns. The whole text is the word,
 * as kenupatun_word_from takes it.
 *
 * A character that would make the current piece wider than `width` starts a new piece,
 * unless the current one has no columns yet: a piece may hold one character that is too
 * wide by itself. An escape stays whole, with the piece in which it was met. The pieces,
 * one after the other, are the content. The last one has the whitespace.
 *
 * The count is the pieces. The lists are those of kenupatun_words, a place a piece.
 * A word with empty content has no pieces, and so its whitespace is in none.
 *
 * Refusals: 1, 2, 3, then 7 where the shortest of the four lists has fewer places than
 * there are pieces. A text of n bytes has at most n pieces.
 */
kenupatun_answer kenupatun_break_word(const uint8_t *text, size_t text_len, uint32_t width,
                                      uint8_t *starts, size_t starts_len, uint8_t *ends, size_t ends_len,
                                      uint8_t *whites, size_t whites_len, uint8_t *widths, size_t widths_len);

/*
 * The words of a text as kenupatun_words finds them, those wider than `width` broken
 * into pieces as kenupatun_break_word does it, all others as they are, also a word with
 * empty content. So nothing is lost: words and pieces, one after the other, are the text.
 *
 * The count is the words and pieces. The lists are those of kenupatun_words, a place for
 * each of them.
 *
 * Refusals: 1, 2, 3, then 7 where the shortest of the four lists has fewer places than
 * there are words and pieces. A text of n bytes has at most n of them.
 */
kenupatun_answer kenupatun_break_words(const uint8_t *text, size_t text_len, uint32_t width,
                                       uint8_t *starts, size_t starts_len, uint8_t *ends, size_t ends_len,
                                       uint8_t *whites, size_t whites_len, uint8_t *widths, size_t widths_len);

/*
 * Fragments laid out in lines by first fit: a new line starts before a fragment if the
 * current line has one and the fragments in it, each with its whitespace, and the next
 * one's word and penalty width are together wider than the line.
 *
 * All lists are of 16-bit numbers. The i-th fragment has the i-th place of three of them:
 *
 *   words           the width of its word
 *   whites          the width of the whitespace after it
 *   penalty_widths  the width of what is added where a line ends with it, as a hyphen
 *
 * The k-th line, counted from 0, has the k-th of line_widths, lines beyond that list its
 * last; an empty list counts as a single 0.
 *
 * The count is the lines. The k-th place of ends is the index after the last fragment of
 * the k-th line; places past the last line keep what they held. No fragments make one
 * line, with end 0.
 *
 * Refusals: 5, 4, 3, then 7 where ends has fewer places than there are fragments, or none.
 */
kenupatun_answer kenupatun_first_fit(const uint8_t *words, size_t words_len, const uint8_t *whites, size_t whites_len,
                                     const uint8_t *penalty_widths, size_t penalty_widths_len,
                                     const uint8_t *line_widths, size_t line_widths_len,
                                     uint8_t *ends, size_t ends_len);

/*
 * Fragments laid out in lines at the least cost. Lists and ends are as for
 * kenupatun_first_fit, and so is the count.
 *
 * A line costs per_line, and one of these: overflow for each column by which it is wider
 * than its width (at least 1); else, if it is not the last, its free columns squared;
 * else short_last, if it has one fragment and is narrower than its width divided by
 * short_fraction; and hyphen besides, if its last fragment has a penalty width.
 *
 * With one line width no layout costs less; with several that is not promised. costs
 * (64-bit numbers) and starts (16-bit numbers) are scratch. On success place j of them
 * has the cost of the first j fragments and the start of the last line of these, for each
 * j from 0 through the number of fragments; place 0 has 0 in both.
 *
 * Refusals: 5, 4, 3, 6, then 7 where ends has too few places, as for kenupatun_first_fit,
 * then 7 where costs or starts has fewer than one more than there are fragments, then 8,
 * which sets those places of costs and starts to 0.
 */
kenupatun_answer kenupatun_least_cost(const uint8_t *words, size_t words_len, const uint8_t *whites, size_t whites_len,
                                      const uint8_t *penalty_widths, size_t penalty_widths_len,
                                      const uint8_t *line_widths, size_t line_widths_len,
                                      uint32_t per_line, uint32_t overflow, uint32_t short_fraction,
                                      uint32_t short_last, uint32_t hyphen, uint8_t *ends, size_t ends_len,
                                      uint8_t *costs, size_t costs_len, uint8_t *starts, size_t starts_len);

/*
 * Fills a text where it stands. The parts between newlines are laid out each by itself, by
 * first fit: a word, as kenupatun_words finds it in its part, starts a new line if the words
 * of the line before it, each with its spaces, and the word itself are together wider than
 * `width`. There the last space before the word becomes a newline. No other byte changes, so
 * a word that is wider than `width` stays whole, on a line of its own.
 *
 * The count is the bytes changed. Refusals: 1, 2, then 3.
 */
kenupatun_answer kenupatun_fill(uint8_t *text, size_t text_len, uint32_t width);

/*
 * Whether `after` is `before` with its lines broken as they may be. The parts of `before`
 * between newlines are its input lines, and their words are those of kenupatun_words.
 * Accepted is what has the same length, what differs only where the last space before a
 * further word of an input line is a newline now, in which each line so formed holds one
 * word or has, by the widths of its words and the spaces between them, at most `width`
 * columns, and of which no input line could have fewer lines. What kenupatun_fill writes at
 * that width is accepted; so is any other layout with as few lines.
 *
 * The count is 0. Refusals: 1 for `before`, then for `after`, 2 for `before`, 3, 9, then
 * 10, 11 and 12, each of the whole text before the next.
 */
kenupatun_answer kenupatun_check(const uint8_t *before, size_t before_len, const uint8_t *after, size_t after_len,
                                 uint32_t width);

#ifdef __cplusplus
}
#endif

#endif
