/*
 * Calls each function of kenupatun.h once or more, as a C program would, and holds
 * its answers to document 01's. What it tests is the header: that its declarations
 * fit the archive. What the functions compute is tested in ../tests.
 */
#include <stddef.h>
#include <stdint.h>
#include <stdio.h>
#include <string.h>

#include "kenupatun.h"

static int failures = 0;

/* Holds one answer to its three numbers. */
static void expect(const char *what, kenupatun_answer got, uint32_t number, uint64_t place, uint64_t count)
{
    if (got.number == number && got.place == place && got.count == count)
        return;
    failures++;
    fprintf(stderr, "%s: got %lu %llu %llu, expected %lu %llu %llu\n", what,
            (unsigned long)got.number, (unsigned long long)got.place, (unsigned long long)got.count,
            (unsigned long)number, (unsigned long long)place, (unsigned long long)count);
}

static kenupatun_answer measure(const char *text, size_t len)
{
    return kenupatun_measure((const uint8_t *)text, len);
}

static void measures(void)
{
    static char text[KENUPATUN_TEXT_MOST + 1];
    const char *red = "\x1b[31mCaf\xc3\xa9 Rouge\x1b[0m";

    expect("an empty text", measure("", 0), 0, 0, 0);
    expect("an escape and an accent", measure(red, strlen(red)), 0, 0, 10);
    expect("two wide characters", measure("\xe4\xbd\xa0\xe5\xa5\xbd", 6), 0, 0, 4);
    expect("a character cut short", measure("ab\xe4\xbd\xa0", 4), KENUPATUN_NOT_UTF8, 2, 0);

    memset(text, 'a', sizeof text);
    expect("60,000 bytes", measure(text, KENUPATUN_TEXT_MOST), 0, 0, 60000);
    expect("60,001 bytes", measure(text, KENUPATUN_TEXT_MOST + 1), KENUPATUN_TEXT_TOO_LONG, 60001, 0);
}

/* Four lists of three places, a byte left over in each. */
static uint8_t starts[13], ends[13], whites[13], widths[13];
#define LISTS starts, sizeof starts, ends, sizeof ends, whites, sizeof whites, widths, sizeof widths

/* Fills the lists with what no answer has. */
static void clear_lists(void)
{
    memset(starts, 0xee, sizeof starts);
    memset(ends, 0xee, sizeof ends);
    memset(whites, 0xee, sizeof whites);
    memset(widths, 0xee, sizeof widths);
}

/* The number in a place of a list. */
static uint32_t number_at(const uint8_t *list, size_t place)
{
    const uint8_t *b = list + 4 * place;
    return (uint32_t)b[0] << 24 | (uint32_t)b[1] << 16 | (uint32_t)b[2] << 8 | b[3];
}

/* Holds one place of the four lists to its numbers. */
static void expect_word(const char *what, size_t place, uint32_t start, uint32_t end, uint32_t white, uint32_t width)
{
    if (number_at(starts, place) == start && number_at(ends, place) == end && number_at(whites, place) == white &&
        number_at(widths, place) == width)
        return;
    failures++;
    fprintf(stderr, "%s: place %lu of the lists has %lu %lu %lu %lu\n", what, (unsigned long)place,
            (unsigned long)number_at(starts, place), (unsigned long)number_at(ends, place),
            (unsigned long)number_at(whites, place), (unsigned long)number_at(widths, place));
}

/* Holds what an answer leaves alone: the places from one on, and the byte left over. */
static void expect_rest(const char *what, size_t place)
{
    size_t at;

    for (at = 4 * place; at < sizeof starts; at++) {
        if (starts[at] == 0xee && ends[at] == 0xee && whites[at] == 0xee && widths[at] == 0xee)
            continue;
        failures++;
        fprintf(stderr, "%s: byte %lu of a list has changed\n", what, (unsigned long)at);
    }
}

static void words(void)
{
    const uint8_t *text = (const uint8_t *)"ab \x1b]cd ef";
    const char *what = "words around an escape";

    clear_lists();
    expect(what, kenupatun_words(text, 10, LISTS), 0, 0, 3);
    expect_word(what, 0, 0, 2, 1, 2);
    expect_word(what, 1, 3, 7, 1, 0);
    expect_word(what, 2, 8, 10, 0, 2);
    expect_rest(what, 3);

    clear_lists();
    what = "a list that is too short";
    expect(what, kenupatun_words(text, 10, starts, 13, ends, 13, whites, 11, widths, 13),
           KENUPATUN_LIST_TOO_SHORT, 3, 0);
    expect_rest(what, 0);
}

/* Holds a text as one word to its answer and its four numbers. */
static void expect_made(const char *what, const char *text, size_t len, uint32_t number, uint64_t place, uint64_t count,
                        uint64_t start, uint64_t end, uint64_t white, uint64_t width)
{
    kenupatun_word got = kenupatun_word_from((const uint8_t *)text, len);
    kenupatun_answer answer;

    answer.number = got.number;
    answer.place = got.place;
    answer.count = got.count;
    expect(what, answer, number, place, count);
    if (got.start == start && got.end == end && got.white == white && got.width == width)
        return;
    failures++;
    fprintf(stderr, "%s: the word is %llu %llu %llu %llu\n", what, (unsigned long long)got.start,
            (unsigned long long)got.end, (unsigned long long)got.white, (unsigned long long)got.width);
}

static void one_word(void)
{
    static char text[KENUPATUN_TEXT_MOST + 1];

    expect_made("a word of two", " foo bar  ", 10, 0, 0, 1, 0, 8, 2, 8);
    expect_made("a word of two wide characters", "\xe4\xbd\xa0\xe5\xa5\xbd ", 7, 0, 0, 1, 0, 6, 1, 4);
    expect_made("a word with empty content", "   ", 3, 0, 0, 1, 0, 0, 3, 0);
    expect_made("an empty text as a word", "", 0, 0, 0, 1, 0, 0, 0, 0);
    expect_made("a word cut short", "ab\xe4\xbd ", 5, KENUPATUN_NOT_UTF8, 2, 0, 0, 0, 0, 0);

    memset(text, 'a', sizeof text);
    expect_made("a word of 60,000 bytes", text, KENUPATUN_TEXT_MOST, 0, 0, 1, 0, 60000, 0, 60000);
    expect_made("a word of 60,001 bytes", text, sizeof text, KENUPATUN_TEXT_TOO_LONG, 60001, 0, 0, 0, 0, 0);
}

static void breaks(void)
{
    const uint8_t *hello = (const uint8_t *)"Hello!  ", *wide = (const uint8_t *)" \xe4\xbd\xa0\xe5\xa5\xbd";
    const char *what = "a word in two pieces";

    clear_lists();
    expect(what, kenupatun_break_word(hello, 8, 3, LISTS), 0, 0, 2);
    expect_word(what, 0, 0, 3, 0, 3);
    expect_word(what, 1, 3, 6, 2, 3);
    expect_rest(what, 2);

    clear_lists();
    what = "leading spaces, and a word in two pieces";
    expect(what, kenupatun_break_words(wide, 7, 1, LISTS), 0, 0, 3);
    expect_word(what, 0, 0, 0, 1, 0);
    expect_word(what, 1, 1, 4, 0, 2);
    expect_word(what, 2, 4, 7, 0, 2);
    expect_rest(what, 3);

    clear_lists();
    what = "a width that is too large";
    expect(what, kenupatun_break_word(hello, 8, KENUPATUN_WIDTH_MOST, LISTS), 0, 0, 1);
    clear_lists();
    expect(what, kenupatun_break_word(hello, 8, KENUPATUN_WIDTH_MOST + 1, LISTS), KENUPATUN_WIDTH_TOO_LARGE, 0, 0);
    expect(what, kenupatun_break_words(hello, 8, UINT32_MAX, LISTS), KENUPATUN_WIDTH_TOO_LARGE, 0, 0);
    expect_rest(what, 0);
}

/* Words 3 and 50 wide, one column of whitespace between them, no penalty widths, a byte left over. */
static const uint8_t word_widths[5] = {0, 3, 0, 50, 1}, white_widths[4] = {0, 1, 0, 0}, penalty_widths[4];
#define FRAGMENTS word_widths, sizeof word_widths, white_widths, sizeof white_widths, penalty_widths, sizeof penalty_widths

/* Holds a list of bytes to what it must have. */
static void expect_bytes(const char *what, const uint8_t *list, const char *bytes, size_t len)
{
    if (memcmp(list, bytes, len) == 0)
        return;
    failures++;
    fprintf(stderr, "%s: a list has other bytes than it must\n", what);
}

static void first_fits(void)
{
    uint8_t line_width[2] = {0, 53}, line_ends[5];
    const char *what = "two words that do not fit on a line";

    memset(line_ends, 0xee, sizeof line_ends);
    expect(what, kenupatun_first_fit(FRAGMENTS, line_width, 2, line_ends, sizeof line_ends), 0, 0, 2);
    expect_bytes(what, line_ends, "\0\1\0\2\xee", 5);

    what = "two words that fit on a line";
    line_width[1] = 54;
    memset(line_ends, 0xee, sizeof line_ends);
    expect(what, kenupatun_first_fit(FRAGMENTS, line_width, 2, line_ends, sizeof line_ends), 0, 0, 1);
    expect_bytes(what, line_ends, "\0\2\xee\xee\xee", 5);

    what = "an end too few";
    memset(line_ends, 0xee, sizeof line_ends);
    expect(what, kenupatun_first_fit(FRAGMENTS, line_width, 2, line_ends, 3), KENUPATUN_LIST_TOO_SHORT, 2, 0);
    what = "a line width that is too large";
    line_width[0] = 1;
    expect(what, kenupatun_first_fit(FRAGMENTS, line_width, 2, line_ends, 5), KENUPATUN_WIDTH_TOO_LARGE, 0, 0);
    what = "lists that differ in length";
    expect(what, kenupatun_first_fit(word_widths, 3, white_widths, 4, penalty_widths, 4, line_width, 2, line_ends, 5),
           KENUPATUN_LISTS_DIFFER, 0, 0);
    expect_bytes(what, line_ends, "\xee\xee\xee\xee\xee", 5);
}

static void least_costs(void)
{
    const uint8_t line_width[2] = {0, 52};
    uint8_t line_ends[4], costs[25], line_starts[7];
    const char *what = "two words at a cost";

    memset(costs, 0xee, sizeof costs);
    memset(line_starts, 0xee, sizeof line_starts);
    expect(what, kenupatun_least_cost(FRAGMENTS, line_width, 2, 1000, 2500, 4, 25, 25, line_ends, sizeof line_ends,
                                      costs, sizeof costs, line_starts, sizeof line_starts), 0, 0, 2);
    expect_bytes(what, line_ends, "\0\1\0\2", 4);
    /* 0; 1000 and 49 squared; 1000 more: 0, 0D49 and 1131 */
    expect_bytes(what, costs, "\0\0\0\0\0\0\0\0" "\0\0\0\0\0\0\x0d\x49" "\0\0\0\0\0\0\x11\x31" "\xee", 25);
    expect_bytes(what, line_starts, "\0\0\0\0\0\1\xee", 7);

    what = "a penalty that is too large";
    expect(what, kenupatun_least_cost(FRAGMENTS, line_width, 2, 1000, 2500, 4, KENUPATUN_PENALTY_MOST + 1, 25, line_ends, 4,
                                      costs, 25, line_starts, 7), KENUPATUN_PENALTY_TOO_LARGE, 3, 0);
    what = "scratch that is too short";
    expect(what, kenupatun_least_cost(FRAGMENTS, line_width, 2, 1000, 2500, 4, 25, 25, line_ends, 4,
                                      costs, 23, line_starts, 7), KENUPATUN_LIST_TOO_SHORT, 3, 0);
}

static void fills(void)
{
    static uint8_t text[KENUPATUN_TEXT_MOST + 1];
    const char *what = "a line that is broken";

    memcpy(text, "foo  bar baz\n  \xe4\xbd\xa0", 18);
    expect(what, kenupatun_fill(text, 18, 3), 0, 0, 3);
    expect_bytes(what, text, "foo \nbar\nbaz\n \n\xe4\xbd\xa0", 18);

    what = "a text that is not filled";
    memcpy(text, "a b \xe4\xbd", 6);
    expect(what, kenupatun_fill(text, 6, 1), KENUPATUN_NOT_UTF8, 4, 0);
    expect(what, kenupatun_fill(text, 4, KENUPATUN_WIDTH_MOST + 1), KENUPATUN_WIDTH_TOO_LARGE, 0, 0);
    expect(what, kenupatun_fill(text, sizeof text, 1), KENUPATUN_TEXT_TOO_LONG, 60001, 0);
    expect_bytes(what, text, "a b \xe4\xbd", 6);
    expect("an empty text", kenupatun_fill(text, 0, 0), 0, 0, 0);
}

#define TEXT(text) (const uint8_t *)(text), sizeof(text) - 1

static void checks(void)
{
    static uint8_t text[KENUPATUN_TEXT_MOST + 1];

    expect("a fill that is accepted", kenupatun_check(TEXT("a b c"), TEXT("a b\nc"), 3), 0, 0, 0);
    expect("another layout that is accepted", kenupatun_check(TEXT("a b c"), TEXT("a\nb c"), 3), 0, 0, 0);
    expect("texts that differ in length", kenupatun_check(TEXT("a b c"), TEXT("a b"), 3), KENUPATUN_LENGTHS_DIFFER, 0, 0);
    expect("a change that is no break", kenupatun_check(TEXT("a b c"), TEXT("a b x"), 5), KENUPATUN_BAD_CHANGE, 4, 0);
    expect("a line that is too wide", kenupatun_check(TEXT("a b c"), TEXT("a\nb c"), 2), KENUPATUN_LINE_TOO_WIDE, 2, 0);
    expect("too many lines", kenupatun_check(TEXT("x\na b c"), TEXT("x\na\nb\nc"), 3), KENUPATUN_TOO_MANY_LINES, 2, 0);
    expect("a width that is too large", kenupatun_check(TEXT("a"), TEXT("a"), KENUPATUN_WIDTH_MOST + 1),
           KENUPATUN_WIDTH_TOO_LARGE, 0, 0);
    expect("a text before that is cut short", kenupatun_check(TEXT("a \xe4\xbd"), TEXT("a"), 1), KENUPATUN_NOT_UTF8, 2, 0);

    memset(text, 'a', sizeof text);
    expect("texts of 60,000 bytes", kenupatun_check(text, KENUPATUN_TEXT_MOST, text, KENUPATUN_TEXT_MOST, 0), 0, 0, 0);
    expect("a text after of 60,001 bytes", kenupatun_check(text, 1, text, sizeof text, 0), KENUPATUN_TEXT_TOO_LONG, 60001, 0);
}

int main(void)
{
    measures();
    words();
    one_word();
    breaks();
    first_fits();
    least_costs();
    fills();
    checks();
    if (failures == 0)
        puts("the header and the archive agree");
    return failures == 0 ? 0 : 1;
}
