/*
 * Calls every function of kenupatun.h on blocks of the heap, for valgrind: each slice has a block of its
 * own of just its size, and lists that are written start out uninitialised. So valgrind reports a byte
 * that is touched outside a slice, and whatever depends on what a list held before. Bytes left over at
 * the end of a list may not even be read.
 *
 * Tested besides: what an answer says is written has become defined, and everything else in the lists is
 * as undefined as it was. What the functions compute is tested in ../tests.
 */
#include <stdint.h>
#include <stdio.h>
#include <stdlib.h>
#include <string.h>
#include <valgrind/memcheck.h>

#include "kenupatun.h"

static int failures = 0;
static unsigned long calls = 0;

/* Holds the number of an answer, and that all of it is defined, and counts the call. */
static void expect(const char *what, kenupatun_answer got, uint32_t number)
{
    calls++;
    if (VALGRIND_CHECK_VALUE_IS_DEFINED(got.number) != 0 || VALGRIND_CHECK_VALUE_IS_DEFINED(got.place) != 0 ||
        VALGRIND_CHECK_VALUE_IS_DEFINED(got.count) != 0)
        failures++;
    if (got.number == number && (number == 0 ? got.place == 0 : got.count == 0))
        return;
    failures++;
    fprintf(stderr, "%s: got %lu %llu %llu, expected number %lu\n", what, (unsigned long)got.number,
            (unsigned long long)got.place, (unsigned long long)got.count, (unsigned long)number);
}

/* ---- numbers by chance, the same every time (xorshift64) */

static uint64_t state = 20261115;

static size_t below(size_t end)
{
    state ^= state << 13;
    state ^= state >> 7;
    state ^= state << 17;
    return (size_t)(state % end);
}

/* ---- blocks */

/* A block of just so many bytes, uninitialised. */
static uint8_t *block(size_t len)
{
    uint8_t *bytes = malloc(len);

    if (bytes == NULL)
        abort();
    return bytes;
}

/* A block that holds these bytes. */
static uint8_t *copy(const uint8_t *bytes, size_t len)
{
    uint8_t *copied = block(len);

    memcpy(copied, bytes, len);
    return copied;
}

/* A list that is written: its bytes, its length, and the bytes of a place. */
struct list {
    uint8_t *bytes;
    size_t len, place;
};

static struct list list_of(size_t len, size_t place)
{
    struct list list;

    list.bytes = block(len);
    list.len = len;
    list.place = place;
    (void)VALGRIND_MAKE_MEM_NOACCESS(list.bytes + len / place * place, len % place);
    return list;
}

/* Holds that the first places of a list are defined and all others as they were, and gives it back. */
static void expect_written(const char *what, struct list list, size_t places)
{
    static uint8_t undefined[8 * (KENUPATUN_TEXT_MOST + 2)];
    size_t whole = list.len / list.place * list.place, at = places * list.place;

    if (VALGRIND_CHECK_MEM_IS_DEFINED(list.bytes, at) != 0)
        failures++;
    if (whole > at && VALGRIND_GET_VBITS(list.bytes + at, undefined, whole - at) == 1) {
        size_t byte;

        for (byte = 0; byte < whole - at && undefined[byte] == 0xff; byte++)
            continue;
        if (byte < whole - at) {
            failures++;
            fprintf(stderr, "%s: byte %lu of a list was written\n", what, (unsigned long)(at + byte));
        }
    }
    free(list.bytes);
}

/* ---- texts */

static const char *const parts[] = {"a",        "bc",       "def",          " ",        "  ",
                                    " ",        "\n",       "\r\n",         "\xc3\xa9", "\xe4\xbd\xa0",
                                    "\xf0\x9f\x98\x80", "\x1b[31m", "\x1b]8;;x\x1b\\", "\x1b", "\x1b]0;"};

/* A block with a text of just so many bytes. One in four ends with a part that is cut, one in eight has a byte FF. */
static uint8_t *text_of(size_t len)
{
    uint8_t *text = block(len);
    size_t at = 0, cut = below(4);

    while (at < len) {
        const char *part = parts[below(sizeof parts / sizeof *parts)];
        size_t fits = strlen(part);

        if (fits > len - at) {
            part = cut == 0 ? part : "a";
            fits = cut == 0 ? len - at : 1;
        }
        memcpy(text + at, part, fits);
        at += fits;
    }
    if (len > 0 && below(8) == 0)
        text[below(len)] = 0xff;
    return text;
}

/* One of the functions that list words or pieces of a text. */
static kenupatun_answer listed(int which, const uint8_t *text, size_t len, uint32_t width, const struct list *lists)
{
#define LISTS                                                                                                      \
    lists[0].bytes, lists[0].len, lists[1].bytes, lists[1].len, lists[2].bytes, lists[2].len, lists[3].bytes,       \
        lists[3].len
    switch (which) {
    case 0:
        return kenupatun_words(text, len, LISTS);
    case 1:
        return kenupatun_break_word(text, len, width, LISTS);
    default:
        return kenupatun_break_words(text, len, width, LISTS);
    }
}

/* Calls it with lists of so many bytes and holds the answer, of so many places when done. */
static void lists_of(int which, const uint8_t *text, size_t len, uint32_t width, const size_t lens[4], uint32_t number,
                     size_t places)
{
    static const char *const names[] = {"words", "break_word", "break_words"};
    struct list lists[4];
    int at;

    for (at = 0; at < 4; at++)
        lists[at] = list_of(lens[at], 4);
    expect(names[which], listed(which, text, len, width, lists), number);
    for (at = 0; at < 4; at++)
        expect_written(names[which], lists[at], number == 0 ? places : 0);
}

/* One function on lists exactly full, with bytes left over, a place longer, one a byte short, one empty. */
static void lists_around(int which, const uint8_t *text, size_t len, uint32_t width, uint32_t refused)
{
    size_t most = len + 1, full, lens[4], list = below(4);
    struct list lists[4];
    kenupatun_answer found;
    int at;

    for (at = 0; at < 4; at++)
        lists[at] = list_of(4 * most, 4);
    found = listed(which, text, len, width, lists);
    expect("lists that are long enough", found, refused);
    for (at = 0; at < 4; at++)
        expect_written("lists that are long enough", lists[at], (size_t)found.count);

    full = 4 * (size_t)found.count;
    for (at = 0; at < 4; at++)
        lens[at] = full;
    lists_of(which, text, len, width, lens, refused, (size_t)found.count);
    for (at = 0; at < 4; at++)
        lens[at] = full + (size_t)at + below(2) * 4;
    lists_of(which, text, len, width, lens, refused, (size_t)found.count);
    if (full > 0) {
        lens[list] = full - 1;
        lists_of(which, text, len, width, lens, KENUPATUN_LIST_TOO_SHORT, 0);
        lens[list] = 0;
        lists_of(which, text, len, width, lens, KENUPATUN_LIST_TOO_SHORT, 0);
    }
}

/* What the check of a text against one that is a byte longer answers. */
static uint32_t refused_against_longer(const uint8_t *before, size_t len, uint32_t width)
{
    kenupatun_answer measured = kenupatun_measure(before, len);

    if (len + 1 > KENUPATUN_TEXT_MOST)
        return KENUPATUN_TEXT_TOO_LONG;
    if (measured.number != 0)
        return measured.number;
    return width > KENUPATUN_WIDTH_MOST ? KENUPATUN_WIDTH_TOO_LARGE : KENUPATUN_LENGTHS_DIFFER;
}

/* Fills a text in a block of its own, and checks it against what it was, and each against one byte less. */
static void fill_and_check(const uint8_t *text, size_t len, uint32_t width, uint32_t refused)
{
    uint8_t *filled = copy(text, len), *shorter;

    expect("fill", kenupatun_fill(filled, len, width), refused);
    expect("check", kenupatun_check(text, len, filled, len, width), refused);
    if (VALGRIND_CHECK_MEM_IS_DEFINED(filled, len) != 0)
        failures++;
    if (len > 0) {
        shorter = copy(filled, len - 1);
        expect("check of a shorter text", kenupatun_check(text, len, shorter, len - 1, width),
               refused != 0 ? refused : KENUPATUN_LENGTHS_DIFFER);
        expect("check of a longer text", kenupatun_check(shorter, len - 1, text, len, width),
               refused_against_longer(shorter, len - 1, width));
        free(shorter);
    }
    free(filled);
}

/* Every function on a text, whose block is then given back. */
static void on_text(uint8_t *text, size_t len, uint32_t width)
{
    kenupatun_answer measured = kenupatun_measure(text, len), answer;
    kenupatun_word word = kenupatun_word_from(text, len);
    uint32_t wide = width > KENUPATUN_WIDTH_MOST ? KENUPATUN_WIDTH_TOO_LARGE : 0;
    uint32_t refused = measured.number != 0 ? measured.number : wide;

    expect("measure", measured, measured.number);
    answer.number = word.number;
    answer.place = word.place;
    answer.count = word.count;
    expect("word_from", answer, measured.number);
    if (VALGRIND_CHECK_VALUE_IS_DEFINED(word.start) != 0 || VALGRIND_CHECK_VALUE_IS_DEFINED(word.end) != 0 ||
        VALGRIND_CHECK_VALUE_IS_DEFINED(word.white) != 0 || VALGRIND_CHECK_VALUE_IS_DEFINED(word.width) != 0)
        failures++;
    lists_around(0, text, len, width, measured.number);
    lists_around(1, text, len, width, refused);
    lists_around(2, text, len, width, refused);
    fill_and_check(text, len, width, refused);
    free(text);
}

static void texts(size_t count)
{
    static const size_t limits[] = {KENUPATUN_TEXT_MOST - 1, KENUPATUN_TEXT_MOST, KENUPATUN_TEXT_MOST + 1};
    static const uint32_t widths[] = {0, 1, 2, 7, 42, 255, 256};
    size_t at;

    for (at = 0; at < count; at++) {
        size_t len = below(10) == 0 ? below(1000) : below(100);

        on_text(text_of(len), len, widths[below(7)]);
    }
    for (at = 0; at < 200; at++)
        on_text(text_of(at), at, widths[at % 7]);
    for (at = 0; at < 3; at++) {
        uint8_t *text = block(limits[at]);

        memset(text, 'a', limits[at]);
        on_text(text, limits[at], 1);
        on_text(text_of(limits[at]), limits[at], 42);
    }
}

/* ---- layouts */

/* A block with so many 16-bit numbers up to a number, and so many bytes left over, which may not be read. */
static uint8_t *numbers_of(size_t count, size_t most, size_t left_over)
{
    uint8_t *list = block(2 * count + left_over);
    size_t at;

    for (at = 0; at < count; at++) {
        size_t number = below(most + 1);

        list[2 * at] = (uint8_t)(number >> 8);
        list[2 * at + 1] = (uint8_t)number;
    }
    (void)VALGRIND_MAKE_MEM_NOACCESS(list + 2 * count, left_over);
    return list;
}

/* The places that the lists which are written have more, or fewer, than they need: ends, costs, starts; and
 * the bytes left over in each list. */
struct room {
    int ends, costs, starts;
    size_t left_over;
};

/* Both layouts of so many fragments at so many line widths. */
static void on_layout(size_t count, size_t widths, size_t most, struct room room)
{
    size_t over = room.left_over, ends_len = 2 * (size_t)((int)(count > 0 ? count : 1) + room.ends) + over;
    size_t costs_len = 8 * (size_t)((int)count + 1 + room.costs) + over;
    size_t starts_len = 2 * (size_t)((int)count + 1 + room.starts) + over;
    uint8_t *words = numbers_of(count, most, over), *whites = numbers_of(count, 2, over);
    uint8_t *penalty_widths = numbers_of(count, 1, over), *line_widths = numbers_of(widths, 255, over);
    struct list ends = list_of(ends_len, 2), costs = list_of(costs_len, 8), starts = list_of(starts_len, 2);
    uint32_t many = count > KENUPATUN_FRAGMENTS_MOST ? KENUPATUN_TOO_MANY_FRAGMENTS : 0;
    uint32_t first = many != 0 ? many : room.ends < 0 ? KENUPATUN_LIST_TOO_SHORT : 0;
    uint32_t least = first != 0 ? first : room.costs < 0 || room.starts < 0 ? KENUPATUN_LIST_TOO_SHORT : 0;
    kenupatun_answer answer;

#define READ                                                                                                       \
    words, 2 * count + over, whites, 2 * count + over, penalty_widths, 2 * count + over, line_widths, 2 * widths + over
    answer = kenupatun_first_fit(READ, ends.bytes, ends.len);
    expect("first_fit", answer, first);
    expect_written("first_fit", ends, (size_t)answer.count);

    ends = list_of(ends_len, 2);
    answer = kenupatun_least_cost(READ, 1000, 2500, 4, 25, 25, ends.bytes, ends.len, costs.bytes, costs.len,
                                  starts.bytes, starts.len);
    expect("least_cost", answer, least);
    expect_written("least_cost, ends", ends, (size_t)answer.count);
    expect_written("least_cost, costs", costs, least == 0 ? count + 1 : 0);
    expect_written("least_cost, starts", starts, least == 0 ? count + 1 : 0);
    free(words);
    free(whites);
    free(penalty_widths);
    free(line_widths);
}

static void layouts(size_t count)
{
    static const struct room rooms[] = {{0, 0, 0, 0}, {0, 0, 0, 1}, {1, 1, 1, 0}, {-1, 0, 0, 0}, {0, -1, 0, 1}, {0, 0, -1, 0}};
    static const size_t mosts[] = {1, 12, 300, 65535};
    size_t at;

    for (at = 0; at < count; at++)
        on_layout(below(20) == 0 ? below(300) : below(12), below(4), mosts[below(4)], rooms[below(6)]);
    for (at = 0; at < 6; at++) {
        on_layout(0, at, 1, rooms[at]);
        on_layout(KENUPATUN_FRAGMENTS_MOST - 1 + at % 3, at % 2 == 0 ? 1 : KENUPATUN_FRAGMENTS_MOST + 1, 12, rooms[at]);
    }
    on_layout(KENUPATUN_FRAGMENTS_MOST, KENUPATUN_FRAGMENTS_MOST, 65535, rooms[0]);
}

int main(int argc, char **argv)
{
    size_t count = argc > 1 ? (size_t)strtoul(argv[1], NULL, 10) : 2000;

    if (!RUNNING_ON_VALGRIND) {
        fputs("this is to be run by valgrind\n", stderr);
        return 2;
    }
    texts(count);
    layouts(count);
    printf("%lu calls, %d of them answered or wrote what they must not\n", calls, failures);
    return failures == 0 ? 0 : 1;
}
