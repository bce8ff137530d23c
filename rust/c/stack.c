/*
 * Says how many bytes of the stack each function of kenupatun.h touches when it is called with as much as it
 * takes: 60,000 bytes of text, 4,096 fragments, 4,096 lines and line widths. The arguments that go by the
 * stack and the place to return to are among them. For x86-64 and a compiler like GCC.
 */
#include <stddef.h>
#include <stdint.h>
#include <stdio.h>
#include <string.h>

#include "kenupatun.h"

/* As much of the stack below a function's own part as is looked at. */
#define DEPTH ((size_t)1 << 19)
#define PAINT 0xa5a5a5a5a5a5a5a5u

/* The stack pointer. */
#define HERE(pointer) __asm__ volatile("mov %%rsp, %0" : "=r"(pointer))

/* Paints the stack below, calls, and says how deep the paint is gone. Nothing else may be called between. */
#define SAY(name, call)                                                                                            \
    do {                                                                                                           \
        volatile uint64_t *here, *at;                                                                              \
        HERE(here);                                                                                                \
        for (at = here - DEPTH / sizeof *at; at < here; at++)                                                      \
            *at = PAINT;                                                                                           \
        answer = call;                                                                                             \
        for (at = here - DEPTH / sizeof *at; at < here && *at == PAINT; at++)                                      \
            continue;                                                                                              \
        printf("%-12s %6lu bytes of stack, answer %lu, count %lu\n", name,                                         \
               (unsigned long)((const volatile uint8_t *)here - (const volatile uint8_t *)at),                     \
               (unsigned long)answer.number, (unsigned long)answer.count);                                         \
    } while (0)

static uint8_t text[KENUPATUN_TEXT_MOST], filled[KENUPATUN_TEXT_MOST];
static uint8_t starts[4 * KENUPATUN_TEXT_MOST], ends[4 * KENUPATUN_TEXT_MOST], whites[4 * KENUPATUN_TEXT_MOST],
    widths[4 * KENUPATUN_TEXT_MOST];
#define LISTS starts, sizeof starts, ends, sizeof ends, whites, sizeof whites, widths, sizeof widths

static uint8_t numbers[2 * KENUPATUN_FRAGMENTS_MOST], line_widths[2 * KENUPATUN_FRAGMENTS_MOST];
static uint8_t line_ends[2 * KENUPATUN_FRAGMENTS_MOST], costs[8 * (KENUPATUN_FRAGMENTS_MOST + 1)],
    line_starts[2 * (KENUPATUN_FRAGMENTS_MOST + 1)];
#define FRAGMENTS numbers, sizeof numbers, numbers, sizeof numbers, numbers, sizeof numbers, line_widths, sizeof line_widths

int main(void)
{
    kenupatun_answer answer;
    kenupatun_word word;
    size_t at;

    for (at = 0; at < sizeof text; at++)
        text[at] = at % 4 == 3 ? ' ' : 'a';
    memcpy(filled, text, sizeof text);
    /* words and line widths of 255: each fragment has a line of its own */
    for (at = 1; at < sizeof numbers; at += 2)
        numbers[at] = line_widths[at] = 255;

    SAY("measure", kenupatun_measure(text, sizeof text));
    SAY("words", kenupatun_words(text, sizeof text, LISTS));
    SAY("word_from", (word = kenupatun_word_from(text, sizeof text), answer.number = word.number,
                      answer.place = word.place, answer.count = word.count, answer));
    SAY("break_word", kenupatun_break_word(text, sizeof text, 1, LISTS));
    SAY("break_words", kenupatun_break_words(text, sizeof text, 1, LISTS));
    SAY("first_fit", kenupatun_first_fit(FRAGMENTS, line_ends, sizeof line_ends));
    SAY("least_cost", kenupatun_least_cost(FRAGMENTS, 1000, 2500, 4, 25, 25, line_ends, sizeof line_ends, costs,
                                           sizeof costs, line_starts, sizeof line_starts));
    SAY("fill", kenupatun_fill(filled, sizeof filled, 42));
    SAY("check", kenupatun_check(text, sizeof text, filled, sizeof filled, 42));
    return 0;
}
