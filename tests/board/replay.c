/*
 * Makes recorded calls of the library on the board, and writes what they leave.
 *
 *     replay CASES WRITTEN [COSTS]
 *
 * tests/board/calls.py writes CASES and reads WRITTEN. WRITTEN gets of each call
 * its answer and all lent lists, those that are only read and the words between
 * them too. COSTS gets two words for each call, how far the clock counted and how
 * many bytes of stack it took, behind two for a thousand instructions of a cycle.
 */
#include "replay.h"

#include "board.h"
#include "clock.h"

#include <stdio.h>

enum { MOST_WORDS = 12 * 1024, MOST_ARGUMENTS = 32 };
uint32_t replay_block[MOST_WORDS];
__attribute__((aligned(8))) uint32_t replay_arguments[MOST_ARGUMENTS][2];

static uint32_t nothing(uint32_t ignored)
{
    return ignored;
}

static uint32_t thousand(uint32_t ignored)
{
    __asm__ volatile(".rept 1000\n nop\n .endr");
    return ignored;
}

/* How far the clock counts while a function runs. */
static __attribute__((noinline)) uint32_t ticks(uint32_t (*run)(uint32_t), uint32_t *argument)
{
    uint32_t before = CLOCK;
    *argument = run(*argument);
    return (before - CLOCK) & 0xffffff;
}

/* How far it counts in a thousand instructions of one cycle. */
static uint32_t try_clock(void)
{
    uint32_t ignored = 0;
    start_clock();
    return ticks(thousand, &ignored) - ticks(nothing, &ignored);
}

static int read_words(FILE *file, uint32_t *to, uint32_t count)
{
    return fread(to, 4, count, file) == count;
}

/* The number of the function that is to be called; its lists and arguments are read. */
static int read_case(FILE *file, uint32_t *function, uint32_t *block)
{
    uint32_t head[3];
    if (!read_words(file, head, 3) || head[1] > MOST_WORDS || head[2] > MOST_ARGUMENTS)
        return 0;
    *function = head[0];
    *block = head[1];
    return read_words(file, replay_arguments[0], 2 * head[2]) && read_words(file, replay_block, *block);
}

/* What a call costs beside one that does nothing, and how far down the stack it went. */
static void call(uint32_t *answer, uint32_t paint, uint32_t costs[2])
{
    uint32_t ignored = 0, sp;
    __asm__ volatile("mov %0, sp" : "=r"(sp));
    board_paint(paint);
    costs[0] = ticks(replay_call, answer) - ticks(nothing, &ignored);
    costs[1] = sp - board_deepest();
}

int main(int argc, char **argv)
{
    FILE *cases = argc > 2 ? fopen(argv[1], "rb") : NULL;
    FILE *written = argc > 2 ? fopen(argv[2], "wb") : NULL;
    FILE *costs_to = argc > 3 ? fopen(argv[3], "wb") : NULL;
    uint32_t head[2], costs[2] = {try_clock(), 0}, answer, block;
    if (cases == NULL || written == NULL || !read_words(cases, head, 2)) {
        fprintf(stderr, "usage: replay CASES WRITTEN [COSTS]\n");
        return 2;
    }
    for (uint32_t left = head[0]; left > 0; left--) {
        if (costs_to != NULL)
            fwrite(costs, 4, 2, costs_to);
        if (!read_case(cases, &answer, &block)) {
            fprintf(stderr, "replay: a case ends early or is too long\n");
            return 1;
        }
        call(&answer, head[1], costs);
        fwrite(&answer, 4, 1, written);
        fwrite(replay_block, 4, block, written);
    }
    if (costs_to != NULL)
        fwrite(costs, 4, 2, costs_to);
    return 0;
}
