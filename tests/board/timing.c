/*
 * Holds the cycles of the model (tools/board/cortex_m0.c) to Arm's table for the
 * Cortex-M0+. Ends with 1 where a row of instructions takes another number.
 */
#include "clock.h"

#include <stdint.h>
#include <stdio.h>

enum { TIMES = 100 };

static uint32_t words[2];

/* Instructions repeated, between two looks at the clock. r0 holds the address of two words. */
#define ROW(name, instructions)                                                                     \
    static __attribute__((noinline)) uint32_t name(void)                                            \
    {                                                                                               \
        register uint32_t *at __asm__("r0") = words;                                                \
        uint32_t before = CLOCK;                                                                    \
        __asm__ volatile(".rept 100\n" instructions "\n.endr"                                       \
                         : "+r"(at) : : "r1", "r2", "r3", "r4", "r5", "lr", "cc", "memory");        \
        return (before - CLOCK) & 0xffffff;                                                         \
    }

ROW(nothing, "")
ROW(add, "adds r1, r1, r2")
ROW(multiply, "muls r1, r2, r1")
ROW(load_word, "ldr r1, [r0]")
ROW(store_byte, "strb r1, [r0]")
ROW(load_stack, "ldr r1, [sp]")
ROW(load_two, "mov r1, r0\n ldm r1!, {r2, r3}")
ROW(push_and_pop, "push {r1, r2, r3, r4}\n pop {r1, r2, r3, r4}")
ROW(jump, "b 1f\n 1:")
ROW(branch_taken, "cmp r1, r1\n beq 1f\n 1:")
ROW(branch_passed, "cmp r1, r1\n bne 1f\n 1:")
ROW(call_and_return, "bl 1f\n b 2f\n 1: bx lr\n 2:")
ROW(call_and_pop, "bl 1f\n b 2f\n 1: push {r4, lr}\n pop {r4, pc}\n 2:")
ROW(move_to_counter, "mov r1, pc\n adds r1, r1, #4\n mov pc, r1\n nop")

static const struct {
    uint32_t (*run)(void);
    uint32_t cycles;
    const char *name;
} rows[] = {
    {add, 1, "add"},
    {multiply, 1, "multiply"},
    {load_word, 2, "load"},
    {store_byte, 2, "store"},
    {load_stack, 2, "load from the stack"},
    {load_two, 1 + 3, "move, load of two"},
    {push_and_pop, 5 + 5, "push and pop of four"},
    {jump, 2, "jump"},
    {branch_taken, 1 + 2, "comparison, branch taken"},
    {branch_passed, 1 + 1, "comparison, branch not taken"},
    {call_and_return, 3 + 2 + 2, "call, return, jump"},
    {call_and_pop, 3 + 3 + 5 + 2, "call, push of two, return by pop of two, jump"},
    {move_to_counter, 1 + 1 + 2, "move, add, move to the program counter"},
};

int main(void)
{
    uint32_t wrong = 0;
    start_clock();
    for (uint32_t i = 0; i < sizeof rows / sizeof rows[0]; i++) {
        uint32_t cycles = rows[i].run() - nothing();
        if (cycles != TIMES * rows[i].cycles) {
            fprintf(stderr, "%s: %u cycles for %u of them\n", rows[i].name, cycles, (uint32_t)TIMES);
            wrong++;
        }
    }
    return wrong != 0;
}
