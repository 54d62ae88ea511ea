/* How deep the stack was: its free words are filled with a value, and those that lost it were used. */
#include "board.h"

/* From board.ld. */
extern uint32_t board_free[], board_stack_top[];

static uint32_t paint;
static uint32_t most_used;

__attribute__((noinline)) void board_paint(uint32_t value)
{
    uint32_t *own = __builtin_frame_address(0);
    paint = value;
    /* the frame of this very function lies within the last words */
    for (volatile uint32_t *to = board_free; to < own - 16; to++)
        *to = value;
}

__attribute__((noinline)) uintptr_t board_deepest(void)
{
    volatile uint32_t *at = board_free;
    while (*at == paint)
        at++;
    uint32_t used = (uintptr_t)board_stack_top - (uintptr_t)at;
    if (used > most_used)
        most_used = used;
    return (uintptr_t)at;
}

uint32_t board_stack_used(void)
{
    board_deepest();
    return most_used;
}
