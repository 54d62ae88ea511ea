/* What the board has beneath a program in C, and standard C has no name for. */
#ifndef BOARD_H
#define BOARD_H

#include <stdint.h>

/* Ends the program; the host gets the status. */
_Noreturn void board_exit(uint32_t status);

/* Fills all free words below the caller's frame with one value. */
void board_paint(uint32_t value);

/* The lowest word of the stack that lost its paint since it was painted last. */
uintptr_t board_deepest(void);

/* The most bytes of stack that were used since the program began, as far as board_deepest was asked. */
uint32_t board_stack_used(void);

#endif
