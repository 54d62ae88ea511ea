/*
 * A Cortex-M0 from reset to main: the vector table, the program's data, the
 * words that the program was called with, and what is said when it ends.
 */
#include "board.h"
#include "semihosting.h"

#include <stdio.h>

/* From board.ld. */
extern uint32_t board_ram[], board_data[], board_data_end[], board_data_stored[], board_free[], board_stack_top[];

int main(int argc, char **argv);

enum { MOST_WORDS = 8, FAULT = 70 };

/* Takes the command line apart at blanks. */
static int split(char *text, char **words)
{
    int count = 0;
    while (*text != 0 && count < MOST_WORDS) {
        words[count++] = text;
        while (*text != 0 && *text != ' ')
            text++;
        if (*text == ' ')
            *text++ = 0;
    }
    return count;
}

static void say_memory(void)
{
    uint32_t start = (uintptr_t)board_ram;
    fprintf(stderr, "of %u bytes of RAM %u are data, and the stack took %u at most\n", (uintptr_t)board_stack_top - start,
            (uintptr_t)board_free - start, board_stack_used());
}

_Noreturn void board_reset(void)
{
    static char line[256];
    static char *words[MOST_WORDS];
    for (uint32_t *to = board_data, *from = board_data_stored; to < board_data_end;)
        *to++ = *from++;
    for (uint32_t *to = board_data_end; to < board_free;)
        *to++ = 0;
    board_paint(0xa5a5a5a5u);
    stdout = fopen(":tt", "w");
    stderr = fopen(":tt", "a");
    host_command_line(line, sizeof line);
    uint32_t status = (uint32_t)main(split(line, words), words);
    say_memory();
    board_exit(status);
}

/* Every other exception: nothing here asks for one, so it is a fault. */
static void fault(void)
{
    fprintf(stderr, "fault\n");
    board_exit(FAULT);
}

/* The first stack pointer, then the fifteen exceptions of the processor, reset first; 0 where it has none. */
__attribute__((section(".vectors"), used)) static void *const vectors[16] = {
    board_stack_top, (void *)board_reset, (void *)fault, (void *)fault, 0, 0, 0, 0, 0, 0, 0, (void *)fault, 0, 0, (void *)fault, (void *)fault,
};
