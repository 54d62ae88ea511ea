/* The operations of Arm's semihosting that the programs use. */
#include "semihosting.h"

#include "board.h"

enum { OPEN = 0x01, CLOSE = 0x02, WRITE = 0x05, READ = 0x06, COMMAND_LINE = 0x15, EXIT_WITH_STATUS = 0x20 };

/* The reason that EXIT_WITH_STATUS gives for a program that ended by itself. */
#define ENDED 0x20026u

static uint32_t ask(uint32_t operation, uintptr_t first, uintptr_t second, uintptr_t third)
{
    uintptr_t block[3] = {first, second, third};
    register uint32_t answer __asm__("r0") = operation;
    register uintptr_t *at __asm__("r1") = block;
    __asm__ volatile("bkpt 0xab" : "+r"(answer) : "r"(at) : "memory");
    return answer;
}

intptr_t host_open(const char *path, uint32_t way)
{
    size_t length = 0;
    while (path[length] != 0)
        length++;
    return (intptr_t)ask(OPEN, (uintptr_t)path, way, length);
}

int host_close(intptr_t handle)
{
    return (int)ask(CLOSE, (uintptr_t)handle, 0, 0);
}

size_t host_read(intptr_t handle, void *to, size_t bytes)
{
    return ask(READ, (uintptr_t)handle, (uintptr_t)to, bytes);
}

size_t host_write(intptr_t handle, const void *from, size_t bytes)
{
    return ask(WRITE, (uintptr_t)handle, (uintptr_t)from, bytes);
}

void host_command_line(char *to, size_t room)
{
    to[0] = 0;
    ask(COMMAND_LINE, (uintptr_t)to, room, 0);
}

_Noreturn void board_exit(uint32_t status)
{
    ask(EXIT_WITH_STATUS, ENDED, status, 0);
    for (;;)
        ;
}
