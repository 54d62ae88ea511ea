/*
 * What a Cortex-M0 does not do, so that an emulator that is less strict is
 * noticed: with one word a read of a word off its boundary, with two an
 * instruction of armv7-m. Each is a fault.
 */
#include <stdint.h>

static uint32_t words[2];

int main(int argc, char **argv)
{
    (void)argv;
    if (argc == 2)
        return (int)*(volatile uint32_t *)(void *)((uint8_t *)words + 1);
    __asm__ volatile(".hword 0xf1a0, 0x0001" ::: "r0"); /* sub.w r0, r0, #1 */
    return 0;
}
