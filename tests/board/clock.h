/* The processor's clock (SysTick): it counts 24 bits down, once a cycle; on qemu a steady number of times for each instruction. */
#ifndef CLOCK_H
#define CLOCK_H

#include <stdint.h>

#define CLOCK_CONTROL (*(volatile uint32_t *)0xe000e010u)
#define CLOCK_RELOAD (*(volatile uint32_t *)0xe000e014u)
#define CLOCK (*(volatile uint32_t *)0xe000e018u)

static inline void start_clock(void)
{
    CLOCK_RELOAD = 0xffffff;
    CLOCK = 0;
    CLOCK_CONTROL = 5;
}

#endif
