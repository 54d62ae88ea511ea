/* The call that replay is about to make: where each argument of a function of the library stands. */
#ifndef REPLAY_H
#define REPLAY_H

#include <stddef.h>
#include <stdint.h>

/* All lists of a call, and its arguments in order: a list's start in bytes and its length, or a number's low and high word. */
extern uint32_t replay_block[];
extern uint32_t replay_arguments[][2];

#define BYTES(i) ((uint8_t *)replay_block + replay_arguments[i][0])
#define WORDS(i) ((uint32_t *)(void *)BYTES(i))
#define LENGTH(i) ((size_t)replay_arguments[i][1])
#define NUMBER(i) (replay_arguments[i][0])
#define DOUBLE(i) (*(double *)(void *)replay_arguments[i])

/* Makes the call; the functions are numbered in the header's order. */
uint32_t replay_call(uint32_t function);

#endif
