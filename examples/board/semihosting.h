/*
 * Files, text and the command line by way of the host: a breakpoint that an
 * emulator or a debug probe answers. Firmware without either puts its own way
 * of getting packs and giving answers here.
 */
#ifndef SEMIHOSTING_H
#define SEMIHOSTING_H

#include <stddef.h>
#include <stdint.h>

/* How a file is opened. */
enum { HOST_READ = 1, HOST_WRITE = 5, HOST_APPEND = 9 };

/* A handle, or -1. The name ":tt" is the host's terminal. */
intptr_t host_open(const char *path, uint32_t way);
int host_close(intptr_t handle);

/* How many bytes were not read, or not written. */
size_t host_read(intptr_t handle, void *to, size_t bytes);
size_t host_write(intptr_t handle, const void *from, size_t bytes);

/* The words that the program was called with, its own name first, separated by blanks. */
void host_command_line(char *to, size_t room);

#endif
