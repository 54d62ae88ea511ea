/* As much of a C library as the programs use. A FILE is the host's handle and one more, so that none is NULL. */
#include "semihosting.h"

#include <stdarg.h>
#include <stdio.h>
#include <string.h>

FILE *stdout, *stderr;

static intptr_t handle(const FILE *file)
{
    return (intptr_t)file - 1;
}

FILE *fopen(const char *path, const char *mode)
{
    uint32_t way = mode[0] == 'r' ? HOST_READ : mode[0] == 'w' ? HOST_WRITE : HOST_APPEND;
    return (FILE *)(host_open(path, way) + 1);
}

int fclose(FILE *file)
{
    return host_close(handle(file));
}

/* Sizes here are 1 or 4. */
static size_t whole(size_t bytes, size_t size)
{
    return size == 4 ? bytes / 4 : bytes;
}

size_t fread(void *to, size_t size, size_t count, FILE *file)
{
    size_t bytes = size * count;
    return whole(bytes - host_read(handle(file), to, bytes), size);
}

size_t fwrite(const void *from, size_t size, size_t count, FILE *file)
{
    size_t bytes = size * count;
    return whole(bytes - host_write(handle(file), from, bytes), size);
}

void *memcpy(void *to, const void *from, size_t n)
{
    for (size_t i = 0; i < n; i++)
        ((uint8_t *)to)[i] = ((const uint8_t *)from)[i];
    return to;
}

/* Text on its way to the host. */
struct text {
    FILE *file;
    size_t count;
    char bytes[64];
};

static void flush(struct text *text)
{
    host_write(handle(text->file), text->bytes, text->count);
    text->count = 0;
}

static void put(struct text *text, char byte)
{
    if (text->count == sizeof text->bytes)
        flush(text);
    text->bytes[text->count++] = byte;
}

/* The processor cannot divide. */
static void put_decimal(struct text *text, uint32_t value)
{
    static const uint32_t powers[] = {1000000000, 100000000, 10000000, 1000000, 100000, 10000, 1000, 100, 10, 1};
    int begun = 0;
    for (int i = 0; i < 10; i++) {
        char digit = '0';
        for (; value >= powers[i]; value -= powers[i])
            digit++;
        begun |= digit != '0' || i == 9;
        if (begun)
            put(text, digit);
    }
}

static void put_hex(struct text *text, uint32_t value, int least)
{
    for (int digits = 8; digits > 0; digits--) {
        uint32_t left = value >> (4 * (digits - 1));
        if (left > 0 || digits <= least)
            put(text, "0123456789abcdef"[left % 16]);
    }
}

static void put_string(struct text *text, const char *from)
{
    while (*from != 0)
        put(text, *from++);
}

/* %s, %u, %x and, for at least N digits, %0Nx; any other byte of the form stands for itself. */
static void print(FILE *file, const char *form, va_list values)
{
    struct text text = {.file = file};
    for (; *form != 0; form++) {
        if (*form != '%') {
            put(&text, *form);
            continue;
        }
        int least = 1;
        if (*++form == '0') {
            least = form[1] - '0';
            form += 2;
        }
        if (*form == 's')
            put_string(&text, va_arg(values, const char *));
        else if (*form == 'x')
            put_hex(&text, va_arg(values, uint32_t), least);
        else
            put_decimal(&text, va_arg(values, uint32_t));
    }
    flush(&text);
}

int printf(const char *form, ...)
{
    va_list values;
    va_start(values, form);
    print(stdout, form, values);
    va_end(values);
    return 0;
}

int fprintf(FILE *file, const char *form, ...)
{
    va_list values;
    va_start(values, form);
    print(file, form, values);
    va_end(values);
    return 0;
}
