/*
 * What the library asks for on armv6-m, under the names of Arm's run-time ABI.
 * libgcc has the first two and a C library the third; firmware with neither
 * links this file. Every definition is weak, so that it never clashes with
 * another of its name.
 *
 * Nothing here shifts or multiplies 64 bits, and the file is compiled with
 * -fno-builtin: else the compiler would call the helper that it compiles.
 */
#include <stddef.h>
#include <stdint.h>

typedef union {
    uint64_t whole;
    struct {
        uint32_t low, high;
    } half;
} halves;

/* a shifted to the left by 0 to 63 bits. */
__attribute__((weak)) uint64_t __aeabi_llsl(uint64_t a, int by)
{
    halves x = {a};
    if (by >= 32) {
        x.half.high = x.half.low << (by - 32);
        x.half.low = 0;
    } else if (by > 0) {
        x.half.high = x.half.high << by | x.half.low >> (32 - by);
        x.half.low <<= by;
    }
    return x.whole;
}

/* The low 64 bits of a product: that of the low halves by parts of 16 bits, and the others' low 32 bits above it. */
__attribute__((weak)) uint64_t __aeabi_lmul(uint64_t a, uint64_t b)
{
    halves x = {a}, y = {b}, product;
    uint32_t x0 = x.half.low & 0xffff, x1 = x.half.low >> 16;
    uint32_t y0 = y.half.low & 0xffff, y1 = y.half.low >> 16;
    uint32_t lowest = x0 * y0, left = x1 * y0, right = x0 * y1;
    uint32_t middle = (lowest >> 16) + (left & 0xffff) + (right & 0xffff);
    product.half.low = (lowest & 0xffff) | middle << 16;
    product.half.high = x1 * y1 + (left >> 16) + (right >> 16) + (middle >> 16);
    product.half.high += x.half.low * y.half.high + x.half.high * y.half.low;
    return product.whole;
}

/* Zeros in so many bytes from an address that is a multiple of 4. */
__attribute__((weak)) void __aeabi_memclr4(void *to, size_t bytes)
{
    uint32_t *word = to;
    for (; bytes >= 4; bytes -= 4)
        *word++ = 0;
    uint8_t *byte = (uint8_t *)word;
    for (; bytes > 0; bytes--)
        *byte++ = 0;
}
