/*
 * Holds the helpers, as they are compiled for the board, to what helpers.py
 * wrote. Ends with 1 where one returns or writes something else.
 *
 *     helpers RECORDS
 */
#include <stddef.h>
#include <stdint.h>
#include <stdio.h>

uint64_t __aeabi_llsl(uint64_t a, int by);
uint64_t __aeabi_lmul(uint64_t a, uint64_t b);
void __aeabi_memclr4(void *to, size_t bytes);

/* The helpers by their position in helpers.py. */
enum { SHIFT_LEFT, MULTIPLY, CLEAR };

struct record {
    uint32_t helper, first[2], second[2], result[2];
};

static uint64_t joined(const uint32_t words[2])
{
    return (uint64_t)words[1] << 32 | words[0];
}

/* Whether just the bytes that are asked for are zero afterwards. */
static int clears(size_t before, size_t count)
{
    static uint32_t words[16];
    uint8_t *bytes = (uint8_t *)words;
    for (size_t i = 0; i < sizeof words; i++)
        bytes[i] = 0xa5;
    __aeabi_memclr4(bytes + before, count);
    for (size_t i = 0; i < sizeof words; i++)
        if (bytes[i] != (i >= before && i < before + count ? 0 : 0xa5))
            return 0;
    return 1;
}

static int right(const struct record *r)
{
    switch (r->helper) {
    case SHIFT_LEFT:
        return __aeabi_llsl(joined(r->first), (int)r->second[0]) == joined(r->result);
    case MULTIPLY:
        return __aeabi_lmul(joined(r->first), joined(r->second)) == joined(r->result);
    case CLEAR:
        return clears(r->first[0], r->second[0]);
    default:
        return 0;
    }
}

int main(int argc, char **argv)
{
    FILE *file = argc == 2 ? fopen(argv[1], "rb") : NULL;
    uint32_t count = 0, wrong = 0;
    if (file == NULL || fread(&count, 4, 1, file) != 1) {
        fprintf(stderr, "usage: helpers RECORDS\n");
        return 2;
    }
    for (uint32_t i = 0; i < count; i++) {
        struct record r;
        if (fread(&r, 4, 7, file) != 7) {
            fprintf(stderr, "helpers: a record is missing\n");
            return 2;
        }
        wrong += !right(&r);
    }
    printf("%u records, %u wrong\n", count, wrong);
    return wrong != 0 || count == 0;
}
