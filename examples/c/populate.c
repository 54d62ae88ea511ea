/*
 * Reads a type list from a file, words low byte first, and asks for the varyings
 * of one of its types, by its number, with no binding. Prints the answer: number
 * and three details. Behind it the words of the varyings, in hex.
 *
 *     populate FILE TYPE
 */
#include "bokwingi.h"

#include <inttypes.h>
#include <stdio.h>

static uint32_t types[BOKWINGI_LIST_WORDS];
static const uint32_t binding[1] = {BOKWINGI_NO_BINDING};
static uint32_t out[BOKWINGI_VARYINGS_WORDS];
static uint32_t details[3];

/* How many words the file has; 0 where its bytes are no whole number of words or too many. */
static size_t read_types(FILE *file)
{
    static uint8_t bytes[4 * BOKWINGI_LIST_WORDS + 1];
    size_t n = fread(bytes, 1, sizeof bytes, file);
    if (n % 4 != 0)
        return 0;
    for (size_t i = 0; i < n; i++)
        types[i / 4] |= (uint32_t)bytes[i] << (8 * (i % 4));
    return n / 4;
}

/* Whether a text is a number of at most nine digits. */
static int read_number(const char *text, uint32_t *number)
{
    int digits = 0;
    *number = 0;
    for (; *text >= '0' && *text <= '9' && digits < 9; text++, digits++)
        *number = 10 * *number + (uint32_t)(*text - '0');
    return digits > 0 && *text == 0;
}

/* The words of so many varyings: a variable has two, a built-in one. */
static size_t varyings_words(uint32_t count)
{
    size_t n = 0;
    while (count-- > 0)
        n += out[n] >> 27 == 12 ? 2 : 1;
    return n;
}

static void print_answer(uint32_t number)
{
    printf("%" PRIu32 " %" PRIu32 " %" PRIu32 " %" PRIu32 "\n", number, details[0], details[1], details[2]);
    size_t n = number == BOKWINGI_ACCEPTED ? varyings_words(details[0]) : 0;
    for (size_t i = 0; i < n; i++)
        printf("%08" PRIx32 "\n", out[i]);
}

int main(int argc, char **argv)
{
    uint32_t asked;
    if (argc != 3 || !read_number(argv[2], &asked)) {
        fprintf(stderr, "usage: populate FILE TYPE\n  TYPE is a number, from 0\n");
        return 2;
    }
    FILE *file = fopen(argv[1], "rb");
    if (file == NULL) {
        fprintf(stderr, "populate: %s cannot be opened\n", argv[1]);
        return 2;
    }
    size_t types_len = read_types(file);
    fclose(file);
    if (types_len == 0) {
        fprintf(stderr, "populate: %s has no whole number of words from 1 to 1024\n", argv[1]);
        return 2;
    }
    print_answer(bokwingi_populate(types, types_len, asked, binding, 1, out, BOKWINGI_VARYINGS_WORDS, details, 3));
    return 0;
}
