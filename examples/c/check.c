/*
 * Reads a pack from a file, derives its entry points in order over one layout,
 * and prints an answer for each: stage, number, three details. Behind them the
 * words of the layout that was derived, in hex. A pack that is refused is
 * printed as stage 9.
 *
 *     check FILE
 */
#include "bokwingi.h"

#include <inttypes.h>
#include <stdio.h>
#include <string.h>

static uint32_t pack[BOKWINGI_PACK_WORDS];
static uint32_t layout[BOKWINGI_LIST_WORDS] = {BOKWINGI_EMPTY_LAYOUT(8)};
static uint32_t sizes[1] = {BOKWINGI_EMPTY_SIZES};
static uint32_t details[3];

/* What the last accepted stage handed out, and room for what the next one does. */
static uint32_t fed[BOKWINGI_OUT_WORDS] = {BOKWINGI_EMPTY_STAGE, BOKWINGI_NO_PAYLOAD};
static uint32_t out[BOKWINGI_OUT_WORDS];

static uint32_t bits(uint32_t word, int high, int low)
{
    return word >> low & ((UINT32_C(1) << (high - low + 1)) - 1);
}

static uint32_t kind(uint32_t word)
{
    return word >> 27;
}

static void print_answer(uint32_t stage, uint32_t number)
{
    printf("%" PRIu32 " %" PRIu32 " %" PRIu32 " %" PRIu32 " %" PRIu32 "\n", stage, number, details[0], details[1], details[2]);
}

/* The words of the pack, low byte first. A length that no pack has is answered
 * where the bytes are no whole number of words or too many for one. */
static size_t read_pack(FILE *file)
{
    static uint8_t bytes[4 * BOKWINGI_PACK_WORDS + 1];
    size_t n = fread(bytes, 1, sizeof bytes, file);
    if (n % 4 != 0)
        return 0;
    for (size_t i = 0; i < n; i++)
        pack[i / 4] |= (uint32_t)bytes[i] << (8 * (i % 4));
    return n / 4;
}

/* The position behind so many inputs or outputs: a location has two words, a built-in one. */
static size_t skip_varyings(size_t at, uint32_t count)
{
    while (count-- > 0)
        at += kind(pack[at]) == 12 ? 2 : 1;
    return at;
}

/* The position of the first entry point: the resources stand behind 15 words; a buffer has a third word. */
static size_t first_entry_point(void)
{
    size_t at = 15;
    for (uint32_t n = bits(pack[1], 26, 16); n > 0; n--)
        at += bits(pack[at + 1], 26, 23) == 0 ? 3 : 2;
    return at;
}

/* The position behind the entry point that begins here. */
static size_t next_entry_point(size_t at)
{
    uint32_t head = pack[at];
    at += 1 + (bits(head, 22, 16) + 3) / 4; /* its name */
    at += 4 + (bits(head, 1, 1) ? 3 : 0);   /* workgroup size and payload, mesh record */
    uint32_t counts = pack[at];
    at += 1 + bits(counts, 23, 18) + bits(counts, 17, 12); /* resources and pairs */
    return skip_varyings(skip_varyings(at, bits(counts, 11, 6)), bits(counts, 5, 0));
}

static void derive_entry_point(size_t pack_len, size_t at)
{
    uint32_t stage = bits(pack[at], 26, 24);
    size_t name_len = bits(pack[at], 22, 16);
    uint8_t name[64];
    for (size_t i = 0; i < name_len; i++)
        name[i] = (uint8_t)(pack[at + 1 + i / 4] >> (8 * (i % 4)));
    uint32_t number = bokwingi_check_stage(
        pack, pack_len, layout, BOKWINGI_LIST_WORDS, sizes, 1, fed, BOKWINGI_OUT_WORDS, out, BOKWINGI_OUT_WORDS,
        name, name_len, stage, BOKWINGI_TRIANGLES, BOKWINGI_DERIVED, 0, 1, details, 3);
    if (number == BOKWINGI_ACCEPTED)
        memcpy(fed, out, sizeof fed);
    print_answer(stage, number);
}

int main(int argc, char **argv)
{
    FILE *file = argc == 2 ? fopen(argv[1], "rb") : NULL;
    if (file == NULL) {
        fprintf(stderr, "usage: check FILE\n");
        return 2;
    }
    size_t pack_len = read_pack(file);
    fclose(file);
    /* The choice of an entry point looks at the whole pack first. */
    uint32_t number = bokwingi_entry_point(pack, pack_len, BOKWINGI_VERTEX, details, 3);
    if (number == BOKWINGI_DAMAGED_PACK || number == BOKWINGI_MALFORMED_PACK) {
        print_answer(9, number);
        return 0;
    }
    size_t at = first_entry_point();
    for (uint32_t n = bits(pack[1], 15, 0); n > 0; n--) {
        derive_entry_point(pack_len, at);
        at = next_entry_point(at);
    }
    for (size_t i = 0; i <= 4 * (size_t)bits(layout[0], 15, 0); i++)
        printf("%08" PRIx32 "\n", layout[i]);
    return 0;
}
