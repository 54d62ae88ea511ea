/*
 * Bokwingi: whether a shader pack fits the pipeline it is meant for.
 *
 * Every function answers for every argument: numbers out of range, words that
 * are no pack and lists that are no lists are answered with a refusal. The
 * functions have no state: they keep nothing between calls, allocate nothing
 * and call nothing but memset. Packs and lists are 32-bit words in the
 * machine's own order; a pack that is stored as bytes has the low byte first.
 *
 * Buffers
 *   The caller owns every buffer. A buffer is lent for the time of the call: it
 *   is read and written inside its length only, and no pointer to it is kept.
 *   - A length counts elements, not bytes. A pointer is aligned for its element
 *     and is not NULL, also where the length is 0.
 *   - A buffer that is written (layout, sizes, out, details) overlaps no other
 *     buffer of the same call; the list handed out by one stage and the list
 *     fed to the next are therefore two buffers. Buffers that are only read
 *     (pack, inputs, name, types, binding) may overlap each other.
 *
 * Threads and interrupts
 *   A call touches its buffers and its stack and nothing else. So calls may run
 *   at the same time, and one may interrupt another, as long as no buffer that
 *   one of them writes is lent to the other.
 *
 * Answers
 *   An answer is a number, which is returned, and three details. The details
 *   are part of the answer and no lent list: every call writes them, a refusal
 *   too, also one that "changes no list". They are written to details[0],
 *   details[1] and details[2], as many as details_len has room for; words
 *   behind them are left as they are. A detail that is not named below is
 *   written as 0. 0 is acceptance, any other number a refusal.
 *   docs/REFUSALS.md says of each what to do about it.
 */
#ifndef BOKWINGI_H
#define BOKWINGI_H

#include <stddef.h>
#include <stdint.h>

#ifdef __cplusplus
extern "C" {
#endif

/* The most words of a pack, and of a lent layout, size, stage or type list. */
#define BOKWINGI_PACK_WORDS 4096
#define BOKWINGI_LIST_WORDS 1024

/* A list out of this many words is long enough for every entry point. */
#define BOKWINGI_OUT_WORDS 128

/* Room of this many words is long enough for the varyings of every type. */
#define BOKWINGI_VARYINGS_WORDS 126

/* The first words of lists with nothing in them. A layout says how many groups
 * it has, 0 to 8. A stage list is two words: "nothing handed on", "no payload". */
#define BOKWINGI_EMPTY_LAYOUT(groups) (UINT32_C(0x88000000) | (uint32_t)(groups) << 16)
#define BOKWINGI_EMPTY_SIZES UINT32_C(0xa0000000)
#define BOKWINGI_EMPTY_STAGE UINT32_C(0x58000000)
#define BOKWINGI_NO_PAYLOAD UINT32_C(0x48000000)

/* The one word of the binding of a type that has none. */
#define BOKWINGI_NO_BINDING UINT32_C(0x30000000)

enum bokwingi_stage {
    BOKWINGI_VERTEX = 0,
    BOKWINGI_FRAGMENT = 1,
    BOKWINGI_COMPUTE = 2,
    BOKWINGI_TASK = 3,
    BOKWINGI_MESH = 4
};

enum bokwingi_topology {
    BOKWINGI_POINTS = 0,
    BOKWINGI_LINES = 1,
    BOKWINGI_LINE_STRIP = 2,
    BOKWINGI_TRIANGLES = 3,
    BOKWINGI_TRIANGLE_STRIP = 4,
    BOKWINGI_NO_TOPOLOGY = 5
};

enum bokwingi_mode {
    BOKWINGI_PROVIDED = 0, /* the layout is judged against, sizes are recorded */
    BOKWINGI_DERIVED = 1   /* the layout is built from what the stages use */
};

/* The numbers, with their details. */
enum bokwingi_number {
    BOKWINGI_ACCEPTED = 0,

    /* the pack and the call */
    BOKWINGI_DAMAGED_PACK = 1,   /* not 16 to 4,096 words, or total or sum wrong */
    BOKWINGI_MALFORMED_PACK = 2, /* a word, code, index or rule of the pack is bad */
    BOKWINGI_BAD_CALL = 3,       /* a lent list is bad, or stage, topology, mode or flag */
    BOKWINGI_SHORT_OUT = 4,      /* out has under 2 + 2 * (outputs with a location) words, or under the varyings' */
    BOKWINGI_FULL_LIST = 5,      /* no free words for a new record: group, binding */

    /* the choice of an entry point */
    BOKWINGI_ENTRY_ABSENT = 10,  /* none has this stage and this name */
    BOKWINGI_ENTRY_NONE = 11,    /* no name given, and none has this stage */
    BOKWINGI_ENTRY_SEVERAL = 12, /* no name given, and several have this stage */

    /* resources against the layout: group, binding */
    BOKWINGI_MISSING = 20,                      /* no entry at this place; derived: no such group */
    BOKWINGI_INVISIBLE = 21,                    /* the entry is not visible to this stage */
    BOKWINGI_WRONG_TYPE = 22,                   /* the entry is of another sort */
    BOKWINGI_WRONG_ADDRESS_SPACE = 23,          /* the buffer's space or access is not the entry's */
    BOKWINGI_WRONG_BUFFER_ADDRESS_SPACE = 24,   /* no entry can be derived for this space */
    BOKWINGI_WRONG_BUFFER_SIZE = 25,            /* the entry promises fewer bytes */
    BOKWINGI_WRONG_TEXTURE_VIEW_DIMENSION = 26, /* dimension or arrayed differ, or no texture entry */
    BOKWINGI_WRONG_TEXTURE_CLASS = 27,          /* sort, samples, format or access of the texture differ */
    BOKWINGI_WRONG_SAMPLER_COMPARISON = 28,     /* one is a comparison sampler, the other is not */
    BOKWINGI_INCONSISTENTLY_DERIVED_TYPE = 29,  /* a stage before derived another type or size here */
    BOKWINGI_BAD_STORAGE_FORMAT = 30,           /* the entry's format cannot be stored */

    /* textures with samplers: the texture's and the sampler's place, as words of kind 4 */
    BOKWINGI_FILTERING_FLOAT = 32,   /* filtering sampler, float texture not filterable */
    BOKWINGI_FILTERING_INTEGER = 33, /* filtering sampler, integer texture */
    BOKWINGI_PAIR_NO_TEXTURE = 34,   /* the layout's entry for the texture is no texture */

    /* workgroup: the three dimensions */
    BOKWINGI_WORKGROUP_TOO_LARGE = 40, /* a dimension or their product is above its limit */
    BOKWINGI_WORKGROUP_ZERO = 41,      /* a dimension is 0 */

    /* inputs: location */
    BOKWINGI_INPUT_MISSING = 50,       /* nothing is handed on at this location */
    BOKWINGI_INPUT_TYPE = 51,          /* what is handed on is of another type */
    BOKWINGI_INPUT_INTERPOLATION = 52, /* the interpolation is another */
    BOKWINGI_INPUT_SAMPLING = 53,      /* the sampling is another */
    BOKWINGI_INPUT_PER_PRIMITIVE = 54, /* one is per primitive, the other is not */

    /* inter-stage slots (what the limit on inter-stage variables counts), and attachments */
    BOKWINGI_VERTEX_LOCATION = 60,   /* an output past the highest location: location, limit */
    BOKWINGI_VERTEX_COUNT = 61,      /* more outputs than slots: count, limit */
    BOKWINGI_FRAGMENT_LOCATION = 62, /* an input at or past the limit: location, limit */
    BOKWINGI_FRAGMENT_COUNT = 63,    /* more inputs than slots: count, limit */
    BOKWINGI_COLOUR_LOCATION = 64,   /* an output past the attachments: location, limit */
    BOKWINGI_SLOTS_USED_UP = 65,     /* built-ins alone take more slots than there are */
    BOKWINGI_DUAL_SOURCE = 66,       /* dual source asked for and not supported */
    BOKWINGI_DEPTH_ATTACHMENT = 67,  /* depth written and none attached */

    /* mesh and task stages, primitives */
    BOKWINGI_MESH_VERTICES = 70,           /* above the limit: value, limit */
    BOKWINGI_MESH_PRIMITIVES = 71,         /* above the limit: value, limit */
    BOKWINGI_MESH_TOPOLOGY = 72,           /* not the pipeline's */
    BOKWINGI_PAYLOAD_LARGE = 73,           /* above the limit: value, limit */
    BOKWINGI_PAYLOAD_MISMATCH = 74,        /* not that of the stage before */
    BOKWINGI_INVALID_PRIMITIVE_INDEX = 75, /* read by the fragment stage, not written before */
    BOKWINGI_MISSING_PRIMITIVE_INDEX = 76, /* written before, not read by the fragment stage */
    BOKWINGI_DRAW_INDEX = 77,              /* read by a mesh stage behind a task stage */
    BOKWINGI_PER_VERTEX_NOT_TRIANGLES = 78, /* a per-vertex input, and no triangles */

    /* formats and lone types */
    BOKWINGI_NO_COLOUR_TYPE = 80,   /* the format is depth, stencil or planar */
    BOKWINGI_FORMAT_MISMATCH = 81,  /* the type does not fit: the format's type word */
    BOKWINGI_UNKNOWN_CODE = 82,     /* no such format code or type word; tried first */

    /* declared types */
    BOKWINGI_BAD_TYPES = 90,        /* type list or binding bad, no such type, or clip distances misplaced */
    BOKWINGI_NESTED_TOO_DEEP = 91,  /* structs nest more than 8 deep */
    BOKWINGI_TOO_MANY_VARYINGS = 92 /* the type gives more than 63 varyings */
};

/*
 * Checks one stage of a pipeline: whether the entry point of this stage and
 * name fits the layout, what the stage before hands on, and the pack's limits.
 *
 *   pack         the module pack, at most 4,096 words
 *   layout       the layout list, at most 1,024 words with its free room. Derived
 *                mode adds entries and visibility bits to it; provided mode
 *                leaves it as it is
 *   sizes        the size list, at most 1,024 words with its free room. Provided
 *                mode records the buffers' sizes in it; derived mode leaves it
 *   inputs       the stage list that is fed to this stage, at most 1,024 words:
 *                vertex attributes, or what the stage before handed out
 *   out          room for the stage list that this stage hands out, any length
 *   name         the entry point's name: bytes, no zero byte at the end
 *   stage        0 to 4       topology     0 to 4, or 5 for none
 *   mode         0 or 1       dual_source  0 or 1       depth  0 or 1
 *   details      room for the details, any length
 *
 * What is written:
 *   0            the records of every step in layout and sizes; the list out,
 *                from the start of out, words behind it left as they are
 *   1 to 4, 10   nothing but the details
 *   any other    layout and sizes keep the records of the steps before the one
 *                that failed; nothing is undone, and out is left as it is
 */
uint32_t bokwingi_check_stage(const uint32_t *pack, size_t pack_len,
                              uint32_t *layout, size_t layout_len,
                              uint32_t *sizes, size_t sizes_len,
                              const uint32_t *inputs, size_t inputs_len,
                              uint32_t *out, size_t out_len,
                              const uint8_t *name, size_t name_len,
                              uint32_t stage, uint32_t topology, uint32_t mode,
                              uint32_t dual_source, uint32_t depth,
                              uint32_t *details, size_t details_len);

/*
 * Chooses the entry point of a stage where no name is given. 0, with its
 * position among all entry points of the pack, from 0, as the first detail;
 * or 1, 2, 3, 11, 12. Nothing but the details is written.
 */
uint32_t bokwingi_entry_point(const uint32_t *pack, size_t pack_len, uint32_t stage,
                              uint32_t *details, size_t details_len);

/* The type of a vertex format: 0 with its type word as the first detail, or 82. */
uint32_t bokwingi_vertex_format(uint32_t code, uint32_t *details, size_t details_len);

/* The type of a texture format: 0 with its type word as the first detail, or 80 or 82. */
uint32_t bokwingi_texture_format(uint32_t code, uint32_t *details, size_t details_len);

/*
 * Whether a texture format is covered by the type, a type word, that a shader
 * puts out: 0, or 82, 80, 81 with the format's type word as the first detail.
 */
uint32_t bokwingi_check_texture_format(uint32_t format, uint32_t type,
                                       uint32_t *details, size_t details_len);

/*
 * Whether the first type fits into the second. 1 says yes and 0 says no: here
 * they are no numbers of the table, and 1 is no damaged pack. 82 where one of the
 * two is no type word.
 */
uint32_t bokwingi_is_subtype_of(uint32_t a, uint32_t b);

/*
 * The varyings that a declared type gives, as the inputs and outputs of an entry
 * point have them. A struct gives those of its members, in order, whatever its own
 * binding. A scalar, vector or matrix gives a variable where it has a location, the
 * built-in where it has one, and nothing without a binding. An array with clip
 * distances gives clip distances of its length; any other array gives nothing.
 *
 *   types        the type list, at most 1,024 words with its free room
 *   asked        the number of the asked type in that list, from 0
 *   binding      the words of the asked type's binding and no other: the word
 *                BOKWINGI_NO_BINDING where it has none
 *   out          room for the varyings, any length
 *   details      room for the details, any length
 *
 * What is written:
 *   0            the varyings' words from the start of out, one varying behind
 *                the other, two words for a variable and one for a built-in;
 *                words behind them are left as they are. The first detail is
 *                the count of varyings
 *   any other    nothing but the details
 *
 * The refusals are 90, 91, 92 and 4, tried in this order. Clip distances on a
 * scalar, vector or matrix, or on an array that is not of 1 to 255 f32, are 90
 * wherever the list has them. 91 counts the asked struct, and structs in arrays.
 */
uint32_t bokwingi_populate(const uint32_t *types, size_t types_len, uint32_t asked,
                           const uint32_t *binding, size_t binding_len,
                           uint32_t *out, size_t out_len,
                           uint32_t *details, size_t details_len);

#ifdef __cplusplus
}
#endif

#endif
