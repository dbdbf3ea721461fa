/*
 * The header against the library. Each call is made with arguments that all differ, given by their names and passed in the order in
 * which the header names them; its number and every lent element are compared with what is known of it beforehand. Then the
 * arguments of one kind are put in every other order, and each must end otherwise: so a header that exchanged two names would be seen.
 * Then refusals, and the sizes.
 *
 * Each word of the command line is a prototype of the header: its name and those of its parameters (bindings/c/run writes them).
 *
 * What is known is worked out beside each call, from document 01's formats and four rooms of one or two voxels.
 */
#include "rooms.h"
#include "rooms.h" /* twice does no harm */

#include <inttypes.h>
#include <math.h>
#include <stdarg.h>
#include <stdbool.h>
#include <stdio.h>
#include <stdlib.h>
#include <string.h>

/* ---- the prototypes once more, from the exports of crates/rooms_c: a compiler takes both only where they have the same types ---- */

uint32_t rooms_new(uint32_t *, size_t, uint32_t);
uint32_t rooms_add(uint32_t *, size_t, const uint8_t *, size_t, uint32_t *);
uint32_t rooms_voxel(const uint32_t *, size_t, uint32_t, uint32_t, uint32_t, uint32_t, uint32_t *, uint32_t *);
uint32_t rooms_sight(const uint32_t *, size_t, uint32_t, uint32_t, uint32_t, uint32_t, uint32_t, uint32_t, uint32_t, uint32_t *, uint32_t *, uint32_t *, uint32_t *);
uint32_t rooms_cell(const uint32_t *, size_t, uint32_t, uint32_t, uint32_t, uint32_t, uint32_t, uint32_t *);
uint32_t rooms_box(const uint32_t *, size_t, uint32_t, uint32_t, uint32_t, uint32_t, uint32_t, uint32_t, uint32_t, uint64_t *);
uint32_t rooms_any(const uint32_t *, size_t, uint32_t, uint32_t, uint32_t, uint32_t, uint32_t, uint32_t, uint32_t, uint32_t *, uint64_t *);
uint32_t rooms_kept(const uint32_t *, size_t, uint32_t, uint32_t *);
uint32_t rooms_outline(const uint32_t *, size_t, uint32_t, uint8_t *, size_t, uint32_t *);
uint32_t rooms_pack(const uint32_t *, size_t, uint32_t, uint32_t *, size_t, uint8_t *, size_t, uint32_t *);
uint32_t rooms_headset_pack(const uint32_t *, size_t, uint32_t, uint32_t *, size_t, uint8_t *, size_t, uint32_t *);
uint32_t rooms_check(const uint8_t *, size_t, uint8_t *, size_t, uint32_t *);
uint32_t rooms_headset_check(const uint8_t *, size_t, uint8_t *, size_t, uint32_t *);
uint32_t rooms_packed_voxel(const uint8_t *, size_t, uint32_t, uint32_t, uint32_t, uint32_t *, uint32_t *, uint32_t *);
uint32_t rooms_open(const uint8_t *, size_t, uint32_t *, size_t);
uint32_t rooms_ask(const uint8_t *, size_t, const uint32_t *, size_t, uint32_t, uint32_t, uint32_t, uint32_t *, uint32_t *, uint32_t *);
uint32_t rooms_detail(uint32_t, uint32_t, double, double, uint32_t *);

/* ---- arguments and the memory they point to ---- */

enum kind { WHOLE, REAL, WORDS, BYTES, WIDE, KINDS };

static const char *const kind_names[KINDS] = {"numbers", "doubles", "pointers to words", "pointers to bytes", "pointers to counts"};

struct argument {
    const char *name;
    enum kind kind;
    size_t whole;
    double real;
    uint32_t *words;
    uint8_t *bytes;
    uint64_t *wide;
};

/* Elements of each memory. No number given is greater, so that any pointer may be lent with any of them as its length. */
#define SIZE 5300

#define SLICES 5 /* of words */
#define MOST 13  /* arguments of a call */

struct memory {
    uint32_t words[SLICES][SIZE];
    uint8_t bytes[2][SIZE];
    uint64_t wide[2];
};

static struct memory lent;   /* what the calls see */
static struct memory before; /* what it holds before a call */
static struct memory after;  /* and must hold afterwards */

static struct argument whole(const char *name, size_t value)
{
    return (struct argument){.name = name, .kind = WHOLE, .whole = value};
}

static struct argument real(const char *name, double value)
{
    return (struct argument){.name = name, .kind = REAL, .real = value};
}

static struct argument words(const char *name, size_t i)
{
    return (struct argument){.name = name, .kind = WORDS, .words = lent.words[i]};
}

static struct argument bytes(const char *name, size_t i)
{
    return (struct argument){.name = name, .kind = BYTES, .bytes = lent.bytes[i]};
}

static struct argument wide(const char *name)
{
    return (struct argument){.name = name, .kind = WIDE, .wide = lent.wide};
}

/* ---- the calls ---- */

#define U32(i) ((uint32_t)a[i].whole)

static uint32_t call_new(const struct argument *a)
{
    return rooms_new(a[0].words, a[1].whole, U32(2));
}

static uint32_t call_add(const struct argument *a)
{
    return rooms_add(a[0].words, a[1].whole, a[2].bytes, a[3].whole, a[4].words);
}

static uint32_t call_voxel(const struct argument *a)
{
    return rooms_voxel(a[0].words, a[1].whole, U32(2), U32(3), U32(4), U32(5), a[6].words, a[7].words);
}

static uint32_t call_sight(const struct argument *a)
{
    return rooms_sight(a[0].words, a[1].whole, U32(2), U32(3), U32(4), U32(5), U32(6), U32(7), U32(8), a[9].words, a[10].words, a[11].words, a[12].words);
}

static uint32_t call_cell(const struct argument *a)
{
    return rooms_cell(a[0].words, a[1].whole, U32(2), U32(3), U32(4), U32(5), U32(6), a[7].words);
}

static uint32_t call_box(const struct argument *a)
{
    return rooms_box(a[0].words, a[1].whole, U32(2), U32(3), U32(4), U32(5), U32(6), U32(7), U32(8), a[9].wide);
}

static uint32_t call_any(const struct argument *a)
{
    return rooms_any(a[0].words, a[1].whole, U32(2), U32(3), U32(4), U32(5), U32(6), U32(7), U32(8), a[9].words, a[10].wide);
}

static uint32_t call_kept(const struct argument *a)
{
    return rooms_kept(a[0].words, a[1].whole, U32(2), a[3].words);
}

static uint32_t call_outline(const struct argument *a)
{
    return rooms_outline(a[0].words, a[1].whole, U32(2), a[3].bytes, a[4].whole, a[5].words);
}

static uint32_t call_pack(const struct argument *a)
{
    return rooms_pack(a[0].words, a[1].whole, U32(2), a[3].words, a[4].whole, a[5].bytes, a[6].whole, a[7].words);
}

static uint32_t call_headset_pack(const struct argument *a)
{
    return rooms_headset_pack(a[0].words, a[1].whole, U32(2), a[3].words, a[4].whole, a[5].bytes, a[6].whole, a[7].words);
}

static uint32_t call_check(const struct argument *a)
{
    return rooms_check(a[0].bytes, a[1].whole, a[2].bytes, a[3].whole, a[4].words);
}

static uint32_t call_headset_check(const struct argument *a)
{
    return rooms_headset_check(a[0].bytes, a[1].whole, a[2].bytes, a[3].whole, a[4].words);
}

static uint32_t call_packed_voxel(const struct argument *a)
{
    return rooms_packed_voxel(a[0].bytes, a[1].whole, U32(2), U32(3), U32(4), a[5].words, a[6].words, a[7].words);
}

static uint32_t call_open(const struct argument *a)
{
    return rooms_open(a[0].bytes, a[1].whole, a[2].words, a[3].whole);
}

static uint32_t call_ask(const struct argument *a)
{
    return rooms_ask(a[0].bytes, a[1].whole, a[2].words, a[3].whole, U32(4), U32(5), U32(6), a[7].words, a[8].words, a[9].words);
}

static uint32_t call_detail(const struct argument *a)
{
    return rooms_detail(U32(0), U32(1), a[2].real, a[3].real, a[4].words);
}

/* ---- one trial: a call, its arguments, and how it must end ---- */

static char **prototypes; /* the words of the command line */

static const char *called;
static uint32_t (*call)(const struct argument *);
static struct argument given[MOST]; /* in the header's order */
static size_t count;              /* of arguments */
static size_t outs;               /* how many of them, from the last back, are out parameters */

static unsigned long passed, failed;

static void judge(bool holds, const char *what, uint32_t got, uint32_t due)
{
    if (holds) {
        passed++;
        return;
    }
    failed++;
    printf("FAILED: %s, %s: ", called, what);
    if (got == due) {
        printf("lent memory holds something else than it must\n");
    } else {
        printf("%" PRIu32 ", due %" PRIu32 "\n", got, due);
    }
}

/* Ends the check where a call can't be made. */
static void stop(const char *why, const char *parameter)
{
    printf("FAILED: %s, %s: %s\n%lu passed, %lu failed\n", called, parameter, why, passed, failed + 1);
    exit(1);
}

/* Whether a call on these arguments answers this number and leaves memory as it must be. */
static bool ends(const struct argument *a, uint32_t number, uint32_t *got)
{
    memcpy(&lent, &before, sizeof lent);
    *got = call(a);
    return *got == number && memcmp(&lent, &after, sizeof lent) == 0;
}

/* Begins the trials of a call: memory that is never blank, no two elements beside each other alike. */
static void begin(const char *name, uint32_t (*make)(const struct argument *))
{
    called = name;
    call = make;
    for (size_t i = 0; i < SIZE; i++) {
        for (size_t k = 0; k < SLICES; k++) {
            before.words[k][i] = (uint32_t)(2654435761u * i + 12345 + k);
        }
        for (size_t k = 0; k < 2; k++) {
            before.bytes[k][i] = (uint8_t)(7 * i + 3 + k);
        }
    }
    before.wide[0] = UINT64_C(0x9E3779B97F4A7C15);
    before.wide[1] = UINT64_C(0x3C6EF372FE94F82A);
}

/* The place of a parameter among those of the call's prototype in the header; as many as there are where it has none of that name. */
static size_t place_of(const char *name)
{
    size_t length = strlen(called), wanted = strlen(name), place = 0;
    for (char **word = prototypes; *word != NULL; word++) {
        if (strncmp(*word, called, length) != 0 || (*word)[length] != ' ') {
            continue;
        }
        for (const char *at = *word + length; *at == ' '; place++) {
            size_t size = strcspn(++at, " ");
            if (size == wanted && strncmp(at, name, size) == 0) {
                return place;
            }
            at += size;
        }
    }
    return count;
}

/* Gives the call its arguments: so many, in the order of their types, the last `out` of which are out parameters. Each goes where the
   header has its name. */
static void give(size_t out, size_t many, ...)
{
    enum kind kinds[MOST];
    va_list list;
    count = many;
    outs = out;
    va_start(list, many);
    for (size_t i = 0; i < many; i++) {
        struct argument argument = va_arg(list, struct argument);
        size_t place = place_of(argument.name);
        if (place >= many) {
            stop("the header has no such parameter", argument.name);
        }
        kinds[i] = argument.kind;
        given[place] = argument;
    }
    va_end(list);
    for (size_t i = 0; i < many; i++) {
        if (given[i].kind != kinds[i]) {
            stop("the header has this parameter where its type doesn't fit", given[i].name);
        }
    }
    memcpy(&after, &before, sizeof after);
}

/* Changes one argument. */
static void change(struct argument other)
{
    given[place_of(other.name)] = other;
}

/* The call is accepted, and memory is then as `after` says. */
static void accepted(const char *what)
{
    uint32_t got;
    bool holds = ends(given, ROOMS_OK, &got);
    judge(holds, what, got, ROOMS_OK);
}

/* What an out parameter of one word must hold. */
static uint32_t *value_of(const struct argument *out)
{
    return after.words[(out->words - lent.words[0]) / SIZE];
}

/* `after` of a refusal: out parameters are zero, all else is as before. */
static void refusing(void)
{
    memcpy(&after, &before, sizeof after);
    for (size_t i = count - outs; i < count; i++) {
        if (given[i].kind == WIDE) {
            after.wide[0] = 0;
        } else {
            *value_of(&given[i]) = 0;
        }
    }
}

/* The call is refused with one argument changed; `cleared` bytes of lent.bytes[1] are then zero, `blank` words of lent.words[2]. */
static void refused_scratch(struct argument other, uint32_t number, size_t cleared, size_t blank)
{
    struct argument kept = given[place_of(other.name)];
    uint32_t got;
    refusing();
    memset(after.bytes[1], 0, cleared);
    memset(after.words[2], 0, blank * sizeof(uint32_t));
    change(other);
    bool holds = ends(given, number, &got);
    change(kept);
    judge(holds, other.name, got, number);
}

static void refused(struct argument other, uint32_t number)
{
    refused_scratch(other, number, 0, 0);
}

/* The call is refused as it stands. */
static void refused_so(uint32_t number)
{
    refused(given[0], number);
}

/* The call is refused with one byte of the file changed. */
static void refused_byte(size_t place, uint8_t value, uint32_t number, size_t cleared)
{
    uint8_t kept = before.bytes[0][place];
    before.bytes[0][place] = value;
    refused_scratch(given[0], number, cleared, 0);
    before.bytes[0][place] = kept;
}

/* The call is refused with one word of lent.words[0] changed. */
static void refused_word(size_t place, uint32_t value, uint32_t number)
{
    uint32_t kept = before.words[0][place];
    before.words[0][place] = value;
    refused_so(number);
    before.words[0][place] = kept;
}

/* ---- every other order of the arguments of one kind ---- */

static unsigned long tried, alike;

/* Tries each order of the arguments at places[from] on; `moved` says whether one stands elsewhere already. */
static void reorder(struct argument *a, const size_t *places, size_t many, size_t from, bool moved)
{
    if (from == many) {
        uint32_t got;
        tried += moved;
        alike += moved && ends(a, ROOMS_OK, &got);
        return;
    }
    for (size_t i = from; i < many; i++) {
        struct argument first = a[places[from]];
        a[places[from]] = a[places[i]];
        a[places[i]] = first;
        reorder(a, places, many, from + 1, moved || i != from);
        a[places[i]] = a[places[from]];
        a[places[from]] = first;
    }
}

static bool same(const struct argument *a, const struct argument *b)
{
    return a->whole == b->whole && a->real == b->real && a->words == b->words && a->bytes == b->bytes && a->wide == b->wide;
}

/* No two arguments of a kind are the same, and the accepted call answers otherwise with them in any other order. */
static void orders(void)
{
    printf("%-18s", called);
    for (enum kind kind = WHOLE; kind < KINDS; kind++) {
        struct argument a[MOST];
        size_t places[MOST], many = 0;
        bool differ = true;
        memcpy(a, given, sizeof a);
        for (size_t i = 0; i < count; i++) {
            if (given[i].kind != kind) {
                continue;
            }
            for (size_t k = 0; k < many; k++) {
                differ = differ && !same(&given[i], &given[places[k]]);
            }
            differ = differ && given[i].whole <= SIZE;
            places[many++] = i;
        }
        if (many < 2) {
            continue;
        }
        tried = alike = 0;
        reorder(a, places, many, 0, false);
        judge(differ && alike == 0, kind_names[kind], (uint32_t)alike + !differ, 0);
        printf("  %zu %s, %lu other orders, %lu with the same end", many, kind_names[kind], tried, alike);
    }
    printf("\n");
}

/* ---- four rooms ---- */

#define CAPACITY 8
#define STORE ROOMS_STORE_WORDS(CAPACITY)

/* The words before its chains: header, scenes, leaves and cells. */
#define LISTS (160 + 142 * CAPACITY)

/* Document 01's first sample: depth 3, voxels (0, 0, 0) and (7, 0, 0). Its two leaves are mirror images in x. */
static const uint8_t sample[] = {
    0x11, 0, 0, 0, 23, 3,   /* version, length, depth */
    0x03,                   /* children 0 and 1 */
    0, 0, 0, 0, 0, 0, 0, 1, /* bit 0: (0, 0, 0) */
    0, 0, 0, 0, 0, 0, 0, 8, /* bit 3: (3, 0, 0) */
};

/* S1: what that room packs to. */
static const uint8_t sample_packed[] = {
    0x22, 0, 0, 0, 29, 3, 0,            /* version, length, depth, the root's mirror */
    0, 0, 0, 3, 0, 0, 0, 1,             /* three half-words at height 3, one leaf */
    0x00, 0x05, 0x00, 0x00, 0x20, 0x00, /* children 0 and 1 short; leaf 0, and leaf 0 mirrored in x */
    0, 0, 0, 0, 0, 0, 0, 1,
};

/* One voxel, (13, 18, 23), at depth 5: 13 = 01101, 18 = 10010, 23 = 10111 in binary, so from the root its half is
   x 0, y 1, z 1 (child 6), then 1, 0, 0 (child 1), then 1, 0, 1 (child 5); in the leaf it is (1, 2, 3), bit 1 + 8 + 48 = 57. */
static const uint8_t single[] = {
    0x11, 0, 0, 0, 17, 5, 1 << 6, 1 << 1, 1 << 5, 0x02, 0, 0, 0, 0, 0, 0, 0,
};

/* The same room packed. A record of one child is a header, code 1 in bits 2i and 2i+1 for child i, and a pointer to place 0. */
static const uint8_t single_packed[] = {
    0x22, 0, 0, 0, 43, 5, 0,                        /* version, length, depth, the root's mirror */
    0, 0, 0, 2, 0, 0, 0, 2, 0, 0, 0, 2, 0, 0, 0, 1, /* two half-words at heights 5, 4 and 3, one leaf */
    0x10, 0x00, 0, 0,                               /* byte 23, height 5: child 6 */
    0x00, 0x04, 0, 0,                               /* byte 27, height 4: child 1 */
    0x04, 0x00, 0, 0,                               /* byte 31, height 3: child 5 */
    0x02, 0, 0, 0, 0, 0, 0, 0,                      /* byte 35, the leaf */
};

/* Two voxels, (2, 3, 4) and (8, 10, 12), at depth 4: children 0 and 7, each with a child 4, a leaf; bit 2 + 12 = 14 and bit 8. */
static const uint8_t pair[] = {
    0x11, 0, 0, 0, 25, 4, 0x81, 0x10, 0, 0, 0, 0, 0, 0, 0x40, 0, 0x10, 0, 0, 0, 0, 0, 0, 0x01, 0,
};

/* Two voxels, (10, 11, 13) and (18, 17, 15), at depth 5, in one row with (2, 5, 11) and (26, 23, 17). In binary they are 01010, 01011, 01101
   and 10010, 10001, 01111: children 0, 7 and 4, then (2, 3, 1) of the leaf, bit 2 + 12 + 16 = 30; children 3, 4 and 4, then (2, 1, 3),
   bit 2 + 4 + 48 = 54. */
static const uint8_t row[] = {
    0x11, 0, 0, 0, 27, 5, 0x09, 0x80, 0x10, 0, 0, 0, 0, 0x40, 0, 0, 0, 0x10, 0x10, 0, 0x40, 0, 0, 0, 0, 0, 0,
};

/* S9: a room that keeps two leaves. */
static const uint8_t two_leaves[] = {
    0x11, 0, 0, 0, 23, 3, 0x03, 0, 0, 0, 0, 0, 0, 0x80, 0x01, 0, 0, 0, 0, 0, 0, 0, 1,
};

/* S12: an empty scene. */
static const uint8_t nothing[] = {0x11, 0, 0, 0, 6, 2};

static const uint8_t nothing_packed[] = {0x22, 0, 0, 0, 7, 2, 8};

/* Empty scenes too deep for the headset. */
static const uint8_t deep[] = {0x11, 0, 0, 0, 6, ROOMS_HEADSET_DEPTH + 1};

static const uint8_t deep_packed[] = {0x22, 0, 0, 0, 7, ROOMS_HEADSET_DEPTH + 1, 8};

static void put_file(const uint8_t *file, size_t length)
{
    memcpy(before.bytes[0], file, length);
}

/* A store of this capacity that holds one empty scene of depth 2, word by word. */
static void put_store_by_hand(uint32_t capacity)
{
    memset(before.words[0], 0, ROOMS_STORE_WORDS(capacity) * sizeof(uint32_t));
    before.words[0][0] = capacity;
    before.words[0][1] = 1;  /* scenes held */
    before.words[0][32] = 2; /* the first scene's depth; its root pointer is 0 */
}

/* The same, and this room as scene 1: what the trials of add show. */
static void put_store(const uint8_t *file, size_t length)
{
    uint32_t scene;
    put_store_by_hand(CAPACITY);
    if (rooms_add(before.words[0], STORE, file, length, &scene) != ROOMS_OK || scene != 1) {
        judge(false, "its store", scene, 1);
    }
}

/* Where the ten words of an inner cell are: eight pointers, then its solid count, high and low. */
static size_t cell_at(size_t height, size_t number)
{
    return 160 + 2 * CAPACITY + 10 * ((height - 3) * CAPACITY + number);
}

/* Where the head of a chain is, and the next word of a cell. */
static size_t head_at(size_t height, size_t chain)
{
    return LISTS + 256 * (height - 2) + chain;
}

static size_t next_at(size_t height, size_t number)
{
    return LISTS + 3840 + (height - 2) * CAPACITY + number;
}

/* Chains that no store of these calls has. */
static void put_noise_in_chains(void)
{
    for (size_t i = LISTS; i < STORE; i++) {
        before.words[0][i] = (uint32_t)(2654435761u * i + 1);
    }
}

/* A question answers the same where all chains are wrong: it doesn't look at them. */
static void accepted_without_chains(void)
{
    struct memory *kept = malloc(2 * sizeof *kept);
    if (kept == NULL) {
        stop("no memory", "chains");
    }
    kept[0] = before;
    kept[1] = after;
    put_noise_in_chains();
    memcpy(&after.words[0][LISTS], &before.words[0][LISTS], (STORE - LISTS) * sizeof(uint32_t));
    accepted("the same with noise in its chains");
    before = kept[0];
    after = kept[1];
    free(kept);
}

/* What a call that tests the whole store refuses of chains, on the store of `pair`. Its leaves 0 and 1 have one voxel each: chain 1, with both.
   Cells 0 and 1 of height 3 have a child each, leaf 0 and leaf 1: keys 0x9E3779B1 and twice that modulo 2^32, 0x3C6EF362.
   Cell 0 of height 4 has both of these: the sum, 0xDAA66D13. */
static void refused_chains(void)
{
    put_store(pair, sizeof pair);
    refused_word(head_at(2, 1), 0, ROOMS_DAMAGED_STORE);            /* a chain cut off */
    refused_word(head_at(2, 1), 2, ROOMS_DAMAGED_STORE);            /* without its first leaf */
    refused_word(head_at(2, 1), 3, ROOMS_DAMAGED_STORE);            /* beginning with a leaf that is not kept */
    refused_word(head_at(2, 1), UINT32_MAX, ROOMS_DAMAGED_STORE);
    refused_word(next_at(2, 0), 0, ROOMS_DAMAGED_STORE);            /* without its last leaf */
    refused_word(next_at(2, 0), 1, ROOMS_DAMAGED_STORE);            /* a ring */
    refused_word(next_at(2, 1), 1, ROOMS_DAMAGED_STORE);            /* a greater ring */
    refused_word(next_at(2, 1), 3, ROOMS_DAMAGED_STORE);            /* a leaf too many, not kept */
    refused_word(next_at(2, 2), 1, ROOMS_DAMAGED_STORE);            /* the next word of a leaf that is not kept */
    refused_word(next_at(2, CAPACITY - 1), 1, ROOMS_DAMAGED_STORE);
    refused_word(head_at(2, 0), 1, ROOMS_DAMAGED_STORE);            /* a leaf in another chain besides */
    refused_word(head_at(2, 2), 2, ROOMS_DAMAGED_STORE);
    refused_word(head_at(2, 255), 1, ROOMS_DAMAGED_STORE);          /* a chain that no leaf can be in */
    refused_word(head_at(3, 0x9E), 0, ROOMS_DAMAGED_STORE);
    refused_word(head_at(3, 0x9E), 2, ROOMS_DAMAGED_STORE);         /* the other cell */
    refused_word(head_at(3, 0x3C), 0, ROOMS_DAMAGED_STORE);
    refused_word(head_at(3, 0x3C), 1, ROOMS_DAMAGED_STORE);
    refused_word(next_at(3, 0), 2, ROOMS_DAMAGED_STORE);
    refused_word(head_at(4, 0xDA), 0, ROOMS_DAMAGED_STORE);
    refused_word(head_at(4, 0xDA), 1u << 29 | 1, ROOMS_DAMAGED_STORE); /* a pointer, not a number */
    refused_word(next_at(4, 0), 1, ROOMS_DAMAGED_STORE);
    refused_word(next_at(4, 1), 1, ROOMS_DAMAGED_STORE);
    refused_word(head_at(16, 255), 1, ROOMS_DAMAGED_STORE);         /* the last head, at a height that keeps nothing */
    refused_word(next_at(16, 0), 1, ROOMS_DAMAGED_STORE);
    /* the two leaves in falling order: right but for that */
    before.words[0][head_at(2, 1)] = 2;
    before.words[0][next_at(2, 0)] = 0;
    refused_word(next_at(2, 1), 1, ROOMS_DAMAGED_STORE);
    /* the two cells of height 3 in each other's chains */
    put_store(pair, sizeof pair);
    before.words[0][head_at(3, 0x9E)] = 2;
    refused_word(head_at(3, 0x3C), 1, ROOMS_DAMAGED_STORE);
}

/* What a call that tests the whole store of `sample` refuses besides: an unused word, a count that is not the sum of its children's. */
static void refused_whole(void)
{
    refused_word(LISTS - 1, 1, ROOMS_DAMAGED_STORE);
    refused_word(STORE - 1, 1, ROOMS_DAMAGED_STORE);
    refused_word(cell_at(3, 1) + 8, 1, ROOMS_DAMAGED_STORE); /* the count words of a cell that is not kept */
    refused_word(cell_at(3, 1) + 9, 1, ROOMS_DAMAGED_STORE);
    refused_word(cell_at(3, 0) + 8, 1, ROOMS_DAMAGED_STORE); /* 2^32 + 2, where 2 is due */
    refused_word(cell_at(3, 0) + 9, 1, ROOMS_DAMAGED_STORE);
    refused_word(cell_at(3, 0) + 9, 3, ROOMS_DAMAGED_STORE);
    /* the leaf has a voxel more, in chain 2, and the cell has it twice */
    before.words[0][head_at(2, 1)] = 0;
    before.words[0][head_at(2, 2)] = 1;
    refused_word(161, 3, ROOMS_DAMAGED_STORE);
    before.words[0][head_at(2, 1)] = 1;
    before.words[0][head_at(2, 2)] = 0;
}

/* What every call on a scene refuses: a short slice, a header out of range, a scene that is not there. */
static void refused_store(void)
{
    refused(whole("store_words", STORE - 1), ROOMS_DAMAGED_STORE);
    refused(whole("store_words", LISTS), ROOMS_DAMAGED_STORE); /* all but the chains */
    refused(whole("store_words", 0), ROOMS_DAMAGED_STORE);
    refused_word(17, 1, ROOMS_DAMAGED_STORE);
    refused(whole("scene", 2), ROOMS_NO_SCENE);
}

/* ---- the trials ---- */

static void try_new(void)
{
    begin("rooms_new", call_new);
    give(0, 3, words("store", 0), whole("store_words", STORE), whole("capacity", CAPACITY));
    memset(after.words[0], 0, STORE * sizeof(uint32_t));
    after.words[0][0] = CAPACITY;
    accepted("a new store");
    orders();
    refused(whole("store_words", STORE - 1), ROOMS_BAD_SIZE);
    refused(whole("store_words", LISTS), ROOMS_BAD_SIZE); /* all but the chains */
    refused(whole("capacity", CAPACITY + 1), ROOMS_BAD_SIZE);
    refused(whole("capacity", 0), ROOMS_BAD_SIZE);
}

/* The room of two voxels as scene 1: a chain of two leaves, and three of one cell each; `refused_chains` says why these. */
static void accepted_pair(void)
{
    struct argument kept = given[place_of("file_bytes")];
    put_store_by_hand(CAPACITY);
    put_file(pair, sizeof pair);
    change(whole("file_bytes", sizeof pair));
    memcpy(&after, &before, sizeof after);
    uint32_t *store = after.words[0];
    store[1] = 2;                   /* scenes held */
    store[2] = store[3] = 2;        /* leaves and cells of height 3 kept */
    store[4] = 1;                   /* cells of height 4 */
    store[34] = 4;                  /* scene 1: its depth */
    store[35] = 1;                  /* and its root */
    store[161] = 1 << 14;           /* the leaves */
    store[163] = 1 << 8;
    store[cell_at(3, 0) + 4] = 1;   /* cell 0 of height 3: child 4 is leaf 0; its solid count */
    store[cell_at(3, 0) + 9] = 1;
    store[cell_at(3, 1) + 4] = 2;
    store[cell_at(3, 1) + 9] = 1;
    store[cell_at(4, 0)] = 1;
    store[cell_at(4, 0) + 7] = 2;
    store[cell_at(4, 0) + 9] = 2;
    store[head_at(2, 1)] = 1;       /* leaf 0, and after it leaf 1 */
    store[next_at(2, 0)] = 2;
    store[head_at(3, 0x9E)] = 1;
    store[head_at(3, 0x3C)] = 2;
    store[head_at(4, 0xDA)] = 1;
    after.words[1][0] = 1;          /* *scene */
    accepted("the pair as scene 1");
    change(kept);
    put_file(sample, sizeof sample);
}

static void try_add(void)
{
    begin("rooms_add", call_add);
    put_store_by_hand(CAPACITY);
    put_file(sample, sizeof sample);
    give(1, 5, words("store", 0), whole("store_words", STORE), bytes("file", 0), whole("file_bytes", sizeof sample), words("scene", 1));
    after.words[0][1] = 2;                              /* scenes held */
    after.words[0][2] = 1;                              /* leaves kept: the second is the first one's image */
    after.words[0][3] = 1;                              /* cells of height 3 */
    after.words[0][34] = 3;                             /* scene 1: its depth */
    after.words[0][35] = 1;                             /* and its root, cell 0 */
    after.words[0][161] = 1;                            /* leaf 0, its low word */
    after.words[0][160 + 2 * CAPACITY] = 1;             /* the cell: child 0 is leaf 0 */
    after.words[0][160 + 2 * CAPACITY + 1] = 0x20000001; /* child 1 is leaf 0 mirrored in x */
    after.words[0][160 + 2 * CAPACITY + 9] = 2;         /* its solid count, the low word */
    after.words[0][head_at(2, 1)] = 1;                  /* leaf 0 has one voxel: chain 1 */
    after.words[0][head_at(3, 0x3C)] = 1;               /* cell 0 has the key 2 times 2,654,435,761, modulo 2^32: 0x3C6EF362 */
    after.words[1][0] = 1;                              /* *scene */
    accepted("the sample as scene 1");
    orders();
    refused(whole("store_words", STORE - 1), ROOMS_DAMAGED_STORE);
    refused(whole("store_words", LISTS), ROOMS_DAMAGED_STORE); /* all but the chains */
    refused_word(17, 1, ROOMS_DAMAGED_STORE);
    refused(whole("file_bytes", 0), ROOMS_BAD_VERSION);
    refused_byte(0, 0x22, ROOMS_BAD_VERSION, 0);
    refused(whole("file_bytes", sizeof sample - 1), ROOMS_BAD_LENGTH);
    refused_byte(5, 17, ROOMS_BAD_DEPTH, 0);
    refused_byte(6, 0, ROOMS_BROKEN_RULES, 0);
    put_store(sample, sizeof sample);
    refused_whole();
    refused_chains();
    accepted_pair();
    put_store_by_hand(CAPACITY);
    for (size_t i = 0; i < ROOMS_MAX_SCENES; i++) {
        before.words[0][32 + 2 * i] = 2;
    }
    before.words[0][1] = ROOMS_MAX_SCENES;
    refused_so(ROOMS_SCENES_FULL);
    put_store_by_hand(1);
    put_file(two_leaves, sizeof two_leaves);
    refused_so(ROOMS_CELLS_FULL);
}

/* The voxel asked for is empty: the height of the empty cell that holds it, and how many records that took, where the call says so. */
static void empty(uint32_t height, uint32_t records, const char *what)
{
    refusing(); /* all values are zero, but these two */
    *value_of(&given[place_of("height")]) = height;
    if (place_of("records") < count) {
        *value_of(&given[place_of("records")]) = records;
    }
    accepted(what);
}

/* Voxels of the room of one voxel that differ from it in x alone: 13 = 01101, and 12 = 01100, 11 = 01011, 5 = 00101, 20 = 10100. */
static void empty_around(void)
{
    change(whole("x", 12));
    empty(0, 4, "the voxel beside it, in its leaf");
    change(whole("x", 11));
    empty(2, 3, "another leaf, in its cell of height 3");
    change(whole("x", 5));
    empty(3, 2, "another cell of height 3, in its cell of height 4");
    change(whole("x", 20));
    empty(4, 1, "another cell of height 4");
}

static void try_voxel(void)
{
    begin("rooms_voxel", call_voxel);
    put_store(single, sizeof single);
    give(2, 8, words("store", 0), whole("store_words", STORE), whole("scene", 1), whole("x", 13), whole("y", 18), whole("z", 23), words("solid", 1), words("height", 2));
    after.words[1][0] = 1; /* solid, and no other point is; no scene has a higher number */
    after.words[2][0] = 0; /* the height of a solid voxel */
    accepted("the one voxel");
    accepted_without_chains();
    orders();
    refused_store();
    refused(whole("x", 32), ROOMS_OUTSIDE);
    refused(whole("y", 32), ROOMS_OUTSIDE);
    refused(whole("z", 32), ROOMS_OUTSIDE);
    refused_word(34, 17, ROOMS_DAMAGED_STORE); /* the scene's depth */
    refused_word(35, 2, ROOMS_DAMAGED_STORE);  /* its root, a cell that is not kept */
    empty_around();
    change(whole("scene", 0));
    change(whole("x", 3));
    change(whole("y", 2));
    change(whole("z", 1));
    empty(2, 0, "the empty scene, of depth 2");
}

/* The sight line's ends. */
static void ends_at(uint32_t from_x, uint32_t from_y, uint32_t from_z, uint32_t to_x, uint32_t to_y, uint32_t to_z)
{
    change(whole("from_x", from_x));
    change(whole("from_y", from_y));
    change(whole("from_z", from_z));
    change(whole("to_x", to_x));
    change(whole("to_y", to_y));
    change(whole("to_z", to_z));
}

/* The line is blocked at this voxel; or, all four 0, it is clear. */
static void seen(uint32_t blocked, uint32_t x, uint32_t y, uint32_t z, const char *what)
{
    memcpy(&after, &before, sizeof after);
    after.words[1][0] = blocked;
    after.words[2][0] = x;
    after.words[3][0] = y;
    after.words[4][0] = z;
    accepted(what);
}

static void try_sight(void)
{
    const size_t root = cell_at(5, 0);
    static const char *const ends[] = {"from_x", "from_y", "from_z", "to_x", "to_y", "to_z"};
    begin("rooms_sight", call_sight);
    put_store(row, sizeof row);
    give(4, 13, words("store", 0), whole("store_words", STORE), whole("scene", 1), whole("from_x", 2), whole("from_y", 5), whole("from_z", 11), whole("to_x", 26), whole("to_y", 23), whole("to_z", 17), words("blocked", 1), words("x", 2), words("y", 3), words("z", 4));
    seen(1, 10, 11, 13, "from the one end of the row: the first voxel");
    accepted_without_chains();
    orders();
    refused_store();
    for (size_t i = 0; i < 6; i++) {
        refused(whole(ends[i], 32), ROOMS_OUTSIDE);
    }
    refused_word(34, 17, ROOMS_DAMAGED_STORE);       /* the scene's depth */
    refused_word(35, 2, ROOMS_DAMAGED_STORE);        /* its root, a cell that is not kept */
    refused_word(root + 6, 9, ROOMS_DAMAGED_STORE);  /* a child that is not kept, of a cell that is entered */
    ends_at(26, 23, 17, 2, 5, 11);
    seen(1, 18, 17, 15, "from the other end: the second");
    ends_at(10, 11, 13, 26, 23, 17);
    seen(1, 18, 17, 15, "from the first on: the end is left out");
    ends_at(10, 11, 13, 18, 17, 15);
    seen(0, 0, 0, 0, "from the first to the second: both ends are left out");
    ends_at(8, 10, 13, 12, 14, 13);
    seen(0, 0, 0, 0, "an edge of the first is touched");
    ends_at(7, 9, 11, 12, 14, 16);
    seen(0, 0, 0, 0, "a corner of the first is touched");
    ends_at(10, 11, 13, 10, 11, 13);
    seen(0, 0, 0, 0, "the same voxel at both ends");
    before.words[0][root + 6] = 9;
    seen(0, 0, 0, 0, "the same, and no cell is entered");
    ends_at(10, 11, 13, 11, 10, 14);
    seen(0, 0, 0, 0, "ends that touch, and no cell is entered");
    change(whole("scene", 0));
    ends_at(0, 0, 0, 3, 2, 1);
    seen(0, 0, 0, 0, "the empty scene, of depth 2");
}

static void try_cell(void)
{
    begin("rooms_cell", call_cell);
    put_store(single, sizeof single);
    give(1, 8, words("store", 0), whole("store_words", STORE), whole("scene", 1), whole("height", 2), whole("x", 3), whole("y", 4), whole("z", 5), words("full", 1));
    after.words[1][0] = 1; /* the leaf of (13, 18, 23) is that of (3, 4, 5) * 4, and the only one */
    accepted("the one leaf");
    accepted_without_chains();
    orders();
    refused_store();
    refused(whole("height", 6), ROOMS_OUTSIDE);
    refused(whole("x", 8), ROOMS_OUTSIDE);
    refused(whole("y", 8), ROOMS_OUTSIDE);
    refused(whole("z", 8), ROOMS_OUTSIDE);
}

/* The box's corners. */
static void corners_at(uint32_t low_x, uint32_t low_y, uint32_t low_z, uint32_t high_x, uint32_t high_y, uint32_t high_z)
{
    change(whole("low_x", low_x));
    change(whole("low_y", low_y));
    change(whole("low_z", low_z));
    change(whole("high_x", high_x));
    change(whole("high_y", high_y));
    change(whole("high_z", high_z));
}

/* The box has so many solid voxels. */
static void counted(uint64_t solid, const char *what)
{
    memcpy(&after, &before, sizeof after);
    after.wide[0] = solid;
    accepted(what);
}

/* Counts kept in the store of `pair`: the root's, cell 0 of height 4, and that of its child 0, cell 0 of height 3. */
static void try_counts(void)
{
    uint32_t *root = before.words[0] + cell_at(4, 0), *child = before.words[0] + cell_at(3, 0);
    corners_at(0, 0, 0, 16, 16, 16);
    counted(2, "the whole room");
    root[7] = 9;
    counted(2, "the same with a bad pointer in the root, which is not entered");
    corners_at(0, 0, 0, 15, 16, 16);
    refused_so(ROOMS_DAMAGED_STORE);
    root[7] = 2;
    counted(2, "all but the last voxels along x");
    root[9] = 4096;
    counted(2, "the same, and the count of a cell entered is not looked at");
    corners_at(0, 0, 0, 16, 16, 16);
    counted(4096, "the most that a cell of height 4 can have");
    root[9] = 4097;
    refused_so(ROOMS_DAMAGED_STORE);
    root[8] = 1;
    root[9] = 2;
    refused_so(ROOMS_DAMAGED_STORE); /* 2^32 + 2 */
    root[8] = 0;
    corners_at(0, 0, 0, 8, 8, 8);
    counted(1, "the root's child 0");
    child[9] = 512;
    counted(512, "the most that a cell of height 3 can have");
    corners_at(0, 0, 0, 9, 11, 13);
    counted(513, "that count, and the other voxel");
    child[9] = 513;
    refused_so(ROOMS_DAMAGED_STORE);
    corners_at(0, 0, 0, 8, 8, 7);
    counted(1, "the child is entered, and its leaf read");
    corners_at(0, 0, 4, 4, 4, 8);
    counted(1, "that leaf, wholly inside");
}

static void try_box(void)
{
    begin("rooms_box", call_box);
    put_store(pair, sizeof pair);
    /* The smallest box with both voxels. The lows are the three least of its six numbers, so no other order of the six has both. */
    give(1, 10, words("store", 0), whole("store_words", STORE), whole("scene", 1), whole("low_x", 2), whole("low_y", 3), whole("low_z", 4), whole("high_x", 9), whole("high_y", 11), whole("high_z", 13), wide("count"));
    after.wide[0] = 2;
    accepted("a box with both voxels");
    accepted_without_chains();
    orders();
    refused_store();
    static const char *const lows[] = {"low_x", "low_y", "low_z"}, *const highs[] = {"high_x", "high_y", "high_z"};
    static const size_t low[] = {2, 3, 4}, high[] = {9, 11, 13};
    for (size_t axis = 0; axis < 3; axis++) {
        refused(whole(lows[axis], high[axis] + 1), ROOMS_OUTSIDE);
        refused(whole(highs[axis], 17), ROOMS_OUTSIDE);
        change(whole(lows[axis], low[axis] + 1));
        memcpy(&after, &before, sizeof after);
        after.wide[0] = 1;
        accepted("a box without the first voxel");
        change(whole(lows[axis], high[axis]));
        after.wide[0] = 0;
        accepted("a box of no voxels");
        change(whole(lows[axis], low[axis]));
    }
    try_counts();
}

/* The box has something solid, or nothing, and so many cells were entered. */
static void found(uint32_t solid, uint64_t entered, const char *what)
{
    memcpy(&after, &before, sizeof after);
    after.words[1][0] = solid;
    after.wide[0] = entered;
    accepted(what);
}

/* Words changed in the store of `pair`: what is looked at, and what is not. Its root is cell 0 of height 4, with children 0 and 7, cells 0 and
   1 of height 3, each with a child 4, leaves 0 and 1. */
static void try_entered(void)
{
    uint32_t *root = before.words[0] + cell_at(4, 0), *first = before.words[0] + cell_at(3, 0), *second = before.words[0] + cell_at(3, 1);
    root[8] = UINT32_MAX;
    root[9] = first[9] = 0;
    corners_at(0, 0, 0, 16, 16, 16);
    found(1, 3, "wrong counts are not looked at");
    second[0] = 9;
    found(1, 3, "a bad pointer in a cell that would be entered after the answer");
    corners_at(3, 2, 4, 9, 11, 13);
    refused_so(ROOMS_DAMAGED_STORE);
    corners_at(3, 2, 4, 9, 11, 12);
    refused_so(ROOMS_DAMAGED_STORE); /* its cell is entered before it says that there is nothing */
    corners_at(8, 8, 12, 16, 16, 16);
    found(1, 3, "the same pointer, of a child beside the box");
    second[0] = 0;
    root[6] = 9;
    corners_at(0, 0, 0, 16, 16, 16);
    refused_so(ROOMS_DAMAGED_STORE); /* a later child's pointer is tested on entering its parent */
    corners_at(0, 0, 0, 16, 8, 16);
    found(1, 3, "the same pointer, of a child beside the box");
    corners_at(0, 0, 0, 16, 0, 16);
    found(0, 0, "the same in a box of no voxels, where no cell is entered");
    root[6] = 0;
    before.words[0][160] = before.words[0][161] = 0;
    corners_at(0, 0, 0, 16, 16, 16);
    found(1, 5, "the first leaf is zero: entered, and counted");
    second[4] = 0;
    found(0, 4, "the second cell has no child: entered, and counted");
}

static void try_any(void)
{
    static const char *const lows[] = {"low_x", "low_y", "low_z"}, *const highs[] = {"high_x", "high_y", "high_z"};
    static const size_t low[] = {3, 2, 4}, high[] = {9, 11, 13};
    static const uint64_t neither[] = {3, 5, 4}; /* below 8 along x there is nothing of child 7, below 12 along z nothing of its leaf */
    begin("rooms_any", call_any);
    put_store(pair, sizeof pair);
    /* Five cells: the root, child 0, its leaf, which has (2, 3, 4), not in the box, child 7, and its leaf, which has (8, 10, 12). A box with the
       second voxel has these highs in this order. Of the lows only 4 can be that of z, or the first leaf has no voxel in the box and four
       cells are entered; with lows of 2, 3 and 4 it has the first voxel, after three. */
    give(2, 11, words("store", 0), whole("store_words", STORE), whole("scene", 1), whole("low_x", 3), whole("low_y", 2), whole("low_z", 4), whole("high_x", 9), whole("high_y", 11), whole("high_z", 13), words("solid", 1), wide("entered"));
    found(1, 5, "a box with the second voxel, past the first");
    accepted_without_chains();
    orders();
    refused_store();
    refused_word(34, 17, ROOMS_DAMAGED_STORE); /* the scene's depth */
    refused_word(35, 2, ROOMS_DAMAGED_STORE);  /* its root, a cell that is not kept */
    for (size_t axis = 0; axis < 3; axis++) {
        refused(whole(lows[axis], high[axis] + 1), ROOMS_OUTSIDE);
        refused(whole(highs[axis], 17), ROOMS_OUTSIDE);
        change(whole(highs[axis], high[axis] - 1));
        found(0, neither[axis], "a box with neither voxel");
        change(whole(highs[axis], high[axis]));
        change(whole(lows[axis], high[axis]));
        found(0, 0, "a box of no voxels");
        change(whole(lows[axis], low[axis]));
    }
    corners_at(2, 3, 4, 9, 11, 13);
    found(1, 3, "a box with both voxels");
    corners_at(0, 0, 0, 16, 16, 16);
    found(1, 3, "the whole room");
    corners_at(4, 4, 4, 16, 16, 16);
    found(1, 4, "the first leaf is beside the box");
    corners_at(0, 0, 0, 16, 16, 4);
    found(0, 2, "the root and child 0, and none of its leaves");
    corners_at(0, 0, 8, 8, 8, 16);
    found(0, 1, "the root, and none of its children");
    before.words[0][35] |= 7u << 29; /* the room mirrored in all axes: (7, 5, 3) in child 0, then (13, 12, 11) in child 7 */
    corners_at(0, 6, 0, 16, 16, 16);
    found(1, 5, "mirrored, and children by their numbers as the room shows them");
    before.words[0][35] &= ~(7u << 29);
    try_entered();
    change(whole("scene", 0));
    corners_at(0, 0, 0, 4, 3, 2);
    found(0, 0, "the empty scene, of depth 2");
}

static void try_kept(void)
{
    begin("rooms_kept", call_kept);
    put_store(pair, sizeof pair);
    give(1, 4, words("store", 0), whole("store_words", STORE), whole("height", 3), words("count", 1));
    after.words[1][0] = 2; /* its leaves differ from each other's images, and so do the two cells above them */
    accepted("height 3");
    accepted_without_chains();
    orders();
    change(whole("height", 4));
    after.words[1][0] = 1;
    accepted("height 4");
    change(whole("height", 5));
    after.words[1][0] = 0;
    accepted("height 5");
    refused(whole("store_words", STORE - 1), ROOMS_DAMAGED_STORE);
    refused_word(17, 1, ROOMS_DAMAGED_STORE);
    refused(whole("height", ROOMS_MIN_DEPTH - 1), ROOMS_OUTSIDE);
    refused(whole("height", ROOMS_MAX_DEPTH + 1), ROOMS_OUTSIDE);
}

static void try_outline(void)
{
    begin("rooms_outline", call_outline);
    put_store(sample, sizeof sample);
    give(1, 6, words("store", 0), whole("store_words", STORE), whole("scene", 1), bytes("out", 0), whole("out_bytes", sizeof sample), words("length", 1));
    memcpy(after.bytes[0], sample, sizeof sample); /* the file that was added */
    after.words[1][0] = sizeof sample;
    accepted("the sample's outline");
    orders();
    refused_store();
    refused_whole();
    refused(whole("out_bytes", sizeof sample - 1), ROOMS_OUTPUT_SHORT);
    refused_chains();
}

static void trials_of_packing(const char *name, uint32_t (*make)(const struct argument *))
{
    const size_t scratch = ROOMS_PACK_SCRATCH_WORDS(CAPACITY);
    begin(name, make);
    put_store(sample, sizeof sample);
    give(1, 8, words("store", 0), whole("store_words", STORE), whole("scene", 1), words("scratch", 2), whole("scratch_words", scratch), bytes("out", 0), whole("out_bytes", sizeof sample_packed), words("length", 1));
    memset(after.words[2], 0, scratch * sizeof(uint32_t));
    memcpy(after.bytes[0], sample_packed, sizeof sample_packed);
    after.words[1][0] = sizeof sample_packed;
    accepted("the sample packed");
    orders();
    refused_store();
    refused_whole();
    refused(whole("scratch_words", scratch - 1), ROOMS_SCRATCH_SHORT);
    refused_scratch(whole("out_bytes", sizeof sample_packed - 1), ROOMS_OUTPUT_SHORT, 0, scratch);
    refused_chains();
}

static void try_pack(void)
{
    trials_of_packing("rooms_pack", call_pack);
}

static void try_headset_pack(void)
{
    const size_t scratch = ROOMS_PACK_SCRATCH_WORDS(CAPACITY);
    trials_of_packing("rooms_headset_pack", call_headset_pack);
    put_store(deep, sizeof deep);
    refused_scratch(whole("out_bytes", 0), ROOMS_TOO_DEEP, 0, scratch);
    refused(whole("scratch_words", scratch - 1), ROOMS_SCRATCH_SHORT);
}

static void trials_of_checking(const char *name, uint32_t (*make)(const struct argument *))
{
    const size_t length = sizeof single_packed;
    begin(name, make);
    put_file(single_packed, length);
    give(1, 5, bytes("file", 0), whole("file_bytes", length), bytes("scratch", 1), whole("scratch_bytes", length + 7), words("depth", 0));
    memset(after.bytes[1], 0, length);
    after.words[0][0] = 5;
    accepted("a proper file");
    orders();
    refused(whole("scratch_bytes", ROOMS_CHECK_SCRATCH_BYTES(length) - 1), ROOMS_SCRATCH_SHORT);
    refused(whole("file_bytes", 0), ROOMS_BAD_VERSION);
    refused_byte(0, 0x11, ROOMS_BAD_VERSION, 0);
    refused_byte(0, 0x21, ROOMS_BAD_VERSION, 0); /* an older file */
    refused(whole("file_bytes", length - 1), ROOMS_BAD_LENGTH);
    refused_byte(5, 1, ROOMS_BAD_DEPTH, 0);
    refused_byte(35, 0, ROOMS_BROKEN_RULES, length); /* a zero leaf */
    change(whole("scratch_bytes", ROOMS_CHECK_SCRATCH_BYTES(length)));
    memcpy(&after, &before, sizeof after);
    memset(after.bytes[1], 0, length);
    after.words[0][0] = 5;
    accepted("with just the scratch it takes");
}

static void try_check(void)
{
    trials_of_checking("rooms_check", call_check);
}

static void try_headset_check(void)
{
    trials_of_checking("rooms_headset_check", call_headset_check);
    put_file(deep_packed, sizeof deep_packed);
    change(whole("file_bytes", sizeof deep_packed));
    refused_byte(5, ROOMS_HEADSET_DEPTH + 1, ROOMS_TOO_DEEP, sizeof deep_packed);
    refused_byte(6, 9, ROOMS_BROKEN_RULES, sizeof deep_packed);
}

/* What packed voxel and open refuse of a file's first bytes. */
static void refused_front(void)
{
    refused(whole("file_bytes", 0), ROOMS_BAD_VERSION);
    refused_byte(0, 0x11, ROOMS_BAD_VERSION, 0);
    refused_byte(0, 0x21, ROOMS_BAD_VERSION, 0); /* an older file */
    refused(whole("file_bytes", sizeof single_packed - 1), ROOMS_BAD_LENGTH);
    refused_byte(5, 17, ROOMS_BAD_DEPTH, 0);
    refused_byte(6, 8, ROOMS_BROKEN_RULES, 0);
    refused_byte(10, 3, ROOMS_BROKEN_RULES, 0); /* a size */
}

static void try_packed_voxel(void)
{
    begin("rooms_packed_voxel", call_packed_voxel);
    put_file(single_packed, sizeof single_packed);
    give(3, 8, bytes("file", 0), whole("file_bytes", sizeof single_packed), whole("x", 13), whole("y", 18), whole("z", 23), words("solid", 0), words("records", 1), words("height", 2));
    after.words[0][0] = 1; /* solid */
    after.words[1][0] = 4; /* records of heights 5, 4 and 3, and the leaf */
    after.words[2][0] = 0; /* the height of a solid voxel */
    accepted("the one voxel");
    orders();
    refused_front();
    refused(whole("x", 32), ROOMS_OUTSIDE);
    refused(whole("y", 32), ROOMS_OUTSIDE);
    refused(whole("z", 32), ROOMS_OUTSIDE);
    refused_byte(23, 0, ROOMS_BROKEN_RULES, 0); /* a zero header */
    empty_around();
    put_file(nothing_packed, sizeof nothing_packed);
    change(whole("file_bytes", sizeof nothing_packed));
    change(whole("x", 3));
    change(whole("y", 2));
    change(whole("z", 1));
    empty(2, 0, "an empty scene of depth 2");
}

static const uint32_t single_numbers[ROOMS_OPENED_NUMBERS] = {5, 35, 31, 27, 23};

static void try_open(void)
{
    begin("rooms_open", call_open);
    put_file(single_packed, sizeof single_packed);
    give(0, 4, bytes("file", 0), whole("file_bytes", sizeof single_packed), words("numbers", 0), whole("numbers_words", ROOMS_OPENED_NUMBERS + 1));
    memcpy(after.words[0], single_numbers, sizeof single_numbers); /* the depth, then where heights 2, 3, 4 and 5 begin */
    accepted("its depth and list starts");
    orders();
    refused_front();
    refused(whole("numbers_words", ROOMS_OPENED_NUMBERS - 1), ROOMS_OUTPUT_SHORT);
    change(whole("numbers_words", ROOMS_OPENED_NUMBERS));
    memcpy(&after, &before, sizeof after);
    memcpy(after.words[0], single_numbers, sizeof single_numbers);
    accepted("into just the numbers it takes");
}

static void try_ask(void)
{
    begin("rooms_ask", call_ask);
    put_file(single_packed, sizeof single_packed);
    memcpy(before.words[0], single_numbers, sizeof single_numbers);
    give(3, 10, bytes("file", 0), whole("file_bytes", sizeof single_packed), words("numbers", 0), whole("numbers_words", ROOMS_OPENED_NUMBERS + 1), whole("x", 13), whole("y", 18), whole("z", 23), words("solid", 1), words("records", 2), words("height", 3));
    after.words[1][0] = 1;
    after.words[2][0] = 4;
    after.words[3][0] = 0;
    accepted("the one voxel");
    orders();
    refused(whole("numbers_words", ROOMS_OPENED_NUMBERS - 1), ROOMS_BROKEN_RULES);
    refused(whole("file_bytes", sizeof single_packed - 1), ROOMS_BROKEN_RULES);
    for (size_t i = 0; i < ROOMS_OPENED_NUMBERS; i++) {
        refused_word(i, single_numbers[i] + 1, ROOMS_BROKEN_RULES);
    }
    refused(whole("x", 32), ROOMS_OUTSIDE);
    refused(whole("y", 32), ROOMS_OUTSIDE);
    refused(whole("z", 32), ROOMS_OUTSIDE);
    empty_around();
}

static void try_detail(void)
{
    begin("rooms_detail", call_detail);
    give(1, 5, whole("depth", 6), whole("kind", ROOMS_DISTANCE), real("a", 10), real("b", 2.5), words("height", 0));
    after.words[0][0] = 2; /* S11; 2.5 seen with factor 10 gives 0, and depth 2 with kind 6 is 13 */
    accepted("distance 10, factor 2.5");
    orders();
    refused(whole("depth", ROOMS_MIN_DEPTH - 1), ROOMS_BAD_DEPTH);
    refused(whole("depth", ROOMS_MAX_DEPTH + 1), ROOMS_BAD_DEPTH);
    refused(whole("kind", ROOMS_DISTANCE + 1), ROOMS_BAD_WISH);
    refused(real("a", -1), ROOMS_BAD_WISH);
    refused(real("a", -5e-324), ROOMS_BAD_WISH);
    refused(real("a", (double)NAN), ROOMS_BAD_WISH);
    refused(real("b", 0), ROOMS_BAD_WISH);
    refused(real("b", (double)INFINITY), ROOMS_BAD_WISH);
    change(real("a", -0.0));
    after.words[0][0] = 0;
    accepted("distance -0");
    change(whole("kind", ROOMS_WIDEST_EDGE));
    change(real("a", 8));
    after.words[0][0] = 3; /* S10 */
    accepted("widest edge 8");
    refused(real("a", 0.5), ROOMS_BAD_WISH);
    change(whole("kind", ROOMS_EVERY_VOXEL));
    memcpy(&after, &before, sizeof after);
    after.words[0][0] = 0;
    accepted("every voxel");
}

/* ---- sizes: each is enough and the least ---- */

static void is(const char *what, uint32_t got, uint32_t due)
{
    judge(got == due, what, got, due);
}

/* A new store of the greatest capacity. */
static void try_greatest(void)
{
    const size_t most = ROOMS_STORE_WORDS(ROOMS_MAX_CAPACITY), more = ROOMS_STORE_WORDS(ROOMS_MAX_CAPACITY + 1);
    uint32_t *store = malloc(more * sizeof *store);
    if (store == NULL) {
        is("no memory for the greatest store", 1, 0);
        return;
    }
    store[most] = 7;
    is("the greatest capacity", rooms_new(store, most, ROOMS_MAX_CAPACITY), ROOMS_OK);
    is("its last word", store[most - 1], 0);
    is("the word behind it", store[most], 7);
    is("one word too few", rooms_new(store, most - 1, ROOMS_MAX_CAPACITY), ROOMS_BAD_SIZE);
    is("a greater capacity", rooms_new(store, more, ROOMS_MAX_CAPACITY + 1), ROOMS_BAD_SIZE);
    free(store);
}

/* The leaves of a room of depth 7 whose 4,096 cells of height 3 all differ, and no two are images: none of the four leaves below has
   an image among them, or is its own. */
static size_t put_differing(uint8_t *file, size_t at, unsigned height, unsigned number)
{
    static const uint8_t leaves[4] = {0x01, 0x03, 0x07, 0x17};
    file[at++] = 0xff;
    for (unsigned child = 0; child < 8; child++) {
        if (height > 3) {
            at = put_differing(file, at, height - 1, 8 * number + child);
        } else {
            memset(file + at, 0, 7);
            file[at + 7] = leaves[child < 6 ? number >> (2 * child) & 3 : 0];
            at += 8;
        }
    }
    return at;
}

/* A room whose packed file has long pointers: its list of height 3 has 4,096 records of nine half-words. */
static void try_long(void)
{
    enum { CELLS = 4096, LONGEST = 6 + 1 + 8 + 64 + 512 + CELLS * 65 };
    const size_t words = ROOMS_STORE_WORDS(CELLS), most = ROOMS_PACKED_MAX_BYTES(CELLS), spare = ROOMS_PACK_SCRATCH_WORDS(CELLS);
    uint32_t *store = calloc(words, sizeof *store), *scratch = calloc(spare, sizeof *scratch), value = 9;
    uint8_t *file = malloc(LONGEST), *out = malloc(most), *marks = malloc(most);
    called = "long pointers";
    if (store == NULL || scratch == NULL || file == NULL || out == NULL || marks == NULL) {
        is("no memory for them", 1, 0);
    } else {
        size_t length = put_differing(file, 6, 7, 0);
        const uint8_t head[] = {0x11, 0, (uint8_t)(length >> 16), (uint8_t)(length >> 8), (uint8_t)length, 7};
        memcpy(file, head, sizeof head);
        is("the store", rooms_new(store, words, CELLS), ROOMS_OK);
        is("the room", rooms_add(store, words, file, length, &value), ROOMS_OK);
        is("its cells of height 3", rooms_kept(store, words, 3, &value) + value, CELLS);
        memset(scratch, 5, spare * sizeof *scratch);
        out[0] = 5;
        is("not for the headset", rooms_headset_pack(store, words, 0, scratch, spare, out, most, &value), ROOMS_LONG_POINTER);
        is("no length", value, 0);
        is("nothing written", out[0], 5);
        is("the first word of scratch", scratch[0], 0);
        is("the last word of scratch", scratch[spare - 1], 0);
        is("before an output too short", rooms_headset_pack(store, words, 0, scratch, spare, out, 0, &value), ROOMS_LONG_POINTER);
        is("packed", rooms_pack(store, words, 0, scratch, spare, out, most, &value), ROOMS_OK);
        length = value;
        is("proper", rooms_check(out, length, marks, most, &value), ROOMS_OK);
        is("its depth", value, 7);
        memset(marks, 5, most);
        is("not the headset's", rooms_headset_check(out, length, marks, most, &value), ROOMS_LONG_POINTER);
        is("no depth", value, 0);
        is("the first byte of scratch", marks[0], 0);
        is("the last byte of scratch", marks[length - 1], 0);
        is("the byte behind it", marks[length], 5);
    }
    free(store);
    free(scratch);
    free(file);
    free(out);
    free(marks);
}

static void try_sizes(void)
{
    static uint32_t store[ROOMS_STORE_WORDS(CAPACITY)], scratch[ROOMS_PACK_SCRATCH_WORDS(CAPACITY)];
    static uint8_t out[ROOMS_PACKED_MAX_BYTES(CAPACITY)], spare[ROOMS_CHECK_SCRATCH_BYTES(sizeof out)];
    uint8_t file[sizeof nothing];
    uint32_t value;

    called = "sizes";
    try_greatest();

    is("the words of a small store", rooms_new(store, STORE, CAPACITY), ROOMS_OK);
    is("the shortest outline", sizeof nothing, ROOMS_OUTLINE_MIN_BYTES);
    is("it is accepted", rooms_add(store, STORE, nothing, ROOMS_OUTLINE_MIN_BYTES, &value), ROOMS_OK);
    is("a byte less is not", rooms_add(store, STORE, nothing, ROOMS_OUTLINE_MIN_BYTES - 1, &value), ROOMS_BAD_LENGTH);
    is("packed", rooms_pack(store, STORE, 0, scratch, ROOMS_PACK_SCRATCH_WORDS(CAPACITY), out, sizeof out, &value), ROOMS_OK);
    is("the shortest packed file", value, ROOMS_PACKED_MIN_BYTES);
    is("its bytes", memcmp(out, nothing_packed, sizeof nothing_packed) != 0, 0);
    is("it is proper", rooms_check(out, ROOMS_PACKED_MIN_BYTES, spare, sizeof spare, &value), ROOMS_OK);
    is("a byte less is not", rooms_check(out, ROOMS_PACKED_MIN_BYTES - 1, spare, sizeof spare, &value), ROOMS_BAD_LENGTH);

    memcpy(file, nothing, sizeof file);
    for (uint8_t depth = ROOMS_MIN_DEPTH; depth <= ROOMS_MAX_DEPTH; depth++) {
        file[5] = depth;
        is("each depth", rooms_add(store, STORE, file, sizeof file, &value), ROOMS_OK);
    }
    file[5] = ROOMS_MIN_DEPTH - 1;
    is("a depth too small", rooms_add(store, STORE, file, sizeof file, &value), ROOMS_BAD_DEPTH);
    file[5] = ROOMS_MAX_DEPTH + 1;
    is("a depth too great", rooms_add(store, STORE, file, sizeof file, &value), ROOMS_BAD_DEPTH);

    for (uint32_t scene = store[1]; scene < ROOMS_MAX_SCENES; scene++) {
        is("each scene", rooms_add(store, STORE, nothing, sizeof nothing, &value), ROOMS_OK);
        is("its number", value, scene);
    }
    is("one scene more", rooms_add(store, STORE, nothing, sizeof nothing, &value), ROOMS_SCENES_FULL);
    /* 7 bytes, 15 sizes, a root of 34 bytes; at each height below 16 at most 8 records, of 8 bytes at height 2, else of 34 */
    is("the most bytes of a packed scene", ROOMS_PACKED_MAX_BYTES(CAPACITY), 7 + 60 + 34 + 8 * 8 + 13 * 8 * 34);
}

int main(int argc, char **argv)
{
    (void)argc;
    prototypes = argv + 1;
    try_new();
    try_add();
    try_voxel();
    try_sight();
    try_cell();
    try_box();
    try_any();
    try_kept();
    try_outline();
    try_pack();
    try_headset_pack();
    try_check();
    try_headset_check();
    try_packed_voxel();
    try_open();
    try_ask();
    try_detail();
    try_sizes();
    try_long();
    printf("%lu passed, %lu failed\n", passed, failed);
    return failed != 0;
}
