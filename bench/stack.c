/*
 * The stack that each call takes, in the linked library on x86-64. A call is made on a stack of its own that a pattern fills;
 * counted are the bytes from the caller's stack pointer down to the lowest word of 8 bytes that changed. The caller's stack
 * pointer is the one before the stack arguments, a multiple of 16. So these count, with 8 bytes beside an odd number of them,
 * and so do the return address and what memset takes. Bytes that are reserved and never written count where one below them changed.
 *
 * A further call takes a name and a line in `calls`, and questions beside those of its kind. The program fails where a call of the
 * table is never made, where one is refused though nothing was changed, and where one takes more than the header says.
 */
#include "rooms.h"

#include <stdio.h>
#include <stdlib.h>
#include <string.h>
#include <sys/mman.h>

/* ---- the calls ---- */

enum { NEW, ADD, VOXEL, SIGHT, CELL, BOX, ANY, KEPT, OUTLINE, PACK, HEADSET_PACK, CHECK, HEADSET_CHECK, PACKED_VOXEL, OPEN, ASK, DETAIL, CALLS };

typedef void function(void);

static const struct {
    const char *name;
    function *function;
} calls[CALLS] = {
    [NEW] = {"new store", (function *)rooms_new},
    [ADD] = {"add", (function *)rooms_add},
    [VOXEL] = {"voxel", (function *)rooms_voxel},
    [SIGHT] = {"sight line", (function *)rooms_sight},
    [CELL] = {"cell", (function *)rooms_cell},
    [BOX] = {"box", (function *)rooms_box},
    [ANY] = {"anything in the way", (function *)rooms_any},
    [KEPT] = {"kept", (function *)rooms_kept},
    [OUTLINE] = {"outline out", (function *)rooms_outline},
    [PACK] = {"pack", (function *)rooms_pack},
    [HEADSET_PACK] = {"headset pack", (function *)rooms_headset_pack},
    [CHECK] = {"packed check", (function *)rooms_check},
    [HEADSET_CHECK] = {"headset check", (function *)rooms_headset_check},
    [PACKED_VOXEL] = {"packed voxel", (function *)rooms_packed_voxel},
    [OPEN] = {"open", (function *)rooms_open},
    [ASK] = {"question on an opened scene", (function *)rooms_ask},
    [DETAIL] = {"detail", (function *)rooms_detail},
};

/* Rooms of depth 16; their files and stores, a byte or a word changed in each; such rooms of depth 15, to tell what a height takes; and of
   depth 10, for the calls that take no deeper one. */
enum series { DEEPEST, CHANGED, LOWER, HEADSET, ALL_SERIES };

static enum series series;
static size_t greatest[ALL_SERIES][CALLS];
static size_t made[ALL_SERIES][CALLS];

static void fail(const char *name, const char *what)
{
    fprintf(stderr, "bench/stack: %s %s\n", name, what);
    exit(1);
}

/* ---- one call ---- */

#define HEADER_SAYS 8192 /* bytes that hold every call */
#define STACK_WORDS 32768
#define GUARD_WORDS 512
#define PATTERN UINT64_C(0xa7c3e9b5d16f8b93)

static uint64_t *stack; /* below it lies a page that ends the program, should a call come there */
static double reals[2]; /* the doubles of the next call */

/* Makes a call on another stack, with six words and two doubles in registers; further words lie where the pointer points. */
uint32_t call_on(const uint64_t *six, const double *two, function *call, uint64_t *pointer);
__asm__(".text\n"
        ".globl call_on\n"
        "call_on:\n"
        "    push %rbp\n"
        "    mov %rsp, %rbp\n"
        "    mov %rcx, %rsp\n"
        "    mov %rdx, %rax\n"
        "    movsd (%rsi), %xmm0\n"
        "    movsd 8(%rsi), %xmm1\n"
        "    mov 40(%rdi), %r9\n"
        "    mov 32(%rdi), %r8\n"
        "    mov 24(%rdi), %rcx\n"
        "    mov 16(%rdi), %rdx\n"
        "    mov 8(%rdi), %rsi\n"
        "    mov (%rdi), %rdi\n"
        "    call *%rax\n"
        "    mov %rbp, %rsp\n"
        "    pop %rbp\n"
        "    ret\n");

static void lend_stack(void)
{
    const size_t words = GUARD_WORDS + STACK_WORDS;
    stack = mmap(NULL, words * 8, PROT_READ | PROT_WRITE, MAP_PRIVATE | MAP_ANONYMOUS, -1, 0);
    if (stack == MAP_FAILED || mprotect(stack, GUARD_WORDS * 8, PROT_NONE) != 0) {
        fail("a stack", "could not be had");
    }
    stack += GUARD_WORDS;
    for (size_t i = 0; i < STACK_WORDS; i++) {
        stack[i] = PATTERN;
    }
}

/* How many words of the stack there are from the lowest that changed; they get their pattern back. */
static size_t taken(void)
{
    size_t low = 0;
    while (low < STACK_WORDS && stack[low] == PATTERN) {
        low++;
    }
    for (size_t i = low; i < STACK_WORDS; i++) {
        stack[i] = PATTERN;
    }
    return STACK_WORDS - low;
}

static void measure(unsigned call, size_t count, const uint64_t *words)
{
    const size_t more = count > 6 ? count - 6 : 0;
    uint64_t *pointer = stack + STACK_WORDS - more - more % 2;
    uint64_t six[6] = {0};
    memcpy(six, words, (count - more) * 8);
    memcpy(pointer, words + count - more, more * 8);
    const uint32_t answer = call_on(six, reals, calls[call].function, pointer);
    const size_t bytes = 8 * taken();
    if (answer != ROOMS_OK && series != CHANGED) {
        fail(calls[call].name, "was refused");
    }
    made[series][call]++;
    if (bytes > greatest[series][call]) {
        greatest[series][call] = bytes;
    }
}

/* Measures a call with these arguments but the doubles, which stand in `reals`. */
#define MEASURE(call, ...) \
    measure(call, sizeof((const uint64_t[]){__VA_ARGS__}) / 8, (const uint64_t[]){__VA_ARGS__})
#define P(pointer) ((uint64_t)(uintptr_t)(pointer))

/* ---- chance ---- */

static uint64_t state = 1;

static uint64_t any(void)
{
    state ^= state << 13;
    state ^= state >> 7;
    state ^= state << 17;
    return state * UINT64_C(0x2545f4914f6cdd1d);
}

static uint32_t below(size_t bound)
{
    return (uint32_t)((any() >> 33) % bound);
}

/* ---- rooms ---- */

/* A random room has at most 64 cells with more children than one, so fewer leaves than its store keeps. */
#define KINDS_OF_LEAVES 3u
#define PATHS (8 * KINDS_OF_LEAVES)
#define CHAINS (8 * KINDS_OF_LEAVES)
#define RANDOM 16
#define ROOM_COUNT (PATHS + CHAINS + RANDOM)
#define BRANCHES 64
#define CAPACITY 512u
#define LONGEST 16384

static unsigned depth;
static unsigned leaves;   /* of the room: 0 for one voxel in each, 1 for all voxels, 2 for any */
static unsigned branches; /* how many more cells of a random room may have more children than one */

static uint8_t outline[LONGEST];
static size_t outline_bytes;

static uint8_t *write_leaf(uint8_t *out)
{
    const uint64_t leaf = leaves == 0 ? 1 : leaves == 1 ? UINT64_MAX : any() | 1;
    for (unsigned i = 0; i < 8; i++) {
        *out++ = (uint8_t)(leaf >> (56 - 8 * i));
    }
    return out;
}

/* One child at every height. */
static uint8_t *write_chain(uint8_t *out, unsigned height, unsigned child)
{
    for (; height > 2; height--) {
        *out++ = (uint8_t)(1u << child);
    }
    return write_leaf(out);
}

/* All eight children at every height along the path, the other seven chains. */
static uint8_t *write_path(uint8_t *out, unsigned height, unsigned child)
{
    if (height == 2) {
        return write_leaf(out);
    }
    *out++ = 0xff;
    for (unsigned i = 0; i < 8; i++) {
        out = i == child ? write_path(out, height - 1, child) : write_chain(out, height - 1, child);
    }
    return out;
}

/* Any children in one cell of eight, any one child in the others. */
static uint8_t *write_random(uint8_t *out, unsigned height)
{
    if (height == 2) {
        return write_leaf(out);
    }
    uint8_t *mask = out++;
    *mask = (uint8_t)(1u << below(8));
    if (branches > 0 && below(8) == 0) {
        branches--;
        *mask = (uint8_t)(1 + below(255));
    }
    for (unsigned i = 0; i < 8; i++) {
        if (*mask >> i & 1) {
            out = write_random(out, height - 1);
        }
    }
    return out;
}

static void write_room(unsigned n)
{
    uint8_t *out = outline + 6;
    leaves = n % KINDS_OF_LEAVES;
    branches = BRANCHES;
    if (n < PATHS) {
        out = write_path(out, depth, n / KINDS_OF_LEAVES);
    } else if (n < PATHS + CHAINS) {
        out = write_chain(out, depth, (n - PATHS) / KINDS_OF_LEAVES);
    } else {
        out = write_random(out, depth);
    }
    outline_bytes = (size_t)(out - outline);
    outline[0] = 0x11;
    for (unsigned i = 0; i < 4; i++) {
        outline[1 + i] = (uint8_t)(outline_bytes >> (24 - 8 * i));
    }
    outline[5] = (uint8_t)depth;
}

/* ---- lent memory ---- */

#define STORE_WORDS ROOMS_STORE_WORDS(CAPACITY)
#define ALL_CAPACITY 8192u
#define ALL_WORDS ROOMS_STORE_WORDS(ALL_CAPACITY)

static uint32_t store[STORE_WORDS];  /* holds the room twice */
static uint32_t before[STORE_WORDS]; /* the same, while a word is changed */
static uint32_t all[ALL_WORDS];      /* holds all rooms */
static uint8_t packed[ROOMS_PACKED_MAX_BYTES(CAPACITY)];
static uint32_t packed_bytes;
static uint32_t numbers[ROOMS_OPENED_NUMBERS];
static uint8_t out[1 << 20];
static uint32_t pack_scratch[ROOMS_PACK_SCRATCH_WORDS(CAPACITY)];
static uint8_t check_scratch[ROOMS_CHECK_SCRATCH_BYTES(sizeof packed)];
static uint32_t value[4];
static uint64_t count;

#define STORE P(store), STORE_WORDS
#define OUTLINE_FILE P(outline), outline_bytes
#define PACKED_FILE P(packed), packed_bytes
#define OUT P(out), sizeof out
#define NUMBERS P(numbers), ROOMS_OPENED_NUMBERS

/* ---- questions ---- */

/* Points of the room: its eight corners, then any. */
#define CORNERS 8
#define POINTS 32

struct point {
    uint32_t x, y, z;
};

static struct point point(unsigned n)
{
    const uint32_t edge = (uint32_t)1 << depth;
    if (n < CORNERS) {
        return (struct point){(n & 1) * (edge - 1), (n >> 1 & 1) * (edge - 1), (n >> 2) * (edge - 1)};
    }
    return (struct point){below(edge), below(edge), below(edge)};
}

/* The box counted, and asked whether it holds anything. */
static void ask_box(struct point low, struct point high)
{
    MEASURE(BOX, STORE, 0, low.x, low.y, low.z, high.x, high.y, high.z, P(&count));
    MEASURE(ANY, STORE, 0, low.x, low.y, low.z, high.x, high.y, high.z, P(&value[0]), P(&count));
}

/* The whole room, and all of it but its outermost voxels. */
static void ask_large_boxes(void)
{
    const uint32_t edge = (uint32_t)1 << depth;
    ask_box((struct point){0, 0, 0}, (struct point){edge, edge, edge});
    ask_box((struct point){1, 1, 1}, (struct point){edge - 1, edge - 1, edge - 1});
}

/* The cell of a height that holds the point, by cell and by box; then the box that is a voxel wider where the room goes on. */
static void ask_height(struct point p, unsigned height)
{
    const uint32_t edge = (uint32_t)1 << depth;
    const struct point c = {p.x >> height, p.y >> height, p.z >> height};
    const struct point low = {c.x << height, c.y << height, c.z << height};
    const struct point high = {(c.x + 1) << height, (c.y + 1) << height, (c.z + 1) << height};
    MEASURE(CELL, STORE, 0, height, c.x, c.y, c.z, P(&value[0]));
    ask_box(low, high);
    ask_box((struct point){low.x - (low.x > 0), low.y - (low.y > 0), low.z - (low.z > 0)},
            (struct point){high.x + (high.x < edge), high.y + (high.y < edge), high.z + (high.z < edge)});
}

/* The box between two points. */
static void ask_between(struct point p, struct point q)
{
    ask_box((struct point){p.x < q.x ? p.x : q.x, p.y < q.y ? p.y : q.y, p.z < q.z ? p.z : q.z},
            (struct point){p.x < q.x ? q.x : p.x, p.y < q.y ? q.y : p.y, p.z < q.z ? q.z : p.z});
}

/* Scene 0 of the store, at its first so many points. */
static void ask_scene(unsigned points)
{
    ask_large_boxes();
    for (unsigned n = 0; n < points; n++) {
        const struct point p = point(n);
        MEASURE(VOXEL, STORE, 0, p.x, p.y, p.z, P(&value[0]), P(&value[1]));
        const struct point q = point(POINTS);
        MEASURE(SIGHT, STORE, 0, p.x, p.y, p.z, q.x, q.y, q.z, P(&value[0]), P(&value[1]), P(&value[2]), P(&value[3]));
        ask_between(p, q);
        for (unsigned height = 0; height <= depth; height++) {
            ask_height(p, height);
        }
    }
}

/* Whether the headset's calls are made: where they take the room, or may be refused. */
static int for_headset(void)
{
    return depth <= ROOMS_HEADSET_DEPTH || series == CHANGED;
}

/* The packed file, at its first so many points. */
static void ask_packed(unsigned points)
{
    if (for_headset()) {
        MEASURE(HEADSET_CHECK, PACKED_FILE, P(check_scratch), sizeof check_scratch, P(&value[0]));
    }
    MEASURE(CHECK, PACKED_FILE, P(check_scratch), sizeof check_scratch, P(&value[0]));
    MEASURE(OPEN, PACKED_FILE, NUMBERS);
    for (unsigned n = 0; n < points; n++) {
        const struct point p = point(n);
        MEASURE(PACKED_VOXEL, PACKED_FILE, p.x, p.y, p.z, P(&value[0]), P(&value[1]), P(&value[2]));
        MEASURE(ASK, PACKED_FILE, NUMBERS, p.x, p.y, p.z, P(&value[0]), P(&value[1]), P(&value[2]));
    }
}

static void ask_kept(void)
{
    for (unsigned height = 2; height <= ROOMS_MAX_DEPTH; height++) {
        MEASURE(KEPT, STORE, height, P(&value[0]));
    }
}

/* Both files of scene 0; the outline has to be the room's. */
static void write_files(void)
{
    MEASURE(OUTLINE, STORE, 0, OUT, P(&value[0]));
    if (series != CHANGED && (value[0] != outline_bytes || memcmp(out, outline, outline_bytes) != 0)) {
        fail(calls[OUTLINE].name, "wrote another room");
    }
    if (for_headset()) {
        MEASURE(HEADSET_PACK, STORE, 0, P(pack_scratch), ROOMS_PACK_SCRATCH_WORDS(CAPACITY), OUT, P(&value[0]));
    }
    MEASURE(PACK, STORE, 0, P(pack_scratch), ROOMS_PACK_SCRATCH_WORDS(CAPACITY), OUT, P(&value[0]));
}

static void ask_detail(void)
{
    for (unsigned n = 0; n < 1000; n++) {
        reals[0] = 1 + (double)below((size_t)1 << below(31));
        reals[1] = 1 / (1 + (double)below((size_t)1 << below(30)));
        MEASURE(DETAIL, 2 + n % 15, below(3), P(&value[0]));
    }
}

/* ---- the series ---- */

/* The room as it is: twice in a store of its own, and in the one that holds all rooms. */
static void ask_room(void)
{
    MEASURE(NEW, STORE, CAPACITY);
    MEASURE(ADD, STORE, OUTLINE_FILE, P(&value[0]));
    MEASURE(ADD, STORE, OUTLINE_FILE, P(&value[0]));
    MEASURE(ADD, P(all), ALL_WORDS, OUTLINE_FILE, P(&value[0]));
    write_files();
    packed_bytes = value[0];
    memcpy(packed, out, packed_bytes);
    ask_kept();
    ask_scene(POINTS);
    ask_packed(POINTS);
}

/* The position of a word that is not 0. */
static size_t used_word(void)
{
    size_t at;
    do {
        at = below(STORE_WORDS);
    } while (store[at] == 0);
    return at;
}

/* Changes a word that is not 0, or one of the seven after it: by a bit, to any, or to another one that is not 0. */
static void ask_changed_store(void)
{
    memcpy(before, store, sizeof store);
    const uint32_t other = store[used_word()];
    uint32_t *word = store + used_word() + below(8);
    const uint32_t by_a_bit = *word ^ (uint32_t)1 << below(32);
    const uint32_t changed[3] = {by_a_bit, (uint32_t)any(), other};
    const uint32_t chosen = changed[below(3)];
    *word = chosen == *word ? by_a_bit : chosen;
    write_files();
    ask_kept();
    ask_scene(CORNERS);
    MEASURE(ADD, STORE, OUTLINE_FILE, P(&value[0]));
    MEASURE(NEW, STORE, CAPACITY);
    memcpy(store, before, sizeof store);
}

/* Changes a byte: by a bit, to any, or to another one of the file; returns what it was. */
static uint8_t change(uint8_t *file, size_t bytes, size_t at)
{
    const uint8_t was = file[at];
    const uint8_t by_a_bit = (uint8_t)(was ^ 1u << below(8));
    const uint8_t changed[3] = {by_a_bit, (uint8_t)any(), file[below(bytes)]};
    const uint8_t chosen = changed[below(3)];
    file[at] = chosen == was ? by_a_bit : chosen;
    return was;
}

static void ask_changed_files(void)
{
    size_t at = below(packed_bytes);
    uint8_t was = change(packed, packed_bytes, at);
    ask_packed(CORNERS);
    packed[at] = was;

    memcpy(before, store, sizeof store);
    at = below(outline_bytes);
    was = change(outline, outline_bytes, at);
    MEASURE(ADD, STORE, OUTLINE_FILE, P(&value[0]));
    outline[at] = was;
    memcpy(store, before, sizeof store);
}

static void measure_rooms(enum series of, unsigned of_depth, unsigned changes)
{
    depth = of_depth;
    series = of;
    MEASURE(NEW, P(all), ALL_WORDS, ALL_CAPACITY);
    ask_detail();
    for (unsigned n = 0; n < ROOM_COUNT; n++) {
        write_room(n);
        ask_room();
        series = CHANGED;
        for (unsigned i = 0; i < changes; i++) {
            ask_changed_store();
            ask_changed_files();
        }
        series = of;
    }
}

/* ---- the table ---- */

/* A number below 1,000,000 with its comma. */
static void print_number(size_t n)
{
    if (n < 1000) {
        printf("%zu", n);
    } else {
        printf("%zu,%03zu", n / 1000, n % 1000);
    }
}

/* The greatest of a call: over rooms of depth 16 or, where it takes none of these, of depth 10. */
static size_t most(unsigned call)
{
    return greatest[made[DEEPEST][call] > 0 ? DEEPEST : HEADSET][call];
}

static void print_call(unsigned call)
{
    if (call >= CALLS) {
        printf(" | |");
        return;
    }
    printf(" %s | ", calls[call].name);
    print_number(most(call));
    printf(" |");
}

static void print_table(void)
{
    const unsigned rows = (CALLS + 1) / 2;
    printf("| call | bytes | | call | bytes |\n|---|---|---|---|---|\n");
    for (unsigned row = 0; row < rows; row++) {
        printf("|");
        print_call(row);
        printf(" |");
        print_call(row + rows);
        printf("\n");
    }
}

/* What a height takes of the calls that recurse over heights. */
static void print_heights(void)
{
    printf("\nBytes a height:");
    for (unsigned call = 0; call < CALLS; call++) {
        if (greatest[DEEPEST][call] != greatest[LOWER][call]) {
            printf(" %s ", calls[call].name);
            print_number(greatest[DEEPEST][call] - greatest[LOWER][call]);
            printf(";");
        }
    }
    printf(" the other calls 0.\n");
}

/* How many calls a series has. */
static void print_made(enum series of, const char *what)
{
    size_t sum = 0;
    for (unsigned call = 0; call < CALLS; call++) {
        sum += made[of][call];
    }
    printf("Calls on %s: ", what);
    print_number(sum);
    printf(".\n");
}

/* The greatest of each call on what was changed, and how many of them are above the table. */
static void print_changed(void)
{
    unsigned above = 0;
    printf("Greatest of these:");
    for (unsigned call = 0; call < CALLS; call++) {
        if (made[CHANGED][call] > 0) {
            printf(" %s ", calls[call].name);
            print_number(greatest[CHANGED][call]);
            printf(";");
            above += greatest[CHANGED][call] > most(call);
        }
    }
    printf(" above the table: %u calls.\n", above);
}

int main(void)
{
    lend_stack();
    measure_rooms(DEEPEST, ROOMS_MAX_DEPTH, 4);
    measure_rooms(LOWER, ROOMS_MAX_DEPTH - 1, 0);
    measure_rooms(HEADSET, ROOMS_HEADSET_DEPTH, 4);
    for (unsigned call = 0; call < CALLS; call++) {
        if (made[DEEPEST][call] + made[HEADSET][call] == 0) {
            fail(calls[call].name, "was not measured");
        }
    }
    print_table();
    print_heights();
    print_made(DEEPEST, "rooms of depth 16");
    print_made(HEADSET, "rooms of depth 10");
    print_made(CHANGED, "files and stores of these rooms, a byte or a word changed in each");
    print_changed();
    for (unsigned call = 0; call < CALLS; call++) {
        if (greatest[DEEPEST][call] > HEADER_SAYS || greatest[CHANGED][call] > HEADER_SAYS) {
            fail(calls[call].name, "takes more than the header says");
        }
    }
    return 0;
}
