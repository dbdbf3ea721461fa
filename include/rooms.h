/*
 * rooms.h: the room store, for C. Link crates/rooms_c/out/librooms_c.a: x86-64 Linux, and no other machine. Of the C library it
 * needs memset alone.
 *
 * A room is a cube of voxels; its depth D, from 2 to 16, gives its edge, 2^D voxels. A store keeps up to 64 scenes and each
 * differing cell of theirs once, mirror images included. The seventeen calls below work on memory that the caller lends: they
 * allocate nothing, keep nothing between calls, print nothing and start nothing. docs/RULES.md has the rules of rooms, stores
 * and refusals, docs/FORMATS.md the bytes of the two kinds of file.
 *
 * What a call answers
 *   Each call returns 0 where it is accepted, or the number of its refusal (ROOMS_..., below). The refusals of a call are
 *   judged in the order given at the call: the first that applies is returned. Values go to out parameters; a call writes
 *   all that it has, whatever it returns: on a refusal they are zero.
 *
 * What it asks of the caller
 *   A slice is a pointer and a length, in this order; the length counts elements, words of 4 bytes or bytes.
 *   - Of a length above 0, the pointer points to so many elements of one array, aligned for their type (4 bytes for a word).
 *     Of length 0, the pointer may be anything, a null pointer too.
 *   - An out parameter is not a null pointer, and is aligned for its type.
 *   - What a call may write (a slice that is not const, an out parameter) overlaps with nothing else lent to that call, and
 *     nobody else reads or writes it until the call returns.
 *   - What a call only reads (const) may be shared and may overlap with other const slices, and nobody writes it until the call
 *     returns: no other thread, no signal handler, no other process. A call tests a size and reads by it later, so memory that
 *     changes in between can lead it outside. A file that is mapped into memory is neither written nor shortened by anybody
 *     meanwhile; where that can't be known, read the file into memory of your own first.
 *   - The floating-point environment is the default one: floating-point exceptions masked, subnormal numbers as they are
 *     (neither flush-to-zero nor denormals-are-zero set). Only rooms_detail computes with doubles. It may set status flags.
 *     With denormals-are-zero the distance -5e-324 would be taken for 0 where refusal 13 is due.
 *   - The stack suffices: 8 KiB hold every call, by measurement. At depth 16 rooms_add takes most, 4,880 bytes, then
 *     rooms_any 4,464, rooms_box 2,512, rooms_headset_check 1,592, rooms_check 1,368, rooms_outline 1,264, any other call
 *     less than 800; on files and stores with a byte or a word changed none took more (docs/STACK.md). No function's frame
 *     has more than 512 bytes.
 *   Of what stands in the memory nothing is asked: any words and any bytes, of any length, noise, a damaged store, half a
 *   file. A call answers or refuses; it never faults, loops without end or writes outside what it was lent. Not
 *   everything is looked at by every call: one that answers has found what it looked at in order, and no more. rooms_kept looks
 *   at a store's header alone and answers on a store with damaged cells; rooms_packed_voxel looks at a file's head, sizes and
 *   one path. Whether a packed file is proper as a whole is for rooms_check to say.
 *
 * What happens to lent memory
 *   A call that is refused leaves store and output as they were. Output past the length written, words of a store past
 *   ROOMS_STORE_WORDS and scratch past the size needed are never changed. Scratch and output may hold anything beforehand.
 *
 * 'On a store of these calls' below means: words in which rooms_new was accepted and which since then only rooms_new and
 * rooms_add have written, as their store, lent with all words of its capacity each time.
 *
 * 'The whole store is tested' below means that 2 is given unless the header is in range and all words of its capacity are
 * lent; each scene held has a depth of 2 to 16 and a root that is none or a kept cell; no kept leaf is 0; each kept inner
 * cell, of height 3 and up, has a child, each of its pointers is none or leads to a kept cell, and the solid count kept with
 * it is the sum of its children's counts, a leaf's being its ones (as whole numbers: nothing wraps); each chain, from its head
 * along the next words, is the kept cells of its key, numbers rising; all other words of its capacity are 0. Chains are for
 * finding equal cells (docs/RULES.md, 'Chains'). No question looks at them.
 *
 * Nothing is promised of time. rooms_add compares a cell with those of one chain, of 256 at its height; a file can be made so
 * that they are many. A box enters no inner cell that lies wholly inside; one whose faces lie off the grid can enter each cell
 * that they cut. rooms_any ends at the first leaf with a solid voxel in the box: the less the box holds, the more it may have
 * to enter. A sight line steps over an empty cell at once, however large, and goes through leaves voxel by voxel.
 */
#ifndef ROOMS_H
#define ROOMS_H

#include <stddef.h>
#include <stdint.h>

#ifdef __cplusplus
extern "C" {
#endif

/* ---- refusals ---- */

#define ROOMS_OK 0u
#define ROOMS_BAD_SIZE 1u       /* the capacity is not 1 to 65,536, or the words are too few for it */
#define ROOMS_DAMAGED_STORE 2u  /* the store is damaged where the call looks */
#define ROOMS_BAD_VERSION 3u    /* the file has no byte, or its first is not 0x11 (outline) or 0x22 (packed) */
#define ROOMS_BAD_LENGTH 4u     /* the file is shorter than its head, or its bytes 1 to 4 don't say its length */
#define ROOMS_BAD_DEPTH 5u      /* the depth is not 2 to 16 */
#define ROOMS_BROKEN_RULES 6u   /* the file breaks a rule of its kind that the call tests */
#define ROOMS_SCENES_FULL 7u    /* the store holds 64 scenes */
#define ROOMS_CELLS_FULL 8u     /* some height would have to keep more cells than the capacity */
#define ROOMS_NO_SCENE 9u       /* the store holds no scene of this number */
#define ROOMS_OUTSIDE 10u       /* a point, cell or box beyond the room, a height that there is none of, or low above high */
#define ROOMS_SCRATCH_SHORT 11u /* the scratch is shorter than the call takes */
#define ROOMS_OUTPUT_SHORT 12u  /* the output is shorter than what would be written */
#define ROOMS_BAD_WISH 13u      /* the wish is out of its range, infinite or no number */
#define ROOMS_TOO_DEEP 14u      /* the depth is above 10, the headset's */
#define ROOMS_LONG_POINTER 15u  /* the packed file has, or would have, a pointer of 4 bytes, which the headset can't read */

/* ---- sizes ---- */

#define ROOMS_MIN_DEPTH 2u
#define ROOMS_MAX_DEPTH 16u
#define ROOMS_HEADSET_DEPTH 10u
#define ROOMS_MAX_SCENES 64u
#define ROOMS_MAX_CAPACITY 65536u

/*
 * Words of a store that keeps up to `capacity` cells at each height, 1 to ROOMS_MAX_CAPACITY: a header of 32, 64 scenes of 2,
 * then for each height `capacity` cells, leaves of 2 words and inner cells of 10: eight pointers and the solid count; then for
 * each of the 15 heights the heads of 256 chains, and for each height a next word for each of `capacity` cells.
 */
#define ROOMS_STORE_WORDS(capacity) \
    ((size_t)160 + (size_t)142 * (size_t)(capacity) + (size_t)3840 + (size_t)15 * (size_t)(capacity))

/* Words of scratch that rooms_pack and rooms_headset_pack take for a store of this capacity. */
#define ROOMS_PACK_SCRATCH_WORDS(capacity) ((size_t)60 * (size_t)(capacity))

/* Bytes of scratch that rooms_check and rooms_headset_check take for a file of this length. */
#define ROOMS_CHECK_SCRATCH_BYTES(file_length) ((size_t)(file_length))

/* Bytes of an empty scene's outline and of its packed file: no file is shorter. */
#define ROOMS_OUTLINE_MIN_BYTES 6u
#define ROOMS_PACKED_MIN_BYTES 7u

/*
 * Bytes that hold any packed scene of a store of this capacity: head, 15 sizes, a root, at each of 13 heights below it at
 * most `capacity` records of at most 34 bytes, and as many leaves of 8.
 */
#define ROOMS_PACKED_MAX_BYTES(capacity) ((size_t)7 + 60 + 34 + (size_t)(8 + 34 * 13) * (size_t)(capacity))

/* Words that rooms_open writes and rooms_ask reads. */
#define ROOMS_OPENED_NUMBERS 16u

/* ---- the store ---- */

/*
 * New store: zeroes the first ROOMS_STORE_WORDS(capacity) words, then sets word 0 to the capacity. What those words held
 * before is lost. Refusals: 1 (capacity out of range, or fewer words than that). The words are then as they were.
 */
uint32_t rooms_new(uint32_t *store, size_t store_words, uint32_t capacity);

/*
 * Add the room of an outline file: its cells are merged into those kept, each new one put at the end of its chain, an inner
 * cell with its solid count. A cell is sought along its chain; the one found is the one that a search of all kept cells, lowest
 * number first, would find. *scene is the scene's number: how many were held before it. An empty room, and one added twice,
 * takes a number too.
 * Refusals, in order: 2 (the whole store is tested), 3, 4, 5, 6 (the file), 7, 8. The store is then as it was.
 * On a store of these calls 2 is never given, and 8, if nothing before it, exactly where at some height the scenes held and
 * this one have more differing cells, images counted once, than the capacity.
 */
uint32_t rooms_add(uint32_t *store, size_t store_words, const uint8_t *file, size_t file_bytes, uint32_t *scene);

/*
 * Voxel (x, y, z) of a scene: *solid is 1 for solid, 0 for empty. *height is the height of the empty cell that holds the
 * voxel: the absent child that ended the walk, or the whole room, D, in an empty scene; it is 0 inside a leaf and for a solid
 * voxel. On any store every voxel of that cell has the same answer, so all of it may be stepped over at once.
 * Refusals, in order: 2 (the store's header), 9, 2 (the scene's two words), 10, 2 (a bad pointer in a cell entered).
 */
uint32_t rooms_voxel(const uint32_t *store, size_t store_words, uint32_t scene, uint32_t x, uint32_t y, uint32_t z,
                     uint32_t *solid, uint32_t *height);

/*
 * Sight line from the centre of one voxel to the centre of another: *blocked is 1 where the segment between them meets a
 * solid voxel other than the two ends, and (*x, *y, *z) is then the first such, seen from the from end; where it meets none
 * the line is clear, and all four are 0. A voxel is met where the segment has a point strictly inside it; one that is only
 * touched, at a face, an edge or a corner, does not block. The ends are never tested, solid or not. Where they are the same
 * voxel, or touch each other, the line is clear. No rounding takes part.
 * Refusals, in order: 2 (the store's header), 9, 2 (the scene's two words), 10 (either end outside), 2 (where rooms_voxel
 * gives it at a voxel met before the answer, the ends left out).
 */
uint32_t rooms_sight(const uint32_t *store, size_t store_words, uint32_t scene, uint32_t from_x, uint32_t from_y,
                     uint32_t from_z, uint32_t to_x, uint32_t to_y, uint32_t to_z, uint32_t *blocked, uint32_t *x,
                     uint32_t *y, uint32_t *z);

/*
 * Cell (x, y, z) among those of a height, 0 to D: *full is 1 for non-empty, 0 for empty. On a store of these calls that
 * says whether it has a solid voxel. On any other, from height 2 up *full says whether the store
 * has a pointer to the cell, whatever the cell holds; at heights 0 and 1 the leaf's bits decide.
 * Refusals: as for a voxel; 10 also where the height is above D. The last 2 is for the cells above the one asked for.
 */
uint32_t rooms_cell(const uint32_t *store, size_t store_words, uint32_t scene, uint32_t height, uint32_t x, uint32_t y,
                    uint32_t z, uint32_t *full);

/*
 * Box: *count is the number of solid voxels from low up to, and not with, high on each axis; 0 where they agree on an axis.
 * Of each inner cell, height 3 and up, that lies wholly inside, the whole room too, the solid count kept with it is taken, and
 * nothing below it is looked at; a leaf is always read. On a store of these calls all counts are true. On any other *count
 * is the sum of the counts taken and of the solid voxels of the leaves read.
 * Refusals: as for a voxel; 10 where on any axis low is above high, or high is above the edge 2^D. The last 2 is given for a
 * count taken that is above 8^h at height h, and, in a cell entered, for bad pointers to children that share a voxel with
 * the box, and for no others.
 */
uint32_t rooms_box(const uint32_t *store, size_t store_words, uint32_t scene, uint32_t low_x, uint32_t low_y,
                   uint32_t low_z, uint32_t high_x, uint32_t high_y, uint32_t high_z, uint64_t *count);

/*
 * Is anything in the way: *solid is 1 where a voxel from low up to, and not with, high on each axis is solid, 0 where none is.
 * *entered is the number of cells entered for that, the root and leaves among them. From the root on they are entered one by
 * one: of a cell's children those that share a voxel with the box, by rising number as the room shows them, each one's own
 * children before the next, up to the first leaf with a solid voxel in the box. A cell entered twice counts twice. *entered is 0
 * in an empty scene and where low and high agree on an axis. The counts kept in the store are not looked at. On a store of these
 * calls *solid is 1 exactly where rooms_box counts more than 0.
 * Refusals: as for a voxel; 10 as for a box. The last 2 is given, in a cell entered, for bad pointers to children that share a
 * voxel with the box, and for no others. All of these are tested before the first of the children is entered; below cells
 * that would be entered after the answer nothing is looked at.
 */
uint32_t rooms_any(const uint32_t *store, size_t store_words, uint32_t scene, uint32_t low_x, uint32_t low_y,
                   uint32_t low_z, uint32_t high_x, uint32_t high_y, uint32_t high_z, uint32_t *solid, uint64_t *entered);

/*
 * Kept: *count is the number of cells kept at a height, 2 to 16, as the store's header has it. On a store of these calls it is
 * the number of differing non-empty cells of that height in the scenes held, images counted once.
 * Refusals, in order: 2 (the store's header), 10.
 */
uint32_t rooms_kept(const uint32_t *store, size_t store_words, uint32_t height, uint32_t *count);

/* ---- files written ---- */

/*
 * Outline of a scene, written to out; *length is its length in bytes. On a store of these calls it is, byte for byte, the file
 * that was added, so the length to lend is that file's. On any other store it is the outline of the scene's voxels; where
 * 12 is given, lend more, up to 4,294,967,295 bytes.
 * Refusals, in order: 2 (the whole store is tested), 9, 12 (also past 4,294,967,295 bytes). out is then as it was.
 */
uint32_t rooms_outline(const uint32_t *store, size_t store_words, uint32_t scene, uint8_t *out, size_t out_bytes,
                       uint32_t *length);

/*
 * Packed file of a scene, written to out; *length is its length in bytes. On a store of these calls it has at most
 * ROOMS_PACKED_MAX_BYTES(capacity), and rooms_check accepts it. scratch may hold anything.
 * Refusals, in order: 2 (the whole store is tested), 9, 11 (fewer than ROOMS_PACK_SCRATCH_WORDS(capacity) words), 12.
 * out is then as it was. After 0 and 12 the scratch needed is zero; after 2, 9 and 11 it is as it was.
 */
uint32_t rooms_pack(const uint32_t *store, size_t store_words, uint32_t scene, uint32_t *scratch, size_t scratch_words,
                    uint8_t *out, size_t out_bytes, uint32_t *length);

/*
 * Packed file of a scene for the headset, written to out; *length is its length in bytes. The headset reads pointers of 2
 * bytes only and has room for depth 10. Accepted, it answers and writes what rooms_pack does, byte for byte; on a store of these
 * calls rooms_headset_check accepts the file.
 * Refusals, in order: 2 (the whole store is tested), 9, 11 (fewer than ROOMS_PACK_SCRATCH_WORDS(capacity) words), 14 (a depth
 * above ROOMS_HEADSET_DEPTH, an empty scene's too), 15 (the file that rooms_pack would write has a pointer of 4 bytes), 12.
 * out is then as it was. After 0, 12, 14 and 15 the scratch needed is zero; after 2, 9 and 11 it is as it was.
 */
uint32_t rooms_headset_pack(const uint32_t *store, size_t store_words, uint32_t scene, uint32_t *scratch,
                            size_t scratch_words, uint8_t *out, size_t out_bytes, uint32_t *length);

/* ---- packed files read: they need no store and no trust ---- */

/*
 * Check of a packed file: accepted exactly where every rule of a proper file holds; *depth is then its depth. scratch may hold
 * anything.
 * Refusals, in order: 11 (scratch shorter than the file), 3, 4, 5, 6.
 * After 0 and 6 the first file_bytes bytes of scratch are zero; otherwise scratch is as it was.
 */
uint32_t rooms_check(const uint8_t *file, size_t file_bytes, uint8_t *scratch, size_t scratch_bytes, uint32_t *depth);

/*
 * Check of a packed file for the headset: accepted exactly where it is proper, its depth is at most ROOMS_HEADSET_DEPTH and none
 * of its pointers takes 4 bytes; *depth is then its depth. scratch may hold anything.
 * Refusals, in order: as rooms_check, 11, 3, 4, 5, 6; then 14 (the depth, an empty scene's too), 15 (a pointer of 4 bytes).
 * After 0, 6, 14 and 15 the first file_bytes bytes of scratch are zero; otherwise scratch is as it was.
 */
uint32_t rooms_headset_check(const uint8_t *file, size_t file_bytes, uint8_t *scratch, size_t scratch_bytes,
                             uint32_t *depth);

/*
 * Voxel (x, y, z) of a packed file: *solid is 1 for solid, 0 for empty; *records is how many records that took, the top one
 * and a leaf among them, none in an empty scene; *height is as for rooms_voxel, and on any file every voxel of that cell has
 * the same answer, *records too. Tested are the head, the sizes and what lies on the path.
 * On a proper file no point inside is refused. On one that is not proper it answers where its path shows no fault: a file of
 * depth 2 with two leaves is answered from the first.
 * Refusals, in order: 3, 4, 5, 10, 6.
 */
uint32_t rooms_packed_voxel(const uint8_t *file, size_t file_bytes, uint32_t x, uint32_t y, uint32_t z, uint32_t *solid,
                            uint32_t *records, uint32_t *height);

/*
 * Opening a packed file for many questions. Accepted, it writes ROOMS_OPENED_NUMBERS words: numbers[0] is the depth, and
 * numbers[k + 1], k from 0 to 14, the position in the file of the list of height k + 2, 0 above the depth and for an empty scene.
 * Refusals, in order: 3, 4, 5, 6 (byte 6 and the sizes), 12 (fewer than 16 numbers). The numbers are then as they were.
 */
uint32_t rooms_open(const uint8_t *file, size_t file_bytes, uint32_t *numbers, size_t numbers_words);

/*
 * Voxel (x, y, z) of an opened packed file: as rooms_packed_voxel, for the numbers that rooms_open wrote.
 * Refusals, in order: 6 (fewer than 16 numbers, or the file doesn't open to them), then as rooms_packed_voxel: 10, 6.
 */
uint32_t rooms_ask(const uint8_t *file, size_t file_bytes, const uint32_t *numbers, size_t numbers_words, uint32_t x,
                   uint32_t y, uint32_t z, uint32_t *solid, uint32_t *records, uint32_t *height);

/* ---- detail ---- */

#define ROOMS_EVERY_VOXEL 0u /* a and b are not looked at */
#define ROOMS_WIDEST_EDGE 1u /* a: the widest edge, 1 to 2^40; b is not looked at */
#define ROOMS_DISTANCE 2u    /* a: the distance, 0 to 2^40; b: the factor, 2^-30 to 2^30 */

/*
 * Detail: *height is the height at which to draw a room of this depth.
 *   ROOMS_EVERY_VOXEL: 0.
 *   ROOMS_WIDEST_EDGE: the greatest h <= depth with 2^h <= a.
 *   ROOMS_DISTANCE: the greatest h <= depth with 2^h times b <= a, or 0 if there is none.
 * Values are compared exactly. -0 counts as 0: fine as a distance, out of range as an edge or a factor.
 * Refusals, in order: 5, 13 (out of range, NaN, infinite; also for another kind).
 */
uint32_t rooms_detail(uint32_t depth, uint32_t kind, double a, double b, uint32_t *height);

#ifdef __cplusplus
}
#endif

#endif
