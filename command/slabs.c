/* The leaves of a room by slabs: an outline's are listed and sorted first; a packed file is asked slab by slab, so that a small one,
 * which can hold a large room, takes no more memory than a slab. */
#include "slabs.h"

#include <stdlib.h>
#include <string.h>

#include "outline.h"
#include "progress.h"

/* ---- of an outline ---- */

/* Where the leaf at the end of a path lies: three bits of the path for each height. */
static void leaf_place(uint64_t path, uint16_t at[AXES])
{
    for (unsigned axis = 0; axis < AXES; axis++) {
        at[axis] = 0;
    }
    for (unsigned i = 0; path >> 3 * i != 0; i++) {
        for (unsigned axis = 0; axis < AXES; axis++) {
            at[axis] = (uint16_t)(at[axis] | (path >> (3 * i + axis) & 1) << i);
        }
    }
}

static bool add_record(void *with, uint32_t height, uint64_t path, const uint8_t *record)
{
    struct leaf leaf;
    if (height != 2) {
        return true;
    }
    leaf_place(path, leaf.at);
    leaf.bits = leaf_bits(record);
    return leaves_add(with, &leaf);
}

static int compare_x(const void *a, const void *b)
{
    const struct leaf *first = a, *second = b;
    return (first->at[0] > second->at[0]) - (first->at[0] < second->at[0]);
}

static void next_listed(struct slabs *slabs, uint32_t x, uint64_t *slab)
{
    const struct leaves *leaves = &slabs->leaves;
    for (; slabs->next < leaves->count && leaves->at[slabs->next].at[0] == x; slabs->next++) {
        const struct leaf *leaf = &leaves->at[slabs->next];
        slab[(size_t)leaf->at[2] * slabs->wide + leaf->at[1]] = leaf->bits;
    }
}

/* ---- of a packed file ---- */

/* The 64 voxels of a leaf, asked one by one. Returns the library's answer. */
static uint32_t ask_leaf(const struct room *room, const uint32_t low[AXES], uint64_t *bits)
{
    uint32_t number = ROOMS_OK, solid, height;
    for (unsigned bit = 0; bit < 64 && number == ROOMS_OK; bit++) {
        uint32_t point[AXES] = {low[0] + bit % 4, low[1] + bit / 4 % 4, low[2] + bit / 16};
        number = room_voxel(room, point, &solid, &height);
        *bits |= (uint64_t)solid << bit;
    }
    return number;
}

/* The leaves of the square of edge 2^height at `low`, stepping over empty cells. Returns the library's answer. */
static uint32_t ask_square(struct slabs *slabs, const uint32_t low[AXES], uint32_t height, uint64_t *slab, bool *any)
{
    uint32_t solid, empty_height;
    uint32_t number = room_voxel(slabs->room, low, &solid, &empty_height);
    if (number != ROOMS_OK || (!solid && empty_height >= height)) {
        return number;
    }
    if (height == 2) {
        *any = true;
        return ask_leaf(slabs->room, low, &slab[(size_t)(low[2] / 4) * slabs->wide + low[1] / 4]);
    }
    uint32_t half = (uint32_t)1 << (height - 1);
    for (unsigned i = 0; i < 4 && number == ROOMS_OK; i++) {
        uint32_t corner[AXES] = {low[0], low[1] + (i & 1) * half, low[2] + (i >> 1) * half};
        number = ask_square(slabs, corner, height - 1, slab, any);
    }
    return number;
}

/* ---- of either ---- */

int slabs_begin(struct slabs *slabs, const struct room *room)
{
    memset(slabs, 0, sizeof *slabs);
    slabs->room = room;
    slabs->wide = room_edge(room) / 4;
    if (room->packed) {
        return DONE;
    }
    progress_begin("reading", room->name);
    bool good = outline_walk(room, add_record, &slabs->leaves);
    if (good && slabs->leaves.count > 0) {
        qsort(slabs->leaves.at, slabs->leaves.count, sizeof *slabs->leaves.at, compare_x);
    }
    progress_end();
    if (!good) {
        int status = say_no_memory(2 * slabs->leaves.room * sizeof *slabs->leaves.at);
        slabs_free(slabs);
        return status;
    }
    return DONE;
}

void slabs_free(struct slabs *slabs)
{
    leaves_free(&slabs->leaves);
}

int slabs_next(struct slabs *slabs, uint32_t x, uint64_t *slab, bool *any)
{
    *any = false;
    if (!slabs->room->packed) {
        size_t before = slabs->next;
        next_listed(slabs, x, slab);
        *any = slabs->next != before;
        return DONE;
    }
    uint32_t low[AXES] = {4 * x, 0, 0};
    uint32_t number = ask_square(slabs, low, slabs->room->depth, slab, any);
    return number == ROOMS_OK ? DONE : say_refused(slabs->room->name, number);
}
