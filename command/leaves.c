/* Leaves, and the outline made of them. */
#include "leaves.h"

#include <stdlib.h>
#include <string.h>

#include "progress.h"

bool leaves_add(struct leaves *leaves, const struct leaf *leaf)
{
    if (leaves->count == leaves->room) {
        size_t room = leaves->room == 0 ? 1024 : 2 * leaves->room;
        if (room > SIZE_MAX / 2 / sizeof *leaf) {
            return false;
        }
        struct leaf *at = realloc(leaves->at, room * sizeof *leaf);
        if (at == NULL) {
            return false;
        }
        leaves->at = at;
        leaves->room = room;
    }
    leaves->at[leaves->count++] = *leaf;
    return true;
}

void leaves_free(struct leaves *leaves)
{
    free(leaves->at);
    memset(leaves, 0, sizeof *leaves);
}

/* The child number at a height of the cells that hold a leaf. */
static unsigned child_at(const struct leaf *leaf, uint32_t height)
{
    unsigned bit = height - 3;
    return (leaf->at[0] >> bit & 1u) + 2 * (leaf->at[1] >> bit & 1u) + 4 * (leaf->at[2] >> bit & 1u);
}

/* In the order of an outline: the axis whose coordinates differ in the highest bit decides, of those z, then y, then x. */
static int compare_outline(const void *a, const void *b)
{
    const struct leaf *first = a, *second = b;
    unsigned deciding = AXES - 1, most = 0;
    for (unsigned i = 0; i < AXES; i++) {
        unsigned axis = AXES - 1 - i;
        unsigned differing = (unsigned)(first->at[axis] ^ second->at[axis]);
        if (most < differing && (most ^ differing) > most) {
            most = differing;
            deciding = axis;
        }
    }
    return (first->at[deciding] > second->at[deciding]) - (first->at[deciding] < second->at[deciding]);
}

/* ---- to an outline ---- */

/* Writes the record of the cell of this height that has the leaves from `start` up to, and not with, `end`: at least one. Nothing
 * more where the outline is too long already. False where memory is short. */
static bool put_record(const struct leaves *leaves, size_t start, size_t end, uint32_t height, struct bytes *out)
{
    if (out->length > ROOM_BYTES_MOST) {
        return true;
    }
    if (!bytes_room(out, 8)) {
        return false;
    }
    if (height == 2) {
        for (unsigned i = 0; i < 8; i++) {
            out->at[out->length++] = (uint8_t)(leaves->at[start].bits >> (56 - 8 * i));
        }
        return true;
    }
    size_t mask_at = out->length++;
    unsigned mask = 0;
    while (start < end) {
        unsigned child = child_at(&leaves->at[start], height);
        size_t next = start + 1;
        while (next < end && child_at(&leaves->at[next], height) == child) {
            next++;
        }
        mask |= 1u << child;
        if (!put_record(leaves, start, next, height - 1, out)) {
            return false;
        }
        start = next;
    }
    out->at[mask_at] = (uint8_t)mask;
    return true;
}

int say_outline_long(const char *name)
{
    return say_failed("%s: the room's outline would be longer than 4,294,967,295 bytes", name);
}

/* The head of an outline, whose other bytes are there. */
static void put_head(struct bytes *outline, uint32_t depth)
{
    outline->at[0] = OUTLINE_VERSION;
    for (unsigned i = 0; i < 4; i++) {
        outline->at[1 + i] = (uint8_t)(outline->length >> (24 - 8 * i));
    }
    outline->at[OUTLINE_DEPTH_AT] = (uint8_t)depth;
}

int leaves_outline(struct leaves *leaves, uint32_t depth, const char *name, struct bytes *outline)
{
    memset(outline, 0, sizeof *outline);
    if (leaves->count > LEAVES_MOST) {
        return say_outline_long(name);
    }
    progress_begin("sorting", name);
    if (leaves->count > 0) {
        qsort(leaves->at, leaves->count, sizeof *leaves->at, compare_outline);
    }
    bool good = bytes_room(outline, ROOMS_OUTLINE_MIN_BYTES);
    outline->length = ROOMS_OUTLINE_MIN_BYTES;
    good = good && (leaves->count == 0 || put_record(leaves, 0, leaves->count, depth, outline));
    progress_end();
    if (good && outline->length <= ROOM_BYTES_MOST) {
        put_head(outline, depth);
        return DONE;
    }
    free(outline->at);
    return good ? say_outline_long(name) : say_no_memory(outline->length);
}
