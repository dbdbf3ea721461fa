/* A room as the list of its non-empty leaves, and the outline made of them. */
#ifndef LEAVES_H
#define LEAVES_H

#include "file.h"
#include "room.h"

/* A non-empty leaf: where it lies, counted in leaves, and its 64 voxels. */
struct leaf {
    uint16_t at[AXES];
    uint64_t bits;
};

struct leaves {
    struct leaf *at;
    size_t count, room;
};

/* No outline has more. */
#define LEAVES_MOST ((ROOM_BYTES_MOST - ROOMS_OUTLINE_MIN_BYTES) / 8)

/* Adds a leaf; false where memory is short. */
bool leaves_add(struct leaves *leaves, const struct leaf *leaf);
void leaves_free(struct leaves *leaves);

/* Says that an outline would be too long. */
int say_outline_long(const char *name);

/* Sorts the leaves and writes the outline of the room of this depth that has them; `name` is that of the file they are from. Says
 * what failed. */
int leaves_outline(struct leaves *leaves, uint32_t depth, const char *name, struct bytes *outline);

#endif
