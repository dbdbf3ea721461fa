/* The leaves of a room by slabs: four layers of x at a time, as a binvox file has its voxels. */
#ifndef SLABS_H
#define SLABS_H

#include "leaves.h"

struct slabs {
    const struct room *room;
    uint32_t wide;        /* leaves along the room's edge */
    struct leaves leaves; /* of an outline: all of them, by rising x */
    size_t next;          /* the first of them that no slab has had */
};

/* Begins. Says what failed; there is then nothing to free. */
int slabs_begin(struct slabs *slabs, const struct room *room);
void slabs_free(struct slabs *slabs);

/* The next slab, `x` counted in leaves from 0: sets the leaves that are not empty in `slab`, wide x wide empty ones, those along y
 * beside each other. *any is whether there are any. Says what failed. */
int slabs_next(struct slabs *slabs, uint32_t x, uint64_t *slab, bool *any);

#endif
