/* The cells of a room, counted: all of them, as an octree has them, and the differing ones, images once. */
#ifndef CENSUS_H
#define CENSUS_H

#include "room.h"

struct census {
    uint64_t octree[ROOMS_MAX_DEPTH + 1]; /* by height: non-empty cells */
    uint64_t kept[ROOMS_MAX_DEPTH + 1];   /* by height: differing ones */
    uint64_t solid;                       /* voxels */
    size_t memory;                        /* bytes that counting took */
};

/* Counts. Says what failed. */
int census_take(const struct room *room, struct census *census);

#endif
