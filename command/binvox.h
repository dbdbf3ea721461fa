/* Binvox files: a head in text, then runs of voxels, y fastest, then z, then x. */
#ifndef BINVOX_H
#define BINVOX_H

#include "leaves.h"

/* A room of this depth is the largest written: a deeper one would take gigabytes even where it is empty. No file written is longer
 * than this: a small packed file can hold a room whose binvox file would take hundreds of gigabytes. */
#define BINVOX_DEPTH_MOST 12u
#define BINVOX_BYTES_MOST ((size_t)UINT32_MAX)

/* What a binvox file says of itself. */
struct binvox {
    uint32_t size[AXES]; /* along x, y, z */
    uint64_t solid;
    bool placed; /* it has a translate or a scale, which a room doesn't keep */
};

/* The leaves of a binvox file, the room at the corner (0, 0, 0). Says what failed; there are then none to free. */
int binvox_read(const char *path, struct binvox *binvox, struct leaves *leaves);

/* The binvox file of a room, BINVOX_DEPTH_MOST deep at most. Says what failed; there is then nothing to free. */
int binvox_write(const struct room *room, struct bytes *file);

#endif
