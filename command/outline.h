/* Outlines that the library has accepted, walked; and outlines written from leaves. */
#ifndef OUTLINE_H
#define OUTLINE_H

#include "file.h"
#include "room.h"

/* What is done at each record of an outline. `path` has the child numbers from the root down, three bits each; `record` is
 * where the record begins. False ends the walk. */
typedef bool outline_visit(void *with, uint32_t height, uint64_t path, const uint8_t *record);

/* Visits all records of an outline that was accepted, in the order of the file; false where a visit was false. */
bool outline_walk(const struct room *room, outline_visit *visit, void *with);

/* A leaf's eight bytes as a number. */
uint64_t leaf_bits(const uint8_t *record);

#endif
