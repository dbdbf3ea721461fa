/* A room read from a file, ready to be asked: an outline in a store of its own, or a packed file as it lies. */
#ifndef ROOM_H
#define ROOM_H

#include "command.h"

/* The first byte of an outline. A file that begins otherwise is taken for a packed one, and the library judges it. */
#define OUTLINE_VERSION 0x11u
#define OUTLINE_DEPTH_AT 5u

/* No file of a room is longer: its length stands in four bytes. */
#define ROOM_BYTES_MOST ((size_t)UINT32_MAX)

struct room {
    const char *name;
    uint8_t *file;
    size_t file_bytes;
    bool packed;
    uint32_t depth;
    /* of an outline: a store that holds this room alone */
    uint32_t *store;
    size_t store_words;
    uint32_t capacity, scene;
    /* of a packed file: what it opens to */
    uint32_t opened[ROOMS_OPENED_NUMBERS];
};

/* A check of a packed file: rooms_check, or the headset's. */
typedef uint32_t check_call(const uint8_t *file, size_t file_bytes, uint8_t *scratch, size_t scratch_bytes, uint32_t *depth);

/* Reads a room: an outline is added to a store whose capacity is found by doubling, a packed file is checked as a whole and
 * opened. Says what failed; the room is then empty and need not be freed. */
int room_read(struct room *room, const char *path);

/* The same, with this check of a packed file. */
int room_read_checked(struct room *room, const char *path, check_call *check);
void room_free(struct room *room);

/* A voxel, asked of the store or of the packed file. */
uint32_t room_voxel(const struct room *room, const uint32_t point[AXES], uint32_t *solid, uint32_t *height);

/* Says that a packed file has no store, which `what` needs. */
int say_no_store(const struct room *room, const char *what);

static inline uint32_t room_edge(const struct room *room)
{
    return (uint32_t)1 << room->depth;
}

/* Bytes of the memory that the room takes: its file and its store. */
static inline size_t room_memory(const struct room *room)
{
    return room->file_bytes + room->store_words * sizeof *room->store;
}

#endif
