/* The walk along an outline. */
#include "outline.h"

#define HEAD ROOMS_OUTLINE_MIN_BYTES
#define LEAF_HEIGHT 2u
#define LEAF_BYTES 8u

struct walk {
    const uint8_t *at, *end;
    outline_visit *visit;
    void *with;
};

/* One record and those of its children. The file was accepted; its end is heeded all the same. */
static bool walk_record(struct walk *walk, uint32_t height, uint64_t path)
{
    size_t bytes = height == LEAF_HEIGHT ? LEAF_BYTES : 1;
    if ((size_t)(walk->end - walk->at) < bytes || !walk->visit(walk->with, height, path, walk->at)) {
        return false;
    }
    uint8_t mask = height == LEAF_HEIGHT ? 0 : *walk->at;
    walk->at += bytes;
    for (unsigned child = 0; child < 8; child++) {
        if ((mask >> child & 1) != 0 && !walk_record(walk, height - 1, path << 3 | child)) {
            return false;
        }
    }
    return true;
}

bool outline_walk(const struct room *room, outline_visit *visit, void *with)
{
    struct walk walk = {room->file + HEAD, room->file + room->file_bytes, visit, with};
    return room->file_bytes == HEAD || walk_record(&walk, room->depth, 0);
}

uint64_t leaf_bits(const uint8_t *record)
{
    uint64_t bits = 0;
    for (unsigned i = 0; i < LEAF_BYTES; i++) {
        bits = bits << 8 | record[i];
    }
    return bits;
}
