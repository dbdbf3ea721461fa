/* A room read from a file: a store by doubling for an outline, a check and an opening for a packed file. */
#include "room.h"

#include <stdlib.h>
#include <string.h>

#include "file.h"
#include "progress.h"

#define FIRST_CAPACITY 256u

/* Adds the room to a store of this capacity. *number is the library's answer; false where memory is short. */
static bool add(struct room *room, uint32_t capacity, uint32_t *number)
{
    room->capacity = capacity;
    room->store_words = ROOMS_STORE_WORDS(capacity);
    room->store = malloc(room->store_words * sizeof *room->store);
    if (room->store == NULL) {
        return false;
    }
    *number = rooms_new(room->store, room->store_words, capacity);
    if (*number == ROOMS_OK) {
        *number = rooms_add(room->store, room->store_words, room->file, room->file_bytes, &room->scene);
    }
    return true;
}

static int add_by_doubling(struct room *room)
{
    uint32_t number = ROOMS_CELLS_FULL;
    progress_begin("adding", room->name);
    for (uint32_t capacity = FIRST_CAPACITY; number == ROOMS_CELLS_FULL && capacity <= ROOMS_MAX_CAPACITY; capacity *= 2) {
        free(room->store);
        if (!add(room, capacity, &number)) {
            return say_no_memory(room->store_words * sizeof *room->store);
        }
    }
    progress_end();
    if (number != ROOMS_OK) {
        return say_refused(room->name, number);
    }
    room->depth = room->file[OUTLINE_DEPTH_AT];
    return DONE;
}

static int check_and_open(struct room *room, check_call *check)
{
    size_t scratch_bytes = ROOMS_CHECK_SCRATCH_BYTES(room->file_bytes);
    uint8_t *scratch = malloc(scratch_bytes + 1);
    if (scratch == NULL) {
        return say_no_memory(scratch_bytes);
    }
    progress_begin("checking", room->name);
    uint32_t number = check(room->file, room->file_bytes, scratch, scratch_bytes, &room->depth);
    progress_end();
    free(scratch);
    if (number == ROOMS_OK) {
        number = rooms_open(room->file, room->file_bytes, room->opened, ROOMS_OPENED_NUMBERS);
    }
    return number == ROOMS_OK ? DONE : say_refused(room->name, number);
}

int room_read_checked(struct room *room, const char *path, check_call *check)
{
    struct bytes bytes;
    memset(room, 0, sizeof *room);
    int status = file_read(path, ROOM_BYTES_MOST, &bytes);
    room->name = path;
    room->file = bytes.at;
    room->file_bytes = bytes.length;
    if (status == DONE) {
        room->packed = bytes.length == 0 || bytes.at[0] != OUTLINE_VERSION;
        status = room->packed ? check_and_open(room, check) : add_by_doubling(room);
    }
    if (status != DONE) {
        room_free(room);
    }
    return status;
}

int room_read(struct room *room, const char *path)
{
    return room_read_checked(room, path, rooms_check);
}

void room_free(struct room *room)
{
    free(room->file);
    free(room->store);
    memset(room, 0, sizeof *room);
}

uint32_t room_voxel(const struct room *room, const uint32_t point[AXES], uint32_t *solid, uint32_t *height)
{
    uint32_t records;
    if (room->packed) {
        return rooms_ask(room->file, room->file_bytes, room->opened, ROOMS_OPENED_NUMBERS, point[0], point[1], point[2], solid,
                         &records, height);
    }
    return rooms_voxel(room->store, room->store_words, room->scene, point[0], point[1], point[2], solid, height);
}

int say_no_store(const struct room *room, const char *what)
{
    return say_failed("%s: a packed file; %s needs a store, which takes the room's outline", room->name, what);
}
