/* Counting: an outline's records and the store's kept cells; a packed file's records, each as often as the room shows it. */
#include "census.h"

#include <stdlib.h>
#include <string.h>

#include "outline.h"

/* ---- of an outline: what is kept and solid is the library's answer ---- */

static bool count_record(void *with, uint32_t height, uint64_t path, const uint8_t *record)
{
    (void)path, (void)record;
    ((struct census *)with)->octree[height]++;
    return true;
}

static int census_of_outline(const struct room *room, struct census *census)
{
    uint32_t edge = room_edge(room), kept;
    uint32_t number = rooms_box(room->store, room->store_words, room->scene, 0, 0, 0, edge, edge, edge, &census->solid);
    for (uint32_t height = 2; height <= room->depth && number == ROOMS_OK; height++) {
        number = rooms_kept(room->store, room->store_words, height, &kept);
        census->kept[height] = kept;
    }
    if (number != ROOMS_OK) {
        return say_refused(room->name, number);
    }
    if (!outline_walk(room, count_record, census)) {
        return say_failed("%s: its records end early", room->name);
    }
    return DONE;
}

/* ---- of a packed file that check accepted (docs/FORMATS.md) ---- */

/* A list of a packed file, with how often the room shows each record: at the record's place. */
struct list {
    const uint8_t *at;
    size_t bytes, places;
    uint64_t *shown;
};

static uint32_t number_of(const uint8_t *at, unsigned bytes)
{
    uint32_t number = 0;
    for (unsigned i = 0; i < bytes; i++) {
        number = number << 8 | at[i];
    }
    return number;
}

/* The list of a height, no record shown yet; `shown` is NULL where memory is short. */
static struct list list_of(const struct room *room, uint32_t height)
{
    size_t start = room->opened[height - 1];
    size_t end = height == 2 ? room->file_bytes : room->opened[height - 2];
    struct list list = {room->file + start, end - start, (end - start) / (height == 2 ? 8 : 2), NULL};
    list.shown = calloc(list.places + 1, sizeof *list.shown);
    return list;
}

/* Counts the inner record at a position of its list, passes on how often it is shown to its children, and returns its bytes;
 * 0 where it doesn't fit its list. */
static size_t count_inner(const struct list *list, size_t position, const struct list *below)
{
    if (list->bytes - position < 2) {
        return 0;
    }
    uint32_t header = number_of(list->at + position, 2);
    size_t bytes = 2;
    for (unsigned child = 0; child < 8; child++) {
        unsigned width = 2 * (header >> 2 * child & 3);
        if (width == 0) {
            continue;
        }
        if (width > 4 || list->bytes - position - bytes < width) {
            return 0;
        }
        uint32_t place = number_of(list->at + position + bytes, width) & (width == 2 ? 0x1FFFu : 0x1FFFFFFFu);
        if (place >= below->places) {
            return 0;
        }
        below->shown[place] += list->shown[position / 2];
        bytes += width;
    }
    return bytes;
}

static bool count_list(const struct list *list, const struct list *below, uint32_t height, struct census *census)
{
    for (size_t position = 0, bytes; position < list->bytes; position += bytes) {
        bytes = count_inner(list, position, below);
        if (bytes == 0) {
            return false;
        }
        census->kept[height]++;
        census->octree[height] += list->shown[position / 2];
    }
    return true;
}

static unsigned ones(uint64_t bits)
{
    unsigned count = 0;
    for (; bits != 0; bits &= bits - 1) {
        count++;
    }
    return count;
}

static void count_leaves(const struct list *list, struct census *census)
{
    for (size_t number = 0; number < list->places; number++) {
        census->kept[2]++;
        census->octree[2] += list->shown[number];
        census->solid += list->shown[number] * ones(leaf_bits(list->at + 8 * number));
    }
}

/* Counts the lists from the top down to the leaves; `list` is the top one. Its memory is freed. */
static int count_lists(const struct room *room, struct list list, struct census *census)
{
    list.shown[0] = 1;
    for (uint32_t height = room->depth; height > 2; height--) {
        struct list below = list_of(room, height - 1);
        size_t memory = (list.places + below.places) * sizeof *list.shown;
        bool good = below.shown != NULL && count_list(&list, &below, height, census);
        free(list.shown);
        if (!good) {
            int status = below.shown == NULL ? say_no_memory(memory) : say_refused(room->name, ROOMS_BROKEN_RULES);
            free(below.shown);
            return status;
        }
        census->memory = memory > census->memory ? memory : census->memory;
        list = below;
    }
    count_leaves(&list, census);
    free(list.shown);
    return DONE;
}

static int census_of_packed(const struct room *room, struct census *census)
{
    if (room->file_bytes == ROOMS_PACKED_MIN_BYTES) {
        return DONE;
    }
    struct list top = list_of(room, room->depth);
    census->memory = top.places * sizeof *top.shown;
    return top.shown == NULL ? say_no_memory(census->memory) : count_lists(room, top, census);
}

int census_take(const struct room *room, struct census *census)
{
    memset(census, 0, sizeof *census);
    return room->packed ? census_of_packed(room, census) : census_of_outline(room, census);
}
