/* rooms from-binvox, rooms to-binvox. */
#include "command.h"

#include <inttypes.h>
#include <stdio.h>
#include <stdlib.h>

#include "binvox.h"

const char from_binvox_help[] =
    "Writes the outline OUT of the voxels of the binvox file IN. Sizes of 1 to 65,536 are taken; a room that is no cube, or whose\n"
    "edge is no power of two, is set into the corner (0, 0, 0) of the next larger one, and that is told. Axes keep their names;\n"
    "translate and scale are not kept.\n"
    "  --json    sizes, depth, solid voxels and bytes as JSON\n"
    "\n"
    "  rooms from-binvox scan.binvox plant.outline\n";
const char to_binvox_help[] =
    "Writes the binvox file OUT of the room IN, an outline or a packed file, of depth 12 at most. Axes keep their names; a voxel\n"
    "is one unit wide, with the room's corner at 0 0 0.\n"
    "  --json    depth and bytes as JSON\n"
    "\n"
    "  rooms to-binvox plant.outline plant.binvox\n";

/* The least depth whose edge holds these sizes. */
static uint32_t depth_for(const uint32_t size[AXES])
{
    uint32_t depth = ROOMS_MIN_DEPTH;
    for (unsigned axis = 0; axis < AXES; axis++) {
        while ((uint32_t)1 << depth < size[axis]) {
            depth++;
        }
    }
    return depth;
}

static void say_read(const struct arguments *a, const struct binvox *binvox, uint32_t depth, size_t length)
{
    const uint32_t *size = binvox->size;
    uint32_t edge = (uint32_t)1 << depth;
    char number[GROUPED_BYTES], bytes[GROUPED_BYTES], name[SHOWN_BYTES];
    if (a->json) {
        printf("{\"size\":[%" PRIu32 ",%" PRIu32 ",%" PRIu32 "]", size[0], size[1], size[2]);
        printf(",\"depth\":%" PRIu32 ",\"solid\":%" PRIu64 ",\"bytes\":%zu}\n", depth, binvox->solid, length);
        return;
    }
    printf("%s: an outline of depth %" PRIu32 ", %s solid voxels, %s bytes\n", shown(a->words[1], name), depth,
           grouped(binvox->solid, number), grouped(length, bytes));
    if (size[0] != edge || size[1] != edge || size[2] != edge) {
        printf("the voxels, %" PRIu32 " x %" PRIu32 " x %" PRIu32 ", are set into the corner 0 0 0 of a room of edge %" PRIu32
               "; the rest of it is empty\n",
               size[0], size[1], size[2], edge);
    }
    if (binvox->placed) {
        printf("translate and scale are not kept\n");
    }
}

int run_from_binvox(const struct arguments *a)
{
    struct bytes outline;
    struct binvox binvox;
    struct leaves leaves;
    int status = binvox_read(a->words[0], &binvox, &leaves);
    if (status != DONE) {
        return status;
    }
    uint32_t depth = depth_for(binvox.size);
    status = leaves_outline(&leaves, depth, a->words[0], &outline);
    leaves_free(&leaves);
    if (status == DONE) {
        status = file_write(a->words[1], a->words[0], outline.at, outline.length);
        free(outline.at);
    }
    if (status == DONE) {
        say_read(a, &binvox, depth, outline.length);
    }
    return status;
}

static void say_written(const struct arguments *a, const struct room *room, size_t length)
{
    char number[GROUPED_BYTES], name[SHOWN_BYTES];
    uint32_t edge = room_edge(room);
    if (a->json) {
        printf("{\"depth\":%" PRIu32 ",\"bytes\":%zu}\n", room->depth, length);
        return;
    }
    printf("%s: a binvox file of %" PRIu32 " x %" PRIu32 " x %" PRIu32 " voxels, %s bytes\n", shown(a->words[1], name), edge, edge,
           edge, grouped(length, number));
}

static int write_binvox(const struct arguments *a, const struct room *room)
{
    struct bytes file;
    if (room->depth > BINVOX_DEPTH_MOST) {
        return say_failed("%s: of depth %" PRIu32 "; binvox files are written up to depth %u", room->name, room->depth,
                          BINVOX_DEPTH_MOST);
    }
    int status = binvox_write(room, &file);
    if (status != DONE) {
        return status;
    }
    status = file_write(a->words[1], room->name, file.at, file.length);
    free(file.at);
    if (status == DONE) {
        say_written(a, room, file.length);
    }
    return status;
}

int run_to_binvox(const struct arguments *a)
{
    struct room room;
    int status = room_read(&room, a->words[0]);
    if (status == DONE) {
        status = write_binvox(a, &room);
        room_free(&room);
    }
    return status;
}
