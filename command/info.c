/* rooms info. */
#include "command.h"

#include <inttypes.h>
#include <stdio.h>
#include <stdlib.h>

#include "census.h"
#include "packing.h"

const char info_help[] =
    "Says of each room its depth, its solid voxels, the cells kept at each height beside those of an octree, the length of its\n"
    "packed file, the bits that are for a solid voxel, and the memory taken. An outline is added to a store of its own, whose\n"
    "capacity is found by doubling; a packed file is checked, and counted as it lies.\n"
    "  --json    a line of JSON for each file\n"
    "\n"
    "  rooms info plant.outline plant.packed\n";

struct facts {
    struct census census;
    size_t packed;  /* bytes of the packed file */
    size_t packing; /* bytes of memory that packing took; 0 where it was packed */
};

static int facts_find(const struct room *room, struct facts *facts)
{
    struct bytes packed;
    int status = census_take(room, &facts->census);
    facts->packed = room->file_bytes;
    facts->packing = 0;
    if (status == DONE && !room->packed) {
        status = room_pack(room, rooms_pack, &packed, &facts->packing);
        if (status == DONE) {
            facts->packed = packed.length;
            free(packed.at);
        }
    }
    return status;
}

/* Thousandths of a bit for each solid voxel, rounded down. */
static uint64_t bits_each(const struct facts *facts)
{
    return (uint64_t)facts->packed * 8000 / facts->census.solid;
}

static void print_words(const struct room *room, const struct facts *facts)
{
    char a[GROUPED_BYTES], b[GROUPED_BYTES], c[GROUPED_BYTES], name[SHOWN_BYTES];
    printf("%s: %s of %s bytes\n", shown(room->name, name), room->packed ? "a packed file" : "an outline",
           grouped(room->file_bytes, a));
    printf("depth %" PRIu32 ", edge %s voxels\n", room->depth, grouped(room_edge(room), a));
    printf("solid voxels %s of %s\n", grouped(facts->census.solid, a), grouped((uint64_t)1 << 3 * room->depth, b));
    printf("height  cells in an octree  cells kept\n");
    for (uint32_t height = room->depth; height >= 2; height--) {
        printf("%6" PRIu32 "  %18s  %10s\n", height, grouped(facts->census.octree[height], a),
               grouped(facts->census.kept[height], b));
    }
    printf("packed length %s bytes", grouped(facts->packed, a));
    if (facts->census.solid > 0) {
        printf(", %s.%03u bits a solid voxel", grouped(bits_each(facts) / 1000, a), (unsigned)(bits_each(facts) % 1000));
    }
    if (room->packed) {
        printf("\nmemory: the file, %s bytes; for the check as many more, for counting %s\n", grouped(room_memory(room), a),
               grouped(facts->census.memory, b));
        return;
    }
    printf("\nmemory: file and store of capacity %s, %s bytes; for packing %s more\n", grouped(room->capacity, a),
           grouped(room_memory(room), b), grouped(facts->packing, c));
}

static void print_json(const struct room *room, const struct facts *facts)
{
    printf("{\"file\":");
    print_json_string(room->name);
    printf(",\"kind\":\"%s\",\"bytes\":%zu,\"depth\":%" PRIu32 ",\"solid\":%" PRIu64 ",\"heights\":[",
           room->packed ? "packed" : "outline", room->file_bytes, room->depth, facts->census.solid);
    for (uint32_t height = room->depth; height >= 2; height--) {
        printf("%s{\"height\":%" PRIu32 ",\"octree\":%" PRIu64 ",\"kept\":%" PRIu64 "}", height == room->depth ? "" : ",", height,
               facts->census.octree[height], facts->census.kept[height]);
    }
    printf("],\"packed\":%zu", facts->packed);
    if (facts->census.solid > 0) {
        printf(",\"bits\":%" PRIu64 ".%03u", bits_each(facts) / 1000, (unsigned)(bits_each(facts) % 1000));
    }
    if (room->packed) {
        printf(",\"memory\":%zu,\"checking\":%zu,\"counting\":%zu}\n", room_memory(room), room->file_bytes, facts->census.memory);
        return;
    }
    printf(",\"capacity\":%" PRIu32 ",\"memory\":%zu,\"packing\":%zu}\n", room->capacity, room_memory(room), facts->packing);
}

static int info(const struct arguments *a, const char *path)
{
    struct room room;
    struct facts facts;
    int status = room_read(&room, path);
    if (status != DONE) {
        return status;
    }
    status = facts_find(&room, &facts);
    if (status == DONE && a->json) {
        print_json(&room, &facts);
    } else if (status == DONE) {
        print_words(&room, &facts);
    }
    room_free(&room);
    return status;
}

int run_info(const struct arguments *a)
{
    int status = DONE;
    for (int i = 0; i < a->count; i++) {
        if (i > 0 && !a->json) {
            putchar('\n');
        }
        int one = info(a, a->words[i]);
        status = one > status ? one : status;
    }
    return status;
}
