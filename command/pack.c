/* rooms pack, rooms headset, rooms check. */
#include "packing.h"

#include <stdlib.h>
#include <string.h>
#include <stdio.h>
#include <inttypes.h>

#include "progress.h"

const char pack_help[] =
    "Packs the room of the outline IN and writes the packed file OUT: each differing cell once, mirror images included.\n"
    "OUT appears whole or not at all, and never over IN.\n"
    "  --json    depth, and bytes of both files, as JSON\n"
    "\n"
    "  rooms pack plant.outline plant.packed\n";

const char headset_help[] =
    "Packs the room of the outline IN as rooms pack does, and writes OUT where the headset can read it: its depth is at most 10\n"
    "and no pointer is long. Otherwise it is refused, by 14 or by 15, and nothing is written. The bytes are those of rooms pack.\n"
    "  --json    depth, and bytes of both files, as JSON\n"
    "\n"
    "  rooms headset plant.outline plant.packed\n";

int room_pack(const struct room *room, pack_call *pack, struct bytes *packed, size_t *memory)
{
    size_t scratch_words = ROOMS_PACK_SCRATCH_WORDS(room->capacity);
    size_t most = ROOMS_PACKED_MAX_BYTES(room->capacity);
    uint32_t length = 0;
    uint32_t *scratch = malloc(scratch_words * sizeof *scratch);
    memset(packed, 0, sizeof *packed);
    *memory = scratch_words * sizeof *scratch + most;
    if (scratch == NULL || !bytes_room(packed, most)) {
        free(scratch);
        return say_no_memory(*memory);
    }
    progress_begin("packing", room->name);
    uint32_t number = pack(room->store, room->store_words, room->scene, scratch, scratch_words, packed->at, most, &length);
    progress_end();
    free(scratch);
    if (number != ROOMS_OK) {
        free(packed->at);
        return say_refused(room->name, number);
    }
    packed->length = length;
    return DONE;
}

static void say_packed(const struct arguments *a, const struct room *room, const char *whose, size_t length)
{
    char from[GROUPED_BYTES], to[GROUPED_BYTES], name[SHOWN_BYTES];
    if (a->json) {
        printf("{\"depth\":%" PRIu32 ",\"outline\":%zu,\"packed\":%zu}\n", room->depth, room->file_bytes, length);
        return;
    }
    printf("%s: a packed file%s of depth %" PRIu32 ", %s bytes; the outline has %s\n", shown(a->words[1], name), whose,
           room->depth, grouped(length, to), grouped(room->file_bytes, from));
}

/* Packs the first file named to the second. `whose` says for whom. */
static int pack_file(const struct arguments *a, pack_call *pack, const char *whose)
{
    struct room room;
    struct bytes packed;
    size_t memory;
    int status = room_read(&room, a->words[0]);
    if (status != DONE) {
        return status;
    }
    status = room.packed ? say_no_store(&room, "packing") : room_pack(&room, pack, &packed, &memory);
    if (status == DONE) {
        status = file_write(a->words[1], a->words[0], packed.at, packed.length);
        if (status == DONE) {
            say_packed(a, &room, whose, packed.length);
        }
        free(packed.at);
    }
    room_free(&room);
    return status;
}

int run_pack(const struct arguments *a)
{
    return pack_file(a, rooms_pack, "");
}

int run_headset(const struct arguments *a)
{
    return pack_file(a, rooms_headset_pack, " for the headset,");
}

/* ---- check ---- */

const char check_help[] =
    "Says whether a packed file is proper, or an outline one that a store accepts: every rule is tested by the library.\n"
    "Status 1 where a rule is broken; standard error then has the refusal's number and words.\n"
    "  --headset    whether the headset can read a packed file, too: its depth is at most 10 and no pointer is long\n"
    "  --json       kind, depth and bytes as JSON\n"
    "\n"
    "  rooms check plant.packed\n";

static void say_checked(const struct arguments *a, const struct room *room)
{
    char bytes[GROUPED_BYTES], name[SHOWN_BYTES];
    if (a->json) {
        printf("{\"kind\":\"%s\",\"depth\":%" PRIu32 ",\"bytes\":%zu%s}\n", room->packed ? "packed" : "outline", room->depth,
               room->file_bytes, a->headset ? ",\"headset\":true" : "");
        return;
    }
    printf("%s: %s of depth %" PRIu32 ", %s bytes%s\n", shown(room->name, name),
           room->packed ? "a proper packed file" : "an outline, accepted,", room->depth, grouped(room->file_bytes, bytes),
           a->headset ? "; the headset can read it" : "");
}

int run_check(const struct arguments *a)
{
    struct room room;
    int status = room_read_checked(&room, a->words[0], a->headset ? rooms_headset_check : rooms_check);
    if (status != DONE) {
        return status;
    }
    if (a->headset && !room.packed) {
        status = say_failed("%s: an outline; the headset's check is for packed files, which rooms headset writes", room.name);
    } else {
        say_checked(a, &room);
    }
    room_free(&room);
    return status;
}
