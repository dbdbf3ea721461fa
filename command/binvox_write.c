/* Writing a binvox file: the leaves of four layers of x at a time, laid out and read in its order. */
#include "binvox.h"

#include <stdio.h>
#include <stdlib.h>
#include <string.h>

#include "progress.h"
#include "slabs.h"

#define RUN_MOST 255u
#define HEAD_MOST 128u

/* The run that is being counted. */
struct run {
    struct bytes *out;
    uint8_t value;
    uint64_t length;
};

/* Writes the run. False where memory is short or the file too long. */
static bool put_run(struct run *run)
{
    while (run->length > 0) {
        uint8_t count = run->length < RUN_MOST ? (uint8_t)run->length : RUN_MOST;
        if (run->out->length > BINVOX_BYTES_MOST - 2 || !bytes_room(run->out, 2)) {
            return false;
        }
        run->out->at[run->out->length++] = run->value;
        run->out->at[run->out->length++] = count;
        run->length -= count;
    }
    return true;
}

static bool add_voxels(struct run *run, uint8_t value, uint64_t count)
{
    if (run->value != value) {
        if (!put_run(run)) {
            return false;
        }
        run->value = value;
    }
    run->length += count;
    return true;
}

/* The voxels of one layer of x: `wide` x `wide` leaves, those along y beside each other. */
static bool add_layer(struct run *run, const uint64_t *slab, uint32_t wide, unsigned x)
{
    for (uint32_t z = 0; z < 4 * wide; z++) {
        for (uint32_t y = 0; y < wide; y++) {
            uint64_t bits = slab[(size_t)(z / 4) * wide + y] >> (x + 16 * (z % 4)) & 0x1111;
            if (bits == 0 || bits == 0x1111) {
                if (!add_voxels(run, bits != 0, 4)) {
                    return false;
                }
                continue;
            }
            for (unsigned i = 0; i < 4; i++) {
                if (!add_voxels(run, bits >> 4 * i & 1, 1)) {
                    return false;
                }
            }
        }
    }
    return true;
}

/* The voxels of four layers of x. */
static bool add_slab(struct run *run, const uint64_t *slab, uint32_t wide)
{
    bool good = true;
    for (unsigned layer = 0; layer < 4 && good; layer++) {
        good = add_layer(run, slab, wide, layer);
    }
    return good;
}

/* Says why a run was not written. */
static int say_unwritten(const struct room *room, const struct bytes *file)
{
    return file->length > BINVOX_BYTES_MOST - 2
               ? say_failed("%s: its binvox file would be longer than 4,294,967,295 bytes", room->name)
               : say_no_memory(2 * file->room);
}

static int add_room(struct run *run, uint64_t *slab, struct slabs *slabs)
{
    size_t leaves = (size_t)slabs->wide * slabs->wide;
    bool good = true, any;
    for (uint32_t x = 0; x < slabs->wide && good; x++) {
        int status = slabs_next(slabs, x, slab, &any);
        if (status != DONE) {
            return status;
        }
        if (any) {
            good = add_slab(run, slab, slabs->wide);
            memset(slab, 0, leaves * sizeof *slab);
        } else {
            good = add_voxels(run, 0, 64 * (uint64_t)leaves);
        }
    }
    return good && put_run(run) ? DONE : say_unwritten(slabs->room, run->out);
}

/* The head, then the runs; `slab` is empty. A voxel is one unit wide. */
static int write_all(struct slabs *slabs, uint64_t *slab, struct bytes *file)
{
    unsigned edge = room_edge(slabs->room);
    if (slab == NULL || !bytes_room(file, HEAD_MOST)) {
        return say_no_memory((size_t)slabs->wide * slabs->wide * sizeof *slab);
    }
    file->length = (size_t)snprintf((char *)file->at, HEAD_MOST, "#binvox 1\ndim %u %u %u\ntranslate 0 0 0\nscale %u\ndata\n",
                                    edge, edge, edge, edge);
    struct run run = {file, 0, 0};
    return add_room(&run, slab, slabs);
}

int binvox_write(const struct room *room, struct bytes *file)
{
    struct slabs slabs;
    memset(file, 0, sizeof *file);
    int status = slabs_begin(&slabs, room);
    if (status != DONE) {
        return status;
    }
    progress_begin("converting", room->name);
    uint64_t *slab = calloc((size_t)slabs.wide * slabs.wide, sizeof *slab);
    status = write_all(&slabs, slab, file);
    progress_end();
    free(slab);
    slabs_free(&slabs);
    if (status != DONE) {
        free(file->at);
    }
    return status;
}
