/* Reading a binvox file: its head, then its runs, four layers of x at a time. */
#include "binvox.h"

#include <stdlib.h>
#include <string.h>

#include "progress.h"

#define RUN_MOST 255u
#define SIZE_MOST ((uint32_t)1 << ROOMS_MAX_DEPTH)

/* ---- the head ---- */

struct head {
    const uint8_t *at, *end;
};

static bool is_blank(uint8_t c)
{
    return c == ' ' || c == '\t' || c == '\r';
}

/* Takes a line; false where there is no line end any more. */
static bool take_line(struct head *head, struct head *line)
{
    const uint8_t *newline = memchr(head->at, '\n', (size_t)(head->end - head->at));
    if (newline == NULL) {
        return false;
    }
    line->at = head->at;
    line->end = newline;
    while (line->end > line->at && is_blank(line->end[-1])) {
        line->end--;
    }
    head->at = newline + 1;
    return true;
}

/* Takes a word of a line where it is this one. */
static bool take_word(struct head *line, const char *word)
{
    size_t length = strlen(word);
    const uint8_t *at = line->at;
    if ((size_t)(line->end - at) < length || memcmp(at, word, length) != 0) {
        return false;
    }
    at += length;
    if (at < line->end && !is_blank(*at)) {
        return false;
    }
    line->at = at;
    return true;
}

/* Takes a number from 1 to the widest room's edge. */
static bool take_size(struct head *line, uint32_t *size)
{
    uint32_t value = 0;
    while (line->at < line->end && is_blank(*line->at)) {
        line->at++;
    }
    for (; line->at < line->end && *line->at >= '0' && *line->at <= '9'; line->at++) {
        value = value * 10 + (uint32_t)(*line->at - '0');
        if (value > SIZE_MOST) {
            return false;
        }
    }
    *size = value;
    return value > 0 && (line->at == line->end || is_blank(*line->at));
}

/* Reads the head; what remains is runs. */
static int read_head(const char *name, struct head *head, struct binvox *binvox)
{
    struct head line;
    bool sized = false;
    if (!take_line(head, &line) || !take_word(&line, "#binvox")) {
        return say_failed("%s: not a binvox file: it doesn't begin with #binvox", name);
    }
    if (!take_word(&line, " 1") || line.at != line.end) {
        return say_failed("%s: a binvox file of another version than 1", name);
    }
    while (take_line(head, &line)) {
        if (take_word(&line, "data") && line.at == line.end) {
            return sized ? DONE : say_failed("%s: its head has no line dim", name);
        }
        if (take_word(&line, "dim")) {
            /* in the order of the runs, the slowest first: x, z, y */
            sized = take_size(&line, &binvox->size[0]) && take_size(&line, &binvox->size[2]) &&
                    take_size(&line, &binvox->size[1]) && line.at == line.end;
            if (!sized) {
                return say_failed("%s: dim takes three numbers from 1 to 65,536", name);
            }
        }
        binvox->placed = binvox->placed || take_word(&line, "translate") || take_word(&line, "scale");
    }
    return say_failed("%s: its head has no line data in its first 65,536 bytes", name);
}

/* ---- the runs ---- */

/* Four layers of x, as leaves: those of one y and z beside each other along y. */
struct slab {
    uint64_t *leaves;
    uint32_t wide, high; /* leaves along y and z */
    uint32_t x;
};

/* Moves what is solid in a slab to the list, and empties the slab. What is empty is only read: it need not become memory. Says what
 * failed. */
static int slab_empty(const char *name, struct slab *slab, struct leaves *leaves)
{
    for (size_t i = 0; i < (size_t)slab->wide * slab->high; i++) {
        if (slab->leaves[i] == 0) {
            continue;
        }
        struct leaf leaf = {{(uint16_t)(slab->x / 4), (uint16_t)(i % slab->wide), (uint16_t)(i / slab->wide)}, slab->leaves[i]};
        if (leaves->count == LEAVES_MOST) {
            return say_outline_long(name);
        }
        if (!leaves_add(leaves, &leaf)) {
            return say_no_memory(2 * leaves->room * sizeof *leaves->at);
        }
        slab->leaves[i] = 0;
    }
    return DONE;
}

/* Where the next voxel of the runs lies. */
struct cursor {
    uint32_t x, y, z;
};

/* Sets `row` voxels along y. */
static void set_row(struct slab *slab, const struct cursor *at, uint32_t row)
{
    for (uint32_t y = at->y; y < at->y + row; y++) {
        size_t number = (size_t)(at->z / 4) * slab->wide + y / 4;
        slab->leaves[number] |= (uint64_t)1 << (at->x % 4 + 4 * (y % 4) + 16 * (at->z % 4));
    }
}

/* Goes along a run; the voxels left are known to suffice. *full is whether a slab has ended. */
static void take_run(struct slab *slab, struct cursor *at, const struct binvox *binvox, bool solid, uint32_t *count, bool *full)
{
    *full = false;
    while (*count > 0 && !*full) {
        uint32_t row = binvox->size[1] - at->y < *count ? binvox->size[1] - at->y : *count;
        if (solid) {
            set_row(slab, at, row);
        }
        *count -= row;
        at->y += row;
        if (at->y < binvox->size[1]) {
            continue;
        }
        at->y = 0;
        if (++at->z < binvox->size[2]) {
            continue;
        }
        at->z = 0;
        slab->x = at->x++;
        *full = at->x % 4 == 0 || at->x == binvox->size[0];
    }
}

struct run {
    uint8_t value;
    uint32_t count;
};

/* Takes the next run. Some writers put a run of no voxels behind a full one; where two follow each other there is no telling how
 * many more do. Says what is wrong with the run. */
static int next_run(struct source *source, uint64_t left, struct run *run)
{
    bool after_none = run->count == 0;
    if (source->end - source->start < 2) {
        int status = source_fill(source);
        if (status != DONE) {
            return status;
        }
        if (source->end - source->start < 2) {
            return say_failed("%s: cut: its runs end before its voxels", source->path);
        }
    }
    run->value = source->at[source->start];
    run->count = source->at[source->start + 1];
    source->start += 2;
    if (run->value > 1) {
        return say_failed("%s: a voxel that is neither 0 nor 1", source->path);
    }
    if (run->count > left) {
        return say_failed("%s: its runs have more voxels than dim says", source->path);
    }
    return run->count == 0 && after_none ? say_failed("%s: two runs of no voxels, one after the other", source->path) : DONE;
}

/* Moves a run into slabs, and those that are full into leaves. */
static int put_run(const char *name, struct run run, struct cursor *at, struct slab *slab, const struct binvox *binvox,
                   struct leaves *leaves)
{
    int status = DONE;
    while (status == DONE && run.count > 0) {
        bool full;
        take_run(slab, at, binvox, run.value == 1, &run.count, &full);
        status = full ? slab_empty(name, slab, leaves) : DONE;
    }
    return status;
}

static int read_runs(struct source *source, struct binvox *binvox, struct slab *slab, struct leaves *leaves)
{
    uint64_t left = (uint64_t)binvox->size[0] * binvox->size[1] * binvox->size[2];
    struct cursor at = {0, 0, 0};
    struct run run = {0, 1};
    int status = DONE;
    while (left > 0 && status == DONE) {
        status = next_run(source, left, &run);
        if (status == DONE) {
            left -= run.count;
            binvox->solid += run.value == 1 ? run.count : 0;
            status = put_run(source->path, run, &at, slab, binvox, leaves);
        }
    }
    if (status == DONE) {
        status = source_fill(source);
    }
    return status == DONE && source->end > source->start ? say_failed("%s: bytes behind its last voxel", source->path) : status;
}

/* Reads the head, then the runs, into leaves. */
static int read_voxels(struct source *source, struct binvox *binvox, struct leaves *leaves)
{
    int status = source_fill(source);
    struct head head = {source->at, source->at + source->end};
    if (status == DONE) {
        status = read_head(source->path, &head, binvox);
    }
    if (status != DONE) {
        return status;
    }
    source->start = (size_t)(head.at - source->at);
    /* tested before memory is taken by what the head says */
    uint64_t voxels = (uint64_t)binvox->size[0] * binvox->size[1] * binvox->size[2];
    if (source->sized && source->length >= source->start && (source->length - source->start) / 2 < (voxels - 1) / RUN_MOST + 1) {
        return say_failed("%s: cut: its runs end before its voxels", source->path);
    }
    struct slab slab = {NULL, (binvox->size[1] - 1) / 4 + 1, (binvox->size[2] - 1) / 4 + 1, 0};
    slab.leaves = calloc((size_t)slab.wide * slab.high, sizeof *slab.leaves);
    if (slab.leaves == NULL) {
        return say_no_memory((size_t)slab.wide * slab.high * sizeof *slab.leaves);
    }
    status = read_runs(source, binvox, &slab, leaves);
    free(slab.leaves);
    return status;
}

int binvox_read(const char *path, struct binvox *binvox, struct leaves *leaves)
{
    struct source source;
    memset(binvox, 0, sizeof *binvox);
    memset(leaves, 0, sizeof *leaves);
    progress_begin("reading", path);
    int status = source_open(&source, path);
    if (status != DONE) {
        return status;
    }
    status = read_voxels(&source, binvox, leaves);
    progress_end();
    source_close(&source);
    if (status != DONE) {
        leaves_free(leaves);
    }
    return status;
}
