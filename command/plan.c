/* The plan of a layer. */
#include "plan.h"

#include <inttypes.h>
#include <stdio.h>
#include <stdlib.h>

#include "progress.h"

#define SIDE_LEAST 512u
#define SIDE_MOST 4096u
#define LEFT 52
#define TOP 24
#define BELOW 40
#define ASIDE 24
#define TICK 5
#define TICKS 4u
#define BLOCKER_LEAST 7

/* ---- the layer ---- */

/* Where a voxel's pixels begin, and how many they are along each edge. */
static int64_t column_of(const struct plan *plan, uint32_t u)
{
    return LEFT + (int64_t)u * plan->side / plan->edge;
}

static int64_t row_of(const struct plan *plan, uint32_t v)
{
    uint32_t last = v | (((uint32_t)1 << plan->shrink) - 1);
    return TOP + (int64_t)(plan->edge - 1 - last) * plan->side / plan->edge;
}

static int64_t pixels_each(const struct plan *plan)
{
    return plan->shrink > 0 ? 1 : plan->side / plan->edge;
}

/* Paints what is solid in the square of edge 2^height at (u, v), stepping over empty cells. Returns the library's answer. */
static uint32_t paint(struct plan *plan, const struct room *room, uint32_t u, uint32_t v, uint32_t height)
{
    uint32_t point[AXES], solid, empty_height;
    int64_t column = column_of(plan, u), row = row_of(plan, v);
    uint8_t *pixel = plan->picture.pixels + (size_t)row * plan->picture.width + (size_t)column;
    if (height <= plan->shrink && *pixel == SOLID) {
        return ROOMS_OK;
    }
    point[plan->axis] = plan->layer;
    point[plan->right] = u;
    point[plan->up] = v;
    uint32_t number = room_voxel(room, point, &solid, &empty_height);
    if (number != ROOMS_OK || (!solid && empty_height >= height)) {
        return number;
    }
    if (solid && height <= plan->shrink) {
        picture_fill(&plan->picture, column, row, pixels_each(plan), pixels_each(plan), SOLID);
        return ROOMS_OK;
    }
    uint32_t half = (uint32_t)1 << (height - 1);
    for (unsigned i = 0; i < 4 && number == ROOMS_OK; i++) {
        number = paint(plan, room, u + (i & 1) * half, v + (i >> 1) * half, height - 1);
    }
    return number;
}

/* Ticks with their coordinates along both axes, the axes' letters, and which layer it is. */
static void letter(struct plan *plan)
{
    struct picture *picture = &plan->picture;
    char text[16];
    int64_t bottom = TOP + (int64_t)plan->side;
    for (uint32_t i = 0; i <= TICKS; i++) {
        int64_t at = (int64_t)plan->side * i / TICKS;
        int length = snprintf(text, sizeof text, "%" PRIu32, (uint32_t)((uint64_t)plan->edge * i / TICKS));
        picture_fill(picture, LEFT + at, bottom, 1, TICK, INK);
        picture_text(picture, LEFT + at - length * GLYPH_STEP / 2, bottom + TICK + 3, text);
        picture_fill(picture, LEFT - TICK, bottom - at - (i > 0 ? 0 : 1), TICK, 1, INK);
        picture_text(picture, LEFT - TICK - 2 - length * GLYPH_STEP, bottom - at - GLYPH_HEIGHT / 2, text);
    }
    snprintf(text, sizeof text, "%c %" PRIu32, (char)('x' + plan->axis), plan->layer);
    picture_text(picture, LEFT, 6, text);
    snprintf(text, sizeof text, "%c", (char)('x' + plan->right));
    picture_text(picture, LEFT + (int64_t)plan->side * 5 / 8, bottom + TICK + 3, text);
    snprintf(text, sizeof text, "%c", (char)('x' + plan->up));
    picture_text(picture, LEFT - TICK - 12, TOP + (int64_t)plan->side * 3 / 8, text);
}

int plan_draw(struct plan *plan, const struct room *room, unsigned axis, uint32_t layer)
{
    plan->edge = room_edge(room);
    plan->axis = axis;
    plan->right = axis == 0 ? 1 : 0;
    plan->up = axis == 2 ? 1 : 2;
    plan->layer = layer;
    plan->side = plan->edge < SIDE_LEAST ? SIDE_LEAST : plan->edge > SIDE_MOST ? SIDE_MOST : plan->edge;
    plan->shrink = 0;
    while (plan->edge >> plan->shrink > plan->side) {
        plan->shrink++;
    }
    if (!picture_new(&plan->picture, LEFT + plan->side + ASIDE, TOP + plan->side + BELOW)) {
        return say_no_memory((size_t)plan->side * plan->side);
    }
    picture_fill(&plan->picture, LEFT, TOP, plan->side, plan->side, EMPTY);
    progress_begin("drawing", room->name);
    uint32_t number = paint(plan, room, 0, 0, room->depth);
    progress_end();
    if (number != ROOMS_OK) {
        picture_free(&plan->picture);
        return say_refused(room->name, number);
    }
    letter(plan);
    return DONE;
}

/* ---- on it ---- */

/* The pixel of a voxel's centre. */
static int64_t centre_column(const struct plan *plan, const uint32_t point[AXES])
{
    return LEFT + ((int64_t)2 * point[plan->right] + 1) * plan->side / (2 * (int64_t)plan->edge);
}

static int64_t centre_row(const struct plan *plan, const uint32_t point[AXES])
{
    return TOP + (2 * ((int64_t)plan->edge - point[plan->up]) - 1) * plan->side / (2 * (int64_t)plan->edge);
}

void plan_mark(struct plan *plan, const uint32_t point[AXES], enum colour colour)
{
    int64_t column = centre_column(plan, point), row = centre_row(plan, point);
    picture_fill(&plan->picture, column - 7, row - 1, 15, 3, colour);
    picture_fill(&plan->picture, column - 1, row - 7, 3, 15, colour);
}

static uint32_t apart(uint32_t a, uint32_t b)
{
    return a < b ? b - a : a - b;
}

/* A coordinate of the line after `i` of `steps` steps, times 2 * steps: on a doubled grid centres are odd numbers. */
static int64_t along(uint32_t from, uint32_t to, int64_t i, int64_t steps)
{
    return (2 * (int64_t)from + 1) * (steps - i) + (2 * (int64_t)to + 1) * i;
}

static unsigned longest_axis(const uint32_t from[AXES], const uint32_t to[AXES])
{
    unsigned longest = 0;
    for (unsigned axis = 1; axis < AXES; axis++) {
        longest = apart(from[axis], to[axis]) > apart(from[longest], to[longest]) ? axis : longest;
    }
    return longest;
}

void plan_line(struct plan *plan, const uint32_t from[AXES], const uint32_t to[AXES], const struct answer *answer)
{
    unsigned longest = longest_axis(from, to);
    int64_t steps = 4 * (int64_t)plan->side;
    int64_t voxel = 2 * steps; /* what `along` counts for a voxel */
    int64_t whole = voxel * plan->edge;
    for (int64_t i = 0; i <= steps; i++) {
        int64_t column = LEFT + along(from[plan->right], to[plan->right], i, steps) * plan->side / whole;
        int64_t row = TOP + (whole - along(from[plan->up], to[plan->up], i, steps)) * plan->side / whole;
        uint32_t here = (uint32_t)(along(from[longest], to[longest], i, steps) / voxel);
        bool hidden = answer->solid && apart(from[longest], here) > apart(from[longest], answer->at[longest]);
        enum colour colour = hidden ? HIDDEN_LINE : CLEAR_LINE;
        if (along(from[plan->axis], to[plan->axis], i, steps) / voxel == plan->layer) {
            picture_fill(&plan->picture, column - 1, row - 1, 3, 3, colour);
        } else if (i / 16 % 2 == 0) {
            picture_fill(&plan->picture, column, row, 1, 1, colour);
        }
    }
    plan_mark(plan, from, CLEAR_LINE);
    plan_mark(plan, to, answer->solid ? HIDDEN_LINE : CLEAR_LINE);
    if (answer->solid) {
        int64_t more = pixels_each(plan) < BLOCKER_LEAST ? (BLOCKER_LEAST - pixels_each(plan)) / 2 : 0;
        int64_t size = pixels_each(plan) + 2 * more;
        picture_fill(&plan->picture, column_of(plan, answer->at[plan->right]) - more, row_of(plan, answer->at[plan->up]) - more,
                     size, size, BLOCKER);
    }
}

int plan_write(struct plan *plan, const char *path, const struct room *room)
{
    struct bytes png;
    bool good = picture_png(&plan->picture, &png);
    picture_free(&plan->picture);
    if (!good) {
        return say_no_memory((size_t)plan->side * plan->side);
    }
    int status = file_write(path, room->name, png.at, png.length);
    free(png.at);
    return status;
}
