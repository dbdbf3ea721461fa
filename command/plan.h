/* The plan of a layer: a picture of its voxels, with marks and a sight line on it. */
#ifndef PLAN_H
#define PLAN_H

#include "picture.h"
#include "question.h"

struct plan {
    struct picture picture;
    unsigned axis, right, up; /* the axis that the layer lies across, those that run to the right and up */
    uint32_t layer, edge;
    uint32_t side;   /* pixels of the room's edge */
    uint32_t shrink; /* a pixel has 2^shrink x 2^shrink voxels */
};

/* Draws a layer. Says what failed; the plan then need not be freed. */
int plan_draw(struct plan *plan, const struct room *room, unsigned axis, uint32_t layer);

/* A cross at a point. */
void plan_mark(struct plan *plan, const uint32_t point[AXES], enum colour colour);

/* A sight line with its answer: bold in the layer, dotted where it runs outside the layer. */
void plan_line(struct plan *plan, const uint32_t from[AXES], const uint32_t to[AXES], const struct answer *answer);

/* Writes the picture as PNG and frees the plan. Says what failed. */
int plan_write(struct plan *plan, const char *path, const struct room *room);

#endif
