/* The answers of each question in its three forms. */
#include "answer.h"

#include "text.h"

/* ---- parts ---- */

char *put_large(char *out, uint64_t number)
{
    return put_number(out, number);
}

static char *put_grouped(char *out, uint64_t number)
{
    char digits[GROUPED_BYTES];
    return put_string(out, grouped(number, digits));
}

/* "x 16 to 31, y 0 to 15, z 32 to 47": the voxels from low up to, and not with, low + edge. */
static char *put_extent(char *out, const uint32_t low[AXES], uint64_t edge)
{
    for (unsigned axis = 0; axis < AXES; axis++) {
        out = axis == 0 ? out : PUT(out, ", ");
        *out++ = (char)('x' + axis);
        *out++ = ' ';
        out = put_number(out, low[axis]);
        if (edge > 1) {
            out = PUT(out, " to ");
            out = put_number(out, low[axis] + edge - 1);
        }
    }
    return out;
}

/* The root of a number, rounded down. */
static uint64_t root(uint64_t number)
{
    uint64_t low = 0, high = UINT32_MAX;
    while (low < high) {
        uint64_t middle = low + (high - low + 1) / 2;
        if (middle * middle <= number) {
            low = middle;
        } else {
            high = middle - 1;
        }
    }
    return low;
}

/* The distance of two voxels' centres, in tenths rounded down: "45.2". */
static char *put_distance(char *out, const uint32_t a[AXES], const uint32_t b[AXES])
{
    uint64_t squares = 0;
    for (unsigned axis = 0; axis < AXES; axis++) {
        uint64_t side = a[axis] < b[axis] ? b[axis] - a[axis] : a[axis] - b[axis];
        squares += side * side;
    }
    uint64_t tenths = root(100 * squares);
    out = put_grouped(out, tenths / 10);
    *out++ = '.';
    *out++ = (char)('0' + tenths % 10);
    return out;
}

static char *put_json_point(char *out, const uint32_t point[AXES])
{
    *out++ = '[';
    out = put_point(out, point, ',');
    *out++ = ']';
    return out;
}

/* Of a value that is 1 or 0. */
static char *put_json_truth(char *out, uint32_t value)
{
    return value ? PUT(out, "true") : PUT(out, "false");
}

/* ---- voxel ---- */

/* The low corner of the cell of this height that holds a point. */
static void corner_of(const uint32_t point[AXES], uint32_t height, uint32_t low[AXES])
{
    for (unsigned axis = 0; axis < AXES; axis++) {
        low[axis] = point[axis] >> height << height;
    }
}

char *voxel_words(char *out, const struct room *room, const uint32_t *n, const struct answer *a)
{
    if (a->solid) {
        return PUT(out, "solid");
    }
    if (a->height == 0) {
        return PUT(out, "empty; something solid is in the same 4 x 4 x 4 voxels");
    }
    if (a->height == room->depth) {
        return PUT(out, "empty, as is the whole room");
    }
    uint32_t low[AXES];
    corner_of(n, a->height, low);
    out = PUT(out, "empty, as is the whole cell of edge ");
    out = put_number(out, (uint64_t)1 << a->height);
    out = PUT(out, " around it: ");
    return put_extent(out, low, (uint64_t)1 << a->height);
}

char *voxel_brief(char *out, const struct room *room, const uint32_t *n, const struct answer *a)
{
    (void)room, (void)n;
    if (a->solid) {
        return PUT(out, "solid");
    }
    out = PUT(out, "empty ");
    return put_number(out, a->height);
}

char *voxel_json(char *out, const struct room *room, const uint32_t *n, const struct answer *a)
{
    (void)room;
    out = PUT(out, "{\"question\":\"voxel\",\"at\":");
    out = put_json_point(out, n);
    out = PUT(out, ",\"solid\":");
    out = put_json_truth(out, a->solid);
    out = PUT(out, ",\"height\":");
    out = put_number(out, a->height);
    if (!a->solid) {
        uint32_t low[AXES];
        corner_of(n, a->height, low);
        out = PUT(out, ",\"empty\":{\"low\":");
        out = put_json_point(out, low);
        out = PUT(out, ",\"edge\":");
        out = put_number(out, (uint64_t)1 << a->height);
        *out++ = '}';
    }
    *out++ = '}';
    return out;
}

/* ---- cell ---- */

char *cell_words(char *out, const struct room *room, const uint32_t *n, const struct answer *a)
{
    (void)room;
    uint32_t low[AXES];
    for (unsigned axis = 0; axis < AXES; axis++) {
        low[axis] = n[1 + axis] << n[0];
    }
    out = a->solid ? PUT(out, "non-empty: something solid is in ") : PUT(out, "empty: nothing solid is in ");
    return put_extent(out, low, (uint64_t)1 << n[0]);
}

char *cell_brief(char *out, const struct room *room, const uint32_t *n, const struct answer *a)
{
    (void)room, (void)n;
    return a->solid ? PUT(out, "non-empty") : PUT(out, "empty");
}

char *cell_json(char *out, const struct room *room, const uint32_t *n, const struct answer *a)
{
    (void)room;
    out = PUT(out, "{\"question\":\"cell\",\"height\":");
    out = put_number(out, n[0]);
    out = PUT(out, ",\"at\":");
    out = put_json_point(out, n + 1);
    out = PUT(out, ",\"empty\":");
    out = put_json_truth(out, !a->solid);
    *out++ = '}';
    return out;
}

/* ---- box, and anything in the way ---- */

static char *put_json_box(char *out, const uint32_t *n)
{
    out = PUT(out, ",\"low\":");
    out = put_json_point(out, n);
    out = PUT(out, ",\"high\":");
    return put_json_point(out, n + AXES);
}

/* The voxels of a box: at most 2^48. */
static uint64_t box_volume(const uint32_t *n)
{
    return (uint64_t)(n[3] - n[0]) * (n[4] - n[1]) * (n[5] - n[2]);
}

char *box_words(char *out, const struct room *room, const uint32_t *n, const struct answer *a)
{
    (void)room;
    uint64_t volume = box_volume(n);
    if (volume == 0) {
        return PUT(out, "the box has no voxel: low and high agree on an axis");
    }
    uint64_t tenths = a->count * 1000 / volume;
    out = put_grouped(out, a->count);
    out = PUT(out, " solid of ");
    out = put_grouped(out, volume);
    out = volume == 1 ? PUT(out, " voxel, ") : PUT(out, " voxels, ");
    out = put_number(out, tenths / 10);
    *out++ = '.';
    *out++ = (char)('0' + tenths % 10);
    return PUT(out, " %");
}

char *box_brief(char *out, const struct room *room, const uint32_t *n, const struct answer *a)
{
    (void)room, (void)n;
    return put_number(out, a->count);
}

char *box_json(char *out, const struct room *room, const uint32_t *n, const struct answer *a)
{
    (void)room;
    out = PUT(out, "{\"question\":\"box\"");
    out = put_json_box(out, n);
    out = PUT(out, ",\"solid\":");
    out = put_number(out, a->count);
    out = PUT(out, ",\"voxels\":");
    out = put_number(out, box_volume(n));
    *out++ = '}';
    return out;
}

char *any_words(char *out, const struct room *room, const uint32_t *n, const struct answer *a)
{
    (void)room, (void)n;
    out = a->solid ? PUT(out, "yes, something solid is in the way; cells entered to tell: ")
                   : PUT(out, "no, nothing is in the way; cells entered to tell: ");
    return put_grouped(out, a->count);
}

char *any_brief(char *out, const struct room *room, const uint32_t *n, const struct answer *a)
{
    (void)room, (void)n;
    out = a->solid ? PUT(out, "yes ") : PUT(out, "no ");
    return put_number(out, a->count);
}

char *any_json(char *out, const struct room *room, const uint32_t *n, const struct answer *a)
{
    (void)room;
    out = PUT(out, "{\"question\":\"any\"");
    out = put_json_box(out, n);
    out = PUT(out, ",\"yes\":");
    out = put_json_truth(out, a->solid);
    out = PUT(out, ",\"entered\":");
    out = put_number(out, a->count);
    *out++ = '}';
    return out;
}

/* ---- sight line ---- */

char *sight_words(char *out, const struct room *room, const uint32_t *n, const struct answer *a)
{
    (void)room;
    if (!a->solid) {
        out = PUT(out, "clear: nothing solid between the two ends, ");
        out = put_distance(out, n, n + AXES);
        return PUT(out, " voxels apart");
    }
    out = PUT(out, "blocked at ");
    out = put_point(out, a->at, ' ');
    out = PUT(out, ", ");
    out = put_distance(out, n, a->at);
    out = PUT(out, " voxels from where it starts; its end is ");
    out = put_distance(out, n, n + AXES);
    return PUT(out, " away");
}

char *sight_brief(char *out, const struct room *room, const uint32_t *n, const struct answer *a)
{
    (void)room, (void)n;
    if (!a->solid) {
        return PUT(out, "clear");
    }
    out = PUT(out, "blocked ");
    return put_point(out, a->at, ' ');
}

char *sight_json(char *out, const struct room *room, const uint32_t *n, const struct answer *a)
{
    (void)room;
    out = PUT(out, "{\"question\":\"sight\",\"from\":");
    out = put_json_point(out, n);
    out = PUT(out, ",\"to\":");
    out = put_json_point(out, n + AXES);
    out = PUT(out, ",\"blocked\":");
    out = put_json_truth(out, a->solid);
    if (a->solid) {
        out = PUT(out, ",\"by\":");
        out = put_json_point(out, a->at);
    }
    *out++ = '}';
    return out;
}

/* ---- refusals ---- */

char *refusal_write(char *out, const struct question *question, enum form form, uint32_t number)
{
    if (form == JSON) {
        out = PUT(out, "{\"question\":\"");
        out = put_string(out, question->name);
        out = PUT(out, "\",\"refused\":");
        out = put_number(out, number);
        *out++ = '}';
        return out;
    }
    out = form == BRIEF ? PUT(out, "refused ") : PUT(out, "refused, number ");
    out = put_number(out, number);
    if (form == BRIEF) {
        return out;
    }
    out = PUT(out, ": ");
    return put_string(out, refusal_words(number));
}
