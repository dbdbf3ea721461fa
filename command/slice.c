/* rooms slice. */
#include "command.h"

#include <inttypes.h>
#include <stdio.h>
#include <string.h>

#include "answer.h"
#include "plan.h"

const char slice_help[] =
    "Draws the plan of a layer and writes it as the PNG file OUT.png: the voxels with this z, x to the right and y up.\n"
    "  --axis x|y|z    the axis that the layer lies across, z if none is given; across x: y to the right, z up;\n"
    "                  across y: x to the right, z up\n"
    "  --mark X,Y,Z    a cross at this voxel, and what the voxel is; up to 32 times\n"
    "  --json          the layer and the marks as JSON\n"
    "A room of more than 4,096 voxels along its edge is drawn with more than one voxel in a pixel: dark if one is solid.\n"
    "\n"
    "  rooms slice plant.outline 40 --mark 100,20,40 plan.png\n";

static int draw_marks(const struct arguments *a, const struct room *room, struct plan *plan)
{
    uint32_t solid, height;
    for (unsigned i = 0; i < a->marks_count; i++) {
        uint32_t number = room_voxel(room, a->marks[i], &solid, &height);
        if (number != ROOMS_OK) {
            return say_refused("--mark", number);
        }
        plan_mark(plan, a->marks[i], MARK);
    }
    return DONE;
}

/* What the marked voxels are: draw_marks has found them all inside. */
static void say_marks(const struct arguments *a, const struct room *room, const struct plan *plan)
{
    for (unsigned i = 0; i < a->marks_count; i++) {
        const uint32_t *mark = a->marks[i];
        struct answer answer;
        char text[ANSWER_MOST];
        memset(&answer, 0, sizeof answer);
        room_voxel(room, mark, &answer.solid, &answer.height);
        if (a->json) {
            *voxel_json(text, room, mark, &answer) = '\0';
            printf("%s%s", i == 0 ? "" : ",", text);
            continue;
        }
        *voxel_words(text, room, mark, &answer) = '\0';
        printf("mark %" PRIu32 " %" PRIu32 " %" PRIu32 "%s: %s\n", mark[0], mark[1], mark[2],
               mark[plan->axis] == plan->layer ? "" : ", which is not in this layer", text);
    }
}

static void say_slice(const struct arguments *a, const struct room *room, const struct plan *plan)
{
    char name[SHOWN_BYTES];
    if (a->json) {
        printf("{\"axis\":\"%c\",\"layer\":%" PRIu32 ",\"marks\":[", (char)('x' + plan->axis), plan->layer);
        say_marks(a, room, plan);
        printf("]}\n");
        return;
    }
    printf("%s: the layer %c = %" PRIu32 ", %c to the right and %c up", shown(a->words[2], name), (char)('x' + plan->axis),
           plan->layer, (char)('x' + plan->right), (char)('x' + plan->up));
    if (plan->shrink > 0) {
        printf("; a pixel is %u x %u voxels, dark if one is solid", 1u << plan->shrink, 1u << plan->shrink);
    }
    putchar('\n');
    say_marks(a, room, plan);
}

int run_slice(const struct arguments *a)
{
    struct room room;
    struct plan plan;
    uint32_t layer;
    if (!read_whole_number(a->words[1], &layer)) {
        return say_misused("slice takes the number of a layer, not '%s' (rooms slice --help)", a->words[1]);
    }
    int status = room_read(&room, a->words[0]);
    if (status != DONE) {
        return status;
    }
    status = layer < room_edge(&room) ? plan_draw(&plan, &room, a->axis_given ? a->axis : 2, layer)
                                      : say_refused("slice", ROOMS_OUTSIDE);
    if (status == DONE) {
        status = draw_marks(a, &room, &plan);
        if (status == DONE) {
            status = plan_write(&plan, a->words[2], &room);
        } else {
            picture_free(&plan.picture);
        }
        if (status == DONE) {
            say_slice(a, &room, &plan);
        }
    }
    room_free(&room);
    return status;
}
