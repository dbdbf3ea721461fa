/* rooms voxel, cell, box, any, sight: one question, whose words are read as a line of rooms ask is. */
#include "command.h"

#include <inttypes.h>
#include <stdio.h>
#include <string.h>

#include "answer.h"
#include "plan.h"

#define AS_JSON "  --json    the answer as JSON\n"

const char voxel_help[] =
    "Says whether the voxel (X, Y, Z) is solid. Of an empty one it says how large the emptiness is: the largest cell around it\n"
    "that the walk to it found empty. Coordinates count from 0. FILE may be packed.\n" AS_JSON
    "\n"
    "  rooms voxel plant.outline 100 20 40\n";
const char cell_help[] =
    "Says whether the cell (X, Y, Z) of a height has anything solid. A cell of height h is a cube of 2^h voxels along each edge;\n"
    "X, Y and Z count such cells. FILE is an outline.\n" AS_JSON
    "\n"
    "  rooms cell plant.outline 4 6 1 2\n";
const char box_help[] =
    "Counts the solid voxels from the low corner up to, and not with, the high corner on each axis. FILE is an outline.\n" AS_JSON
    "\n"
    "  rooms box plant.outline 90 10 30 110 30 50\n";
const char any_help[] =
    "Says whether anything solid is in the box from the low corner up to, and not with, the high corner on each axis, and how\n"
    "many cells were entered to tell. FILE is an outline.\n" AS_JSON
    "\n"
    "  rooms any plant.outline 90 10 30 110 30 50\n";
const char sight_help[] =
    "Says whether the line from the centre of one voxel to the centre of another is clear, or which solid voxel blocks it first.\n"
    "The two ends are never tested; a voxel that the line only touches at a face, an edge or a corner does not block.\n"
    "FILE is an outline.\n"
    "  --picture OUT.png  draws the layer of the voxel that blocks, or of the start, with the line on it: green as far as it is\n"
    "                     clear, red the voxel that blocks, orange behind it; dotted where the line is not in the layer\n"
    "  --axis x|y|z       the axis that the layer lies across; if none is given, the one along which the line is shortest\n" AS_JSON
    "\n"
    "  rooms sight plant.outline 20 20 40 110 100 40 --picture line.png\n";

static bool is_digit(char c)
{
    return c >= '0' && c <= '9';
}

/* The words as one line, its line end included: the question's name, then all words behind FILE. Its length; 0 where the words are
 * longer than any question, or one doesn't begin and end with a digit. */
static size_t join(const struct arguments *a, char *line, size_t most)
{
    size_t length = (size_t)snprintf(line, most, "%s", a->subcommand);
    for (int i = 1; i < a->count; i++) {
        size_t bytes = strlen(a->words[i]);
        if (bytes == 0 || bytes > most || length + bytes + 3 > most) {
            return 0;
        }
        if (!is_digit(a->words[i][0]) || !is_digit(a->words[i][bytes - 1])) {
            return 0;
        }
        line[length++] = ' ';
        memcpy(line + length, a->words[i], bytes);
        length += bytes;
    }
    line[length] = '\n';
    return length + 1;
}

/* The question that the words ask; false where they ask none. */
static bool read_words(const struct arguments *a, struct asked *asked)
{
    char text[ANSWER_MOST];
    const char *line = text;
    size_t length = join(a, text, sizeof text);
    return length > 0 && question_read(&line, text + length, asked) == LINE_QUESTION && line == text + length;
}

/* The axis along which a line is shortest; of those that are, z before y before x. */
static unsigned shortest_axis(const uint32_t *n)
{
    unsigned shortest = 2;
    uint64_t least = UINT64_MAX;
    for (unsigned i = 0; i < AXES; i++) {
        unsigned axis = 2 - i;
        uint64_t length = n[axis] < n[AXES + axis] ? n[AXES + axis] - n[axis] : n[axis] - n[AXES + axis];
        if (length < least) {
            least = length;
            shortest = axis;
        }
    }
    return shortest;
}

/* Draws a sight line and writes the picture; the plan tells which layer it shows. */
static int draw(const struct arguments *a, const struct room *room, const uint32_t *n, struct plan *plan)
{
    struct answer answer;
    memset(&answer, 0, sizeof answer);
    uint32_t number = rooms_sight(room->store, room->store_words, room->scene, n[0], n[1], n[2], n[3], n[4], n[5], &answer.solid,
                                  &answer.at[0], &answer.at[1], &answer.at[2]);
    if (number != ROOMS_OK) {
        return say_refused("sight", number);
    }
    unsigned axis = a->axis_given ? a->axis : shortest_axis(n);
    int status = plan_draw(plan, room, axis, answer.solid ? answer.at[axis] : n[axis]);
    if (status != DONE) {
        return status;
    }
    plan_line(plan, n, n + AXES, &answer);
    return plan_write(plan, a->picture, room);
}

/* Answers; a picture is written first, so that there is no answer without it. */
static int answer(const struct arguments *a, const struct room *room, const struct asked *asked)
{
    char text[ANSWER_MOST];
    uint32_t number;
    struct plan plan;
    if (room->packed && asked->question->needs_store) {
        return say_no_store(room, asked->question->name);
    }
    *answer_write(text, room, asked, a->json ? JSON : IN_WORDS, &number) = '\0';
    if (number != ROOMS_OK) {
        return say_refused(asked->question->name, number);
    }
    int status = a->picture == NULL ? DONE : draw(a, room, asked->numbers, &plan);
    if (status != DONE) {
        return status;
    }
    puts(text);
    if (a->picture != NULL && !a->json) {
        char name[SHOWN_BYTES];
        bool leaves_layer = asked->numbers[plan.axis] != asked->numbers[AXES + plan.axis];
        printf("%s: the layer %c = %" PRIu32 ", %c to the right and %c up%s\n", shown(a->picture, name), (char)('x' + plan.axis),
               plan.layer, (char)('x' + plan.right), (char)('x' + plan.up),
               leaves_layer ? "; dotted, the line is not in this layer" : "");
    }
    return DONE;
}

int run_question(const struct arguments *a)
{
    struct room room;
    struct asked asked;
    if (!read_words(a, &asked)) {
        return say_misused("%s takes FILE and the numbers of its question, each from 0 to 4,294,967,295 (rooms %s --help)",
                           a->subcommand, a->subcommand);
    }
    int status = room_read(&room, a->words[0]);
    if (status != DONE) {
        return status;
    }
    status = answer(a, &room, &asked);
    room_free(&room);
    return status;
}
