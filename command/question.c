/* The questions, a row each, and the reading of a line. */
#include "question.h"

#include <string.h>

#include "answer.h"

static uint32_t ask_voxel(const struct room *room, const uint32_t *n, struct answer *a)
{
    return room_voxel(room, n, &a->solid, &a->height);
}

static uint32_t ask_cell(const struct room *room, const uint32_t *n, struct answer *a)
{
    return rooms_cell(room->store, room->store_words, room->scene, n[0], n[1], n[2], n[3], &a->solid);
}

static uint32_t ask_box(const struct room *room, const uint32_t *n, struct answer *a)
{
    return rooms_box(room->store, room->store_words, room->scene, n[0], n[1], n[2], n[3], n[4], n[5], &a->count);
}

static uint32_t ask_any(const struct room *room, const uint32_t *n, struct answer *a)
{
    return rooms_any(room->store, room->store_words, room->scene, n[0], n[1], n[2], n[3], n[4], n[5], &a->solid, &a->count);
}

static uint32_t ask_sight(const struct room *room, const uint32_t *n, struct answer *a)
{
    return rooms_sight(room->store, room->store_words, room->scene, n[0], n[1], n[2], n[3], n[4], n[5], &a->solid, &a->at[0],
                       &a->at[1], &a->at[2]);
}

const struct question questions[] = {
    {"voxel", 3, false, ask_voxel, {voxel_words, voxel_brief, voxel_json}},
    {"sight", 6, true, ask_sight, {sight_words, sight_brief, sight_json}},
    {"box", 6, true, ask_box, {box_words, box_brief, box_json}},
    {"any", 6, true, ask_any, {any_words, any_brief, any_json}},
    {"cell", 4, true, ask_cell, {cell_words, cell_brief, cell_json}},
};
const unsigned questions_count = sizeof questions / sizeof questions[0];

/* ---- reading ---- */

static inline bool is_blank(char c)
{
    return c == ' ' || c == ',' || c == '\t';
}

/* 0 to 9, or more for what is no digit. */
static inline unsigned digit_of(char c)
{
    return (unsigned)(unsigned char)c - '0';
}

/* No number of 32 bits has more. */
#define DIGITS_MOST 10

/* Reads a number that fits 32 bits, up to what is no digit; NULL where it doesn't fit. There is a digit. */
static const char *read_long_number(const char *at, uint32_t *number)
{
    const char *first = at;
    uint64_t value = 0;
    for (unsigned digit; (digit = digit_of(*at)) <= 9; at++) {
        value = value * 10 + digit; /* past the digits of any number it may wrap, and is refused all the same */
    }
    *number = (uint32_t)value;
    return at - first > DIGITS_MOST || value > UINT32_MAX ? NULL : at;
}

/* The same, and NULL where there is no digit. The first three are read without a loop: most numbers have no more. */
static inline const char *read_number(const char *at, uint32_t *number)
{
    unsigned first = digit_of(at[0]), second, third;
    if (first > 9) {
        return NULL;
    }
    if ((second = digit_of(at[1])) > 9) {
        *number = first;
        return at + 1;
    }
    if ((third = digit_of(at[2])) > 9) {
        *number = first * 10 + second;
        return at + 2;
    }
    if (digit_of(at[3]) > 9) {
        *number = (first * 10 + second) * 10 + third;
        return at + 3;
    }
    return read_long_number(at, number);
}

/* Where the question's name ends in the line; NULL where the line has another. */
static inline const char *after_name(const char *at, const char *name)
{
    for (; *name != '\0'; name++, at++) {
        if (*at != *name) {
            return NULL;
        }
    }
    return is_blank(*at) ? at : NULL;
}

static inline const struct question *find(const char **line)
{
    const char first = **line;
    for (const struct question *question = questions; question < questions + questions_count; question++) {
        const char *end = question->name[0] == first ? after_name(*line, question->name) : NULL;
        if (end != NULL) {
            *line = end;
            return question;
        }
    }
    return NULL;
}

/* Where the number behind one or more blanks begins; NULL where there is no blank. */
static const char *skip_blanks(const char *at)
{
    if (!is_blank(*at)) {
        return NULL;
    }
    do {
        at++;
    } while (is_blank(*at));
    return at;
}

/* Reads the numbers, each behind blanks, most often a single one; NULL where they are too few or none. */
static inline const char *read_numbers(const char *at, uint32_t *number, const uint32_t *last)
{
    for (; at != NULL && number < last; number++) {
        const char *next = *at == ' ' && digit_of(at[1]) <= 9 ? at + 1 : skip_blanks(at);
        at = next == NULL ? NULL : read_number(next, number);
    }
    return at;
}

enum line question_read(const char **line, const char *last, struct asked *asked)
{
    const char *at = *line;
    while (is_blank(*at)) {
        at++;
    }
    const char *end = at;
    const struct question *question = find(&end);
    asked->question = question;
    end = question == NULL ? NULL : read_numbers(end, asked->numbers, asked->numbers + question->numbers);
    if (end != NULL) {
        while (is_blank(*end) || *end == '\r') {
            end++;
        }
        if (*end == '\n') {
            *line = end + 1;
            return LINE_QUESTION;
        }
    }
    *line = (const char *)memchr(at, '\n', (size_t)(last - at)) + 1;
    bool nothing = *at == '#' || *at == '\n' || (*at == '\r' && at[1] == '\n');
    return nothing ? LINE_NOTHING : question == NULL ? LINE_UNKNOWN : LINE_NUMBERS;
}

bool read_whole_number(const char *string, uint32_t *number)
{
    const char *end = read_number(string, number);
    return end != NULL && *end == '\0';
}

bool read_point(const char *string, uint32_t point[AXES])
{
    for (unsigned i = 0; i < AXES; i++) {
        string = read_number(string, &point[i]);
        if (string == NULL || *string != (i + 1 < AXES ? ',' : '\0')) {
            return false;
        }
        string++;
    }
    return true;
}
