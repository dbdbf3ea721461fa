/* Questions: read from a line, asked of a room, answered in words, briefly, or as JSON. */
#ifndef QUESTION_H
#define QUESTION_H

#include "room.h"

#define NUMBERS_MOST 6u

/* Bytes that hold any answer in any form. */
#define ANSWER_MOST 1024u

struct answer {
    uint32_t solid;  /* solid, non-empty, yes or blocked: 1; else 0 */
    uint32_t height; /* of the emptiness */
    uint32_t at[AXES]; /* what blocks the line */
    uint64_t count;  /* solid voxels of a box, or cells entered */
};

/* How an answer is written: in words that a fitter reads, briefly for scripts, as JSON for machines. */
enum form { IN_WORDS, BRIEF, JSON, FORMS };

/* Writes an answer, which is no refusal, and returns where it ends. */
typedef char *writer(char *out, const struct room *room, const uint32_t *numbers, const struct answer *answer);

struct question {
    char name[8];
    unsigned numbers;    /* how many it takes */
    bool needs_store;    /* so a packed file can't answer it */
    uint32_t (*ask)(const struct room *room, const uint32_t *numbers, struct answer *answer);
    writer *write[FORMS];
};

/* What a line was found to be. */
enum line { LINE_QUESTION, LINE_NOTHING, LINE_UNKNOWN, LINE_NUMBERS };

struct asked {
    const struct question *question;
    uint32_t numbers[NUMBERS_MOST];
};

/* Reads a line: a question's name and its numbers, with blanks, tabs or commas between, and sets *line to the next. The lines end
 * at `last`, and the byte before it is a line end. LINE_NOTHING: the line is empty or begins with '#'. LINE_UNKNOWN: no question has
 * this name. LINE_NUMBERS: the numbers are too few, too many or none. */
enum line question_read(const char **line, const char *last, struct asked *asked);

extern const struct question questions[];
extern const unsigned questions_count;

#endif
