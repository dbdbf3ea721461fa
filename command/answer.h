/* Answers, in each form. */
#ifndef ANSWER_H
#define ANSWER_H

#include "question.h"

writer voxel_words, voxel_brief, voxel_json;
writer cell_words, cell_brief, cell_json;
writer box_words, box_brief, box_json;
writer any_words, any_brief, any_json;
writer sight_words, sight_brief, sight_json;

/* Writes a refusal in this form, without a line end. */
char *refusal_write(char *out, const struct question *question, enum form form, uint32_t number);

/* Asks and writes the answer, or the refusal, in this form, without a line end. *number is the library's answer. */
static inline char *answer_write(char *out, const struct room *room, const struct asked *asked, enum form form, uint32_t *number)
{
    const struct question *question = asked->question;
    struct answer answer; /* a call writes what its question's writers read */
    *number = question->ask(room, asked->numbers, &answer);
    if (*number != ROOMS_OK) {
        return refusal_write(out, question, form, *number);
    }
    return question->write[form](out, room, asked->numbers, &answer);
}

#endif
