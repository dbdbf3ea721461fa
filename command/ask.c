/* rooms ask: a question a line, an answer a line, one room for all of them. */
#include "command.h"

#include <errno.h>
#include <stdlib.h>
#include <string.h>
#include <unistd.h>

#include "answer.h"
#include "text.h"

const char ask_help[] =
    "Answers the questions on standard input, one a line, with one line each on standard output: voxel, cell, box, any, sight\n"
    "with their numbers, as on the command line without FILE. The room is read once. Answers are brief:\n"
    "  voxel X Y Z                        solid, or: empty HEIGHT (of the empty cell around it)\n"
    "  cell HEIGHT X Y Z                  non-empty, or: empty\n"
    "  box LOW-X .. HIGH-Z                the number of solid voxels\n"
    "  any LOW-X .. HIGH-Z                yes ENTERED, or: no ENTERED\n"
    "  sight FROM-X .. TO-Z               clear, or: blocked X Y Z\n"
    "A refusal is answered by 'refused NUMBER', what needs a store on a packed file by 'no store', a line that is no question by\n"
    "'no question', an empty line or one that begins with # by an empty line. Status 1 where any was refused or had no store,\n"
    "2 where any was no question.\n"
    "  --words    answers in words, as on the command line\n"
    "  --json     answers as JSON\n"
    "\n"
    "  rooms ask plant.outline < questions.txt\n";

#define BUFFER ((size_t)1 << 16)

struct asking {
    const struct room *room;
    enum form form;
    int status;
    char *in, *out, *out_end;
    size_t in_start, in_end;
    bool skipping; /* the rest of a line that was too long is left out */
};

static bool flush(struct asking *asking)
{
    const char *at = asking->out;
    while (at < asking->out_end) {
        ssize_t count = write(STDOUT_FILENO, at, (size_t)(asking->out_end - at));
        if (count < 0 && errno != EINTR) {
            return false;
        }
        at += count > 0 ? count : 0;
    }
    asking->out_end = asking->out;
    return true;
}

static void worse(struct asking *asking, int status)
{
    asking->status = status > asking->status ? status : asking->status;
}

/* Writes what stands for an answer where there is none. */
static char *put_none(struct asking *asking, int status, const char *what)
{
    char *out = asking->out_end;
    worse(asking, status);
    if (asking->form != JSON) {
        return put_string(out, what);
    }
    out = PUT(out, "{\"error\":\"");
    out = put_string(out, what);
    return PUT(out, "\"}");
}

/* Answers the line at *line; there is room for the answer. */
static inline void answer_line(struct asking *asking, const char **line, const char *last)
{
    struct asked asked;
    uint32_t number;
    enum line found = question_read(line, last, &asked);
    char *out = asking->out_end;
    if (found == LINE_QUESTION && !(asking->room->packed && asked.question->needs_store)) {
        out = answer_write(out, asking->room, &asked, asking->form, &number);
        if (number != ROOMS_OK) {
            worse(asking, REFUSED);
        }
    } else if (found == LINE_QUESTION) {
        out = put_none(asking, REFUSED, "no store");
    } else if (found != LINE_NOTHING) {
        out = put_none(asking, MISUSED, "no question");
    }
    *out++ = '\n';
    asking->out_end = out;
}

/* Answers all whole lines that were read; false where standard output fails. */
static bool answer_lines(struct asking *asking)
{
    const char *line = asking->in + asking->in_start;
    const char *newline = memrchr(line, '\n', asking->in_end - asking->in_start);
    const char *last = newline == NULL ? line : newline + 1;
    if (asking->skipping && newline != NULL) {
        line = (const char *)memchr(line, '\n', asking->in_end - asking->in_start) + 1;
        asking->skipping = false;
    }
    while (line < last) {
        if ((size_t)(asking->out + BUFFER - asking->out_end) < ANSWER_MOST && !flush(asking)) {
            return false;
        }
        answer_line(asking, &line, last);
    }
    asking->in_start = (size_t)(last - asking->in);
    return true;
}

/* Makes room to read on: the line begun goes to the front; one that fills the buffer is answered and left out. */
static void make_room(struct asking *asking)
{
    size_t begun = asking->in_end - asking->in_start;
    if (begun == BUFFER || asking->skipping) {
        if (!asking->skipping) {
            asking->out_end = put_none(asking, MISUSED, "no question");
            *asking->out_end++ = '\n';
        }
        asking->skipping = true;
        begun = 0;
    }
    memmove(asking->in, asking->in + asking->in_start, begun);
    asking->in_start = 0;
    asking->in_end = begun;
}

static int answer_all(struct asking *asking)
{
    for (;;) {
        /* what is answered goes out before the next lines are waited for */
        if (!answer_lines(asking) || !flush(asking)) {
            return say_failed("standard output: not written: %s", strerror(errno));
        }
        make_room(asking);
        ssize_t count = read(STDIN_FILENO, asking->in + asking->in_end, BUFFER - asking->in_end);
        if (count < 0 && errno != EINTR) {
            return say_failed("standard input: can't be read: %s", strerror(errno));
        }
        if (count == 0) {
            break;
        }
        asking->in_end += count > 0 ? (size_t)count : 0;
    }
    if (asking->in_end > 0 && !asking->skipping) {
        const char *line = asking->in;
        asking->in[asking->in_end++] = '\n';
        answer_line(asking, &line, asking->in + asking->in_end);
    }
    if (!flush(asking)) {
        return say_failed("standard output: not written: %s", strerror(errno));
    }
    return asking->status;
}

int run_ask(const struct arguments *a)
{
    struct room room;
    int status = room_read(&room, a->words[0]);
    if (status != DONE) {
        return status;
    }
    struct asking asking;
    memset(&asking, 0, sizeof asking);
    asking.room = &room;
    asking.form = a->json ? JSON : a->in_words ? IN_WORDS : BRIEF;
    asking.in = malloc(BUFFER + 1); /* a line end behind the last line */
    asking.out = malloc(BUFFER);
    asking.out_end = asking.out;
    if (asking.in == NULL || asking.out == NULL) {
        status = say_no_memory(2 * BUFFER);
    } else {
        status = answer_all(&asking);
    }
    free(asking.in);
    free(asking.out);
    room_free(&room);
    return status;
}
