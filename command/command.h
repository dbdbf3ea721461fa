/*
 * What all parts of the command share: statuses, what is said on standard error, the words of the command line, and the table of
 * subcommands. This header comes first in every file.
 */
#ifndef COMMAND_H
#define COMMAND_H

#ifndef _GNU_SOURCE
#define _GNU_SOURCE /* statx: its struct is the same in every machine's headers, that of stat is not */
#endif

#include <stdbool.h>
#include <stddef.h>
#include <stdint.h>

#include "rooms.h"

/* The statuses with which the command ends. */
enum { DONE = 0, REFUSED = 1, MISUSED = 2 };

/* ---- said on standard error, behind 'rooms: '; each returns the status that goes with it ---- */

int say_failed(const char *format, ...) __attribute__((format(printf, 1, 2)));  /* REFUSED */
int say_misused(const char *format, ...) __attribute__((format(printf, 1, 2))); /* MISUSED */
int say_refused(const char *name, uint32_t number);                             /* a refusal in words: REFUSED */
int say_no_memory(size_t bytes);                                                /* REFUSED */

/* What a refusal means, in words. */
const char *refusal_words(uint32_t number);

/* A number with commas between thousands, written into `out`. */
#define GROUPED_BYTES 32
const char *grouped(uint64_t number, char out[GROUPED_BYTES]);

/* A name as it is shown, written into `out`: control bytes, which could move a terminal's cursor or forge a line, are question
 * marks. */
#define SHOWN_BYTES 4096
const char *shown(const char *name, char out[SHOWN_BYTES]);

/* Prints a JSON string to standard output, quotes and escapes included; what is no UTF-8 becomes U+FFFD. */
void print_json_string(const char *string);

/* ---- the words of the command line ---- */

/* Options that a subcommand takes; --help is taken by all. */
enum { OPTION_JSON = 1, OPTION_WORDS = 2, OPTION_AXIS = 4, OPTION_MARK = 8, OPTION_PICTURE = 16, OPTION_HEADSET = 32 };

#define MARKS_MOST 32
#define AXES 3

struct arguments {
    const char *subcommand;
    char **words; /* what is no option, in order */
    int count;
    bool help, json, in_words, headset;
    bool axis_given;
    unsigned axis; /* 0, 1, 2 for x, y, z */
    const char *picture;
    uint32_t marks[MARKS_MOST][AXES];
    unsigned marks_count;
};

/* Reads the words behind a subcommand, which takes the options of the set `options`. */
int arguments_read(struct arguments *arguments, int count, char **words, unsigned options);

/* Reads a whole string as a number, or as three with commas between; false where it is none. */
bool read_whole_number(const char *string, uint32_t *number);
bool read_point(const char *string, uint32_t point[AXES]);

/* ---- subcommands: one row in main.c each ---- */

struct subcommand {
    const char *name;
    const char *takes;
    const char *does;
    int (*run)(const struct arguments *);
    int least, most; /* words */
    unsigned options;
    const char *help; /* what --help says behind the usage line */
};

int run_info(const struct arguments *);
int run_pack(const struct arguments *);
int run_headset(const struct arguments *);
int run_check(const struct arguments *);
int run_question(const struct arguments *);
int run_ask(const struct arguments *);
int run_slice(const struct arguments *);
int run_from_binvox(const struct arguments *);
int run_to_binvox(const struct arguments *);

extern const char info_help[], pack_help[], headset_help[], check_help[], voxel_help[], cell_help[], box_help[], any_help[],
    sight_help[], ask_help[], slice_help[], from_binvox_help[], to_binvox_help[];

#endif
