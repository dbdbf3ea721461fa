/* The command: the table of subcommands, and the way to one of them. */
#include "command.h"

#include <errno.h>
#include <fcntl.h>
#include <limits.h>
#include <signal.h>
#include <stdio.h>
#include <string.h>
#include <unistd.h>

#include "progress.h"

/* A row each. The first three strings stand in one line: ./rooms --help reads them here. */
static const struct subcommand subcommands[] = {
    {"info", "FILE..", "what is in rooms: depth, solid voxels, cells kept, packed length, memory",
     run_info, 1, INT_MAX, OPTION_JSON, info_help},
    {"pack", "IN OUT", "writes the packed file of an outline",
     run_pack, 2, 2, OPTION_JSON, pack_help},
    {"headset", "IN OUT", "writes the packed file of an outline for the headset, or says why it can't be",
     run_headset, 2, 2, OPTION_JSON, headset_help},
    {"check", "[--headset] FILE", "whether an outline or a packed file keeps every rule of its kind, or of the headset",
     run_check, 1, 1, OPTION_JSON | OPTION_HEADSET, check_help},
    {"voxel", "FILE X Y Z", "whether a voxel is solid, or how large the emptiness around it is",
     run_question, 1, INT_MAX, OPTION_JSON, voxel_help},
    {"cell", "FILE HEIGHT X Y Z", "whether a cell has anything solid",
     run_question, 1, INT_MAX, OPTION_JSON, cell_help},
    {"box", "FILE LOW-X LOW-Y LOW-Z HIGH-X HIGH-Y HIGH-Z", "how many voxels of a box are solid",
     run_question, 1, INT_MAX, OPTION_JSON, box_help},
    {"any", "FILE LOW-X LOW-Y LOW-Z HIGH-X HIGH-Y HIGH-Z", "whether anything solid is in a box",
     run_question, 1, INT_MAX, OPTION_JSON, any_help},
    {"sight", "FILE FROM-X FROM-Y FROM-Z TO-X TO-Y TO-Z [--picture OUT.png]", "whether a line is clear, or where it is blocked",
     run_question, 1, INT_MAX, OPTION_JSON | OPTION_PICTURE | OPTION_AXIS, sight_help},
    {"ask", "FILE", "answers questions from standard input, a line each",
     run_ask, 1, 1, OPTION_JSON | OPTION_WORDS, ask_help},
    {"slice", "FILE LAYER [--axis x|y|z] [--mark X,Y,Z] OUT.png", "draws the plan of a layer",
     run_slice, 3, 3, OPTION_JSON | OPTION_AXIS | OPTION_MARK, slice_help},
    {"from-binvox", "IN OUT", "writes the outline of a binvox file",
     run_from_binvox, 2, 2, OPTION_JSON, from_binvox_help},
    {"to-binvox", "IN OUT", "writes the binvox file of a room",
     run_to_binvox, 2, 2, OPTION_JSON, to_binvox_help},
};
#define SUBCOMMANDS (sizeof subcommands / sizeof subcommands[0])

static void usage(FILE *out)
{
    fputs("usage:\n", out);
    for (size_t i = 0; i < SUBCOMMANDS; i++) {
        fprintf(out, "  rooms %s %s\n      %s\n", subcommands[i].name, subcommands[i].takes, subcommands[i].does);
    }
    fputs("\nFILE is an outline or a packed file; which one, its first byte tells. rooms WORD --help says more of each.\n"
          "Status: 0 done, 1 refused or failed, 2 the words of the command are wrong.\n",
          out);
}

static int run(const struct subcommand *subcommand, int count, char **words)
{
    struct arguments arguments;
    memset(&arguments, 0, sizeof arguments);
    arguments.subcommand = subcommand->name;
    int status = arguments_read(&arguments, count, words, subcommand->options);
    if (status != DONE) {
        return status;
    }
    if (arguments.help) {
        printf("usage: rooms %s %s\n\n%s", subcommand->name, subcommand->takes, subcommand->help);
        return DONE;
    }
    if (arguments.count < subcommand->least || arguments.count > subcommand->most) {
        return say_misused("usage: rooms %s %s (rooms %s --help)", subcommand->name, subcommand->takes, subcommand->name);
    }
    return subcommand->run(&arguments);
}

/* Opens those of standard input, output and error that are closed, so that no file takes their numbers: they can neither be read
 * nor written, as before. */
static void open_standard(void)
{
    for (int file = STDIN_FILENO; file <= STDERR_FILENO; file++) {
        if (fcntl(file, F_GETFD) < 0 && open("/dev/null", file == STDIN_FILENO ? O_WRONLY : O_RDONLY) < 0) {
            return;
        }
    }
}

int main(int count, char **words)
{
    open_standard();
    /* a file that grows past its limit is then an error of write, which is told, and not the end of the command */
    signal(SIGXFSZ, SIG_IGN);
    if (count < 2) {
        usage(stderr);
        return MISUSED;
    }
    int status = -1;
    if (strcmp(words[1], "--help") == 0 || strcmp(words[1], "-h") == 0 || strcmp(words[1], "help") == 0) {
        usage(stdout);
        status = DONE;
    }
    for (size_t i = 0; i < SUBCOMMANDS && status < 0; i++) {
        if (strcmp(words[1], subcommands[i].name) == 0) {
            status = run(&subcommands[i], count - 2, words + 2);
        }
    }
    if (status < 0) {
        return say_misused("there is no '%s' (rooms --help)", words[1]);
    }
    progress_end();
    if ((fflush(stdout) != 0 || ferror(stdout)) && status == DONE) {
        return say_failed("standard output: not written: %s", strerror(errno));
    }
    return status;
}
