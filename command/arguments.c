/* The words behind a subcommand: options anywhere, up to a word '--', and the rest in order. */
#include "command.h"

#include <string.h>

/* An option that takes the word behind it. */
static int take_value(struct arguments *a, const char *option, const char *value)
{
    if (value == NULL) {
        return say_misused("%s takes a word behind it (rooms %s --help)", option, a->subcommand);
    }
    if (strcmp(option, "--picture") == 0) {
        a->picture = value;
        return DONE;
    }
    if (strcmp(option, "--axis") == 0) {
        if (value[0] < 'x' || value[0] > 'z' || value[1] != '\0') {
            return say_misused("--axis takes x, y or z, not '%s'", value);
        }
        a->axis = (unsigned)(value[0] - 'x');
        a->axis_given = true;
        return DONE;
    }
    if (a->marks_count == MARKS_MOST) {
        return say_misused("--mark: more than %d marks", MARKS_MOST);
    }
    if (!read_point(value, a->marks[a->marks_count])) {
        return say_misused("--mark takes x,y,z, three numbers with commas between, not '%s'", value);
    }
    a->marks_count++;
    return DONE;
}

static const struct {
    const char *name;
    unsigned option;
    bool takes_value;
} known[] = {
    {"--json", OPTION_JSON, false}, {"--words", OPTION_WORDS, false},    {"--axis", OPTION_AXIS, true},
    {"--mark", OPTION_MARK, true},  {"--picture", OPTION_PICTURE, true}, {"--headset", OPTION_HEADSET, false},
};

/* Reads one option; *taken is how many words it took. */
static int take_option(struct arguments *a, unsigned options, int left, char **words, int *taken)
{
    *taken = 1;
    if (strcmp(words[0], "--help") == 0 || strcmp(words[0], "-h") == 0) {
        a->help = true;
        return DONE;
    }
    for (size_t i = 0; i < sizeof known / sizeof known[0]; i++) {
        if ((known[i].option & options) == 0 || strcmp(words[0], known[i].name) != 0) {
            continue;
        }
        if (known[i].takes_value) {
            *taken = 2;
            return take_value(a, words[0], left > 1 ? words[1] : NULL);
        }
        a->json = a->json || known[i].option == OPTION_JSON;
        a->in_words = a->in_words || known[i].option == OPTION_WORDS;
        a->headset = a->headset || known[i].option == OPTION_HEADSET;
        return DONE;
    }
    return say_misused("%s has no option '%s' (rooms %s --help)", a->subcommand, words[0], a->subcommand);
}

int arguments_read(struct arguments *a, int count, char **words, unsigned options)
{
    bool ended = false;
    a->words = words;
    for (int i = 0; i < count;) {
        if (!ended && strcmp(words[i], "--") == 0) {
            ended = true;
            i++;
        } else if (!ended && words[i][0] == '-' && words[i][1] != '\0' && (words[i][1] < '0' || words[i][1] > '9')) {
            int taken;
            int status = take_option(a, options, count - i, words + i, &taken);
            if (status != DONE) {
                return status;
            }
            i += taken;
        } else {
            words[a->count++] = words[i++];
        }
    }
    return DONE;
}
