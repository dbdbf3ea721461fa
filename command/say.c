/* What is said: failures and refusals on standard error, numbers and strings as people and machines read them. */
#include "command.h"

#include <inttypes.h>
#include <stdarg.h>
#include <stdio.h>

#include "progress.h"

#define SAID_BYTES (2 * SHOWN_BYTES)

/* Makes control bytes question marks. */
static void calm(char *text)
{
    for (; *text != '\0'; text++) {
        if ((unsigned char)*text < 0x20 || *text == 0x7F) {
            *text = '?';
        }
    }
}

static void say(const char *format, va_list values)
{
    char text[SAID_BYTES];
    progress_end();
    fflush(stdout);
    vsnprintf(text, sizeof text, format, values);
    calm(text);
    fprintf(stderr, "rooms: %s\n", text);
}

int say_failed(const char *format, ...)
{
    va_list values;
    va_start(values, format);
    say(format, values);
    va_end(values);
    return REFUSED;
}

int say_misused(const char *format, ...)
{
    va_list values;
    va_start(values, format);
    say(format, values);
    va_end(values);
    return MISUSED;
}

int say_no_memory(size_t bytes)
{
    char number[GROUPED_BYTES];
    return say_failed("not enough memory: %s bytes more are needed", grouped(bytes, number));
}

int say_refused(const char *name, uint32_t number)
{
    return say_failed("%s: refused, number %" PRIu32 ": %s", name, number, refusal_words(number));
}

const char *refusal_words(uint32_t number)
{
    static const char *const words[] = {
        [ROOMS_OK] = "accepted",
        [ROOMS_BAD_SIZE] = "the capacity is not 1 to 65,536, or the words are too few for it",
        [ROOMS_DAMAGED_STORE] = "the store is damaged",
        [ROOMS_BAD_VERSION] = "neither an outline nor a packed file of this version: it is empty, or its first byte is another",
        [ROOMS_BAD_LENGTH] = "the file is cut, or its bytes 1 to 4 don't say its length",
        [ROOMS_BAD_DEPTH] = "the depth is not 2 to 16",
        [ROOMS_BROKEN_RULES] = "the file breaks a rule of its kind",
        [ROOMS_SCENES_FULL] = "the store holds 64 scenes",
        [ROOMS_CELLS_FULL] = "some height has more differing cells than the largest store keeps, 65,536",
        [ROOMS_NO_SCENE] = "the store holds no such scene",
        [ROOMS_OUTSIDE] = "outside the room, a height above its depth, or low above high",
        [ROOMS_SCRATCH_SHORT] = "the scratch is too short",
        [ROOMS_OUTPUT_SHORT] = "the output is too short",
        [ROOMS_BAD_WISH] = "the wish is out of its range, infinite or no number",
        [ROOMS_TOO_DEEP] = "the depth is above 10, the most that the headset has room for",
        [ROOMS_LONG_POINTER] = "the packed file has, or would have, a pointer of 4 bytes, which the headset can't read",
    };
    return number < sizeof words / sizeof words[0] ? words[number] : "a refusal that this command has no words for";
}

const char *grouped(uint64_t number, char out[GROUPED_BYTES])
{
    char digits[GROUPED_BYTES];
    size_t count = (size_t)snprintf(digits, sizeof digits, "%" PRIu64, number);
    size_t at = 0;
    for (size_t i = 0; i < count; i++) {
        if (i > 0 && (count - i) % 3 == 0) {
            out[at++] = ',';
        }
        out[at++] = digits[i];
    }
    out[at] = '\0';
    return out;
}

const char *shown(const char *name, char out[SHOWN_BYTES])
{
    snprintf(out, SHOWN_BYTES, "%s", name);
    calm(out);
    return out;
}

/* The bytes of the UTF-8 character here; 0 where there is none. */
static unsigned character_bytes(const unsigned char *at)
{
    if (at[0] < 0x80) {
        return 1;
    }
    unsigned bytes = at[0] >= 0xF0 ? 4 : at[0] >= 0xE0 ? 3 : 2;
    /* shorter spellings, surrogates and numbers past the last are none */
    unsigned least = at[0] == 0xE0 ? 0xA0 : at[0] == 0xF0 ? 0x90 : 0x80;
    unsigned most = at[0] == 0xED ? 0x9F : at[0] == 0xF4 ? 0x8F : 0xBF;
    if (at[0] < 0xC2 || at[0] > 0xF4 || at[1] < least || at[1] > most) {
        return 0;
    }
    for (unsigned i = 2; i < bytes; i++) {
        if ((at[i] & 0xC0) != 0x80) {
            return 0;
        }
    }
    return bytes;
}

void print_json_string(const char *string)
{
    const unsigned char *at = (const unsigned char *)string;
    putchar('"');
    while (*at != '\0') {
        unsigned bytes = character_bytes(at);
        if (bytes == 0) {
            printf("\\ufffd");
        } else if (*at == '"' || *at == '\\') {
            printf("\\%c", *at);
        } else if (*at < 0x20 || *at == 0x7F) {
            printf("\\u%04x", *at);
        } else {
            fwrite(at, 1, bytes, stdout);
        }
        at += bytes == 0 ? 1 : bytes;
    }
    putchar('"');
}
