/* Pictures and their letters. */
#include "picture.h"

#include <stdlib.h>
#include <string.h>

bool picture_new(struct picture *picture, uint32_t width, uint32_t height)
{
    picture->width = width;
    picture->height = height;
    picture->pixels = malloc((size_t)width * height);
    if (picture->pixels != NULL) {
        memset(picture->pixels, PAPER, (size_t)width * height);
    }
    return picture->pixels != NULL;
}

void picture_free(struct picture *picture)
{
    free(picture->pixels);
    picture->pixels = NULL;
}

/* Cuts a stretch to 0 up to `most`; false where nothing is left. */
static bool cut(int64_t *start, int64_t *length, int64_t most)
{
    if (*start < 0) {
        *length += *start;
        *start = 0;
    }
    if (*length > most - *start) {
        *length = most - *start;
    }
    return *length > 0;
}

void picture_fill(struct picture *picture, int64_t left, int64_t top, int64_t width, int64_t height, enum colour colour)
{
    if (!cut(&left, &width, picture->width) || !cut(&top, &height, picture->height)) {
        return;
    }
    for (int64_t row = top; row < top + height; row++) {
        memset(picture->pixels + (size_t)row * picture->width + (size_t)left, (int)colour, (size_t)width);
    }
}

/* Three columns and five rows of a character, a row in each octal digit, the top one first. */
static unsigned glyph(char c)
{
    static const unsigned digits[] = {075557, 026227, 071747, 071717, 055711, 074717, 074757, 071222, 075757, 075717};
    switch (c) {
    case 'x':
        return 055255;
    case 'y':
        return 055222;
    case 'z':
        return 071247;
    default:
        return c >= '0' && c <= '9' ? digits[c - '0'] : 0;
    }
}

void picture_text(struct picture *picture, int64_t left, int64_t top, const char *text)
{
    for (; *text != '\0'; text++, left += GLYPH_STEP) {
        unsigned bits = glyph(*text);
        for (int i = 0; i < 15; i++) {
            if ((bits >> (14 - i) & 1) != 0) {
                picture_fill(picture, left + i % 3 * 2, top + i / 3 * 2, 2, 2, INK);
            }
        }
    }
}
