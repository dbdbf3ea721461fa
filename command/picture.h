/* Pictures: pixels of a few colours, written as PNG. */
#ifndef PICTURE_H
#define PICTURE_H

#include "file.h"

enum colour { EMPTY, SOLID, PAPER, INK, MARK, CLEAR_LINE, HIDDEN_LINE, BLOCKER, COLOURS };

struct picture {
    uint32_t width, height;
    uint8_t *pixels; /* a colour each, by rows from the top */
};

/* A picture of paper; false where memory is short. */
bool picture_new(struct picture *picture, uint32_t width, uint32_t height);
void picture_free(struct picture *picture);

/* Paints a rectangle; what lies outside the picture is left out. */
void picture_fill(struct picture *picture, int64_t left, int64_t top, int64_t width, int64_t height, enum colour colour);

/* Writes digits and the letters x, y, z, GLYPH_STEP pixels each; other characters are blanks. */
#define GLYPH_STEP 8
#define GLYPH_HEIGHT 10
void picture_text(struct picture *picture, int64_t left, int64_t top, const char *text);

/* The PNG file of a picture; false where memory is short. */
bool picture_png(const struct picture *picture, struct bytes *png);

#endif
