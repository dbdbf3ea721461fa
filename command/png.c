/* The PNG file of a picture: four bits a pixel, a palette, packed by zlib where it is there, else in stored blocks. */
#include "picture.h"

#include <stdlib.h>
#include <string.h>

#ifdef HAVE_ZLIB
#include <zlib.h>
#endif

static const uint8_t palette[COLOURS][3] = {
    [EMPTY] = {255, 255, 255},     [SOLID] = {84, 96, 112},         [PAPER] = {238, 240, 242}, [INK] = {60, 64, 70},
    [MARK] = {200, 30, 140},       [CLEAR_LINE] = {0, 150, 80},     [HIDDEN_LINE] = {240, 150, 40},
    [BLOCKER] = {220, 20, 20},
};

static void put_word(uint8_t *at, uint32_t word)
{
    for (unsigned i = 0; i < 4; i++) {
        at[i] = (uint8_t)(word >> (24 - 8 * i));
    }
}

/* PNG's sum over bytes, four bits at a time. */
static uint32_t crc(const uint8_t *at, size_t length)
{
    static const uint32_t table[16] = {
        0x00000000, 0x1DB71064, 0x3B6E20C8, 0x26D930AC, 0x76DC4190, 0x6B6B51F4, 0x4DB26158, 0x5005713C,
        0xEDB88320, 0xF00F9344, 0xD6D6A3E8, 0xCB61B38C, 0x9B64C2B0, 0x86D3D2D4, 0xA00AE278, 0xBDBDF21C,
    };
    uint32_t sum = 0xFFFFFFFF;
    for (size_t i = 0; i < length; i++) {
        sum ^= at[i];
        sum = sum >> 4 ^ table[sum & 15];
        sum = sum >> 4 ^ table[sum & 15];
    }
    return ~sum;
}

/* A chunk: its length, its name, its bytes, its sum. */
static bool put_chunk(struct bytes *png, const char *name, const uint8_t *at, size_t length)
{
    if (length > UINT32_MAX / 2 || !bytes_room(png, length + 12)) {
        return false;
    }
    uint8_t *chunk = png->at + png->length;
    put_word(chunk, (uint32_t)length);
    memcpy(chunk + 4, name, 4);
    if (length > 0) {
        memcpy(chunk + 8, at, length);
    }
    put_word(chunk + 8 + length, crc(chunk + 4, length + 4));
    png->length += length + 12;
    return true;
}

/* The rows, each behind a byte 0, two pixels in a byte. Allocated; NULL where memory is short. */
static uint8_t *rows_of(const struct picture *picture, size_t *length)
{
    size_t row_bytes = 1 + ((size_t)picture->width + 1) / 2;
    *length = row_bytes * picture->height;
    uint8_t *rows = calloc(*length, 1);
    if (rows == NULL) {
        return NULL;
    }
    for (size_t y = 0; y < picture->height; y++) {
        const uint8_t *pixels = picture->pixels + y * picture->width;
        for (size_t x = 0; x < picture->width; x++) {
            rows[y * row_bytes + 1 + x / 2] |= (uint8_t)(pixels[x] << (x % 2 == 0 ? 4 : 0));
        }
    }
    return rows;
}

#ifdef HAVE_ZLIB

static bool compressed(const uint8_t *at, size_t length, struct bytes *out)
{
    uLongf room = compressBound((uLong)length);
    if (!bytes_room(out, room) || compress2(out->at, &room, at, (uLong)length, Z_BEST_COMPRESSION) != Z_OK) {
        return false;
    }
    out->length = room;
    return true;
}

#else

#define STORED_MOST 65535u

/* zlib's sum over bytes. */
static uint32_t adler(const uint8_t *at, size_t length)
{
    uint32_t low = 1, high = 0;
    for (size_t i = 0; i < length; i++) {
        low = (low + at[i]) % 65521;
        high = (high + low) % 65521;
    }
    return high << 16 | low;
}

/* Stored blocks: two bytes in front, five before each block, a sum behind. */
static bool compressed(const uint8_t *at, size_t length, struct bytes *out)
{
    size_t blocks = length / STORED_MOST + 1;
    if (!bytes_room(out, length + 5 * blocks + 6)) {
        return false;
    }
    uint8_t *to = out->at;
    *to++ = 0x78;
    *to++ = 0x01;
    for (size_t block = 0; block < blocks; block++) {
        size_t start = block * STORED_MOST;
        unsigned bytes = (unsigned)(length - start < STORED_MOST ? length - start : STORED_MOST);
        *to++ = block + 1 == blocks;
        *to++ = (uint8_t)bytes;
        *to++ = (uint8_t)(bytes >> 8);
        *to++ = (uint8_t)~bytes;
        *to++ = (uint8_t)(~bytes >> 8);
        memcpy(to, at + start, bytes);
        to += bytes;
    }
    put_word(to, adler(at, length));
    out->length = (size_t)(to + 4 - out->at);
    return true;
}

#endif

bool picture_png(const struct picture *picture, struct bytes *png)
{
    static const uint8_t signature[8] = {0x89, 'P', 'N', 'G', '\r', '\n', 0x1A, '\n'};
    uint8_t head[13] = {0, 0, 0, 0, 0, 0, 0, 0, 4, 3, 0, 0, 0};
    struct bytes data = {NULL, 0, 0};
    size_t length;
    uint8_t *rows = rows_of(picture, &length);
    put_word(head, picture->width);
    put_word(head + 4, picture->height);
    memset(png, 0, sizeof *png);
    bool good = rows != NULL && compressed(rows, length, &data) && bytes_room(png, sizeof signature);
    free(rows);
    if (good) {
        memcpy(png->at, signature, sizeof signature);
        png->length = sizeof signature;
        good = put_chunk(png, "IHDR", head, sizeof head) && put_chunk(png, "PLTE", palette[0], sizeof palette) &&
               put_chunk(png, "IDAT", data.at, data.length) && put_chunk(png, "IEND", NULL, 0);
    }
    free(data.at);
    if (!good) {
        free(png->at);
    }
    return good;
}
