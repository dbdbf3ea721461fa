/* Files read whole or piece by piece, and written whole. */
#ifndef FILE_H
#define FILE_H

#include "command.h"

/* Bytes that grow. All zero is none. */
struct bytes {
    uint8_t *at;
    size_t length, room;
};

/* Makes room for `more` bytes behind the length; false where memory is short. */
bool bytes_room(struct bytes *bytes, size_t more);

/* Reads a file or a pipe of at most `most` bytes. Says what failed. */
int file_read(const char *path, size_t most, struct bytes *bytes);

/* A file or a pipe read piece by piece: what was read and is not taken yet lies from `start` up to, and not with, `end`. */
#define SOURCE_BYTES ((size_t)1 << 16)
struct source {
    const char *path;
    int file;
    bool sized; /* it is a file, and `length` its length when it was opened */
    uint64_t length;
    uint8_t *at;
    size_t start, end;
};

/* Opens. Says what failed; there is then nothing to close. */
int source_open(struct source *source, const char *path);

/* Reads on until SOURCE_BYTES are there or the file ends. Says what failed. */
int source_fill(struct source *source);
void source_close(struct source *source);

/* Writes a file beside `path` and gives it that name once it is whole; where anything fails, `path` is as it was and nothing
 * is left. Never over `from`, the file that the bytes were made of. Says what failed. */
int file_write(const char *path, const char *from, const uint8_t *at, size_t length);

#endif
