/* Files read whole or piece by piece, and written whole: beside their place first, then renamed. */
#include "file.h"

#include <errno.h>
#include <fcntl.h>
#include <signal.h>
#include <stdlib.h>
#include <stdio.h>
#include <string.h>
#include <sys/stat.h>
#include <unistd.h>

#include "progress.h"

bool bytes_room(struct bytes *bytes, size_t more)
{
    if (more <= bytes->room - bytes->length) {
        return true;
    }
    if (more > SIZE_MAX / 4 || bytes->length > SIZE_MAX / 4) {
        return false;
    }
    size_t room = bytes->length + more;
    if (room < 2 * bytes->room) {
        room = 2 * bytes->room;
    }
    uint8_t *at = realloc(bytes->at, room);
    if (at == NULL) {
        return false;
    }
    bytes->at = at;
    bytes->room = room;
    return true;
}

/* Says why a system call failed. */
static int failed(const char *path, const char *what)
{
    return say_failed("%s: %s: %s", path, what, strerror(errno));
}

/* ---- reading ---- */

#define READ_STEP ((size_t)1 << 16)

/* Whether this is a file or a pipe. Says what it is otherwise. */
static int readable(const char *path, const struct statx *about)
{
    if (S_ISDIR(about->stx_mode)) {
        return say_failed("%s: a folder, not a file", path);
    }
    if (!S_ISREG(about->stx_mode) && !S_ISFIFO(about->stx_mode)) {
        return say_failed("%s: a device, not a file", path);
    }
    return DONE;
}

/* Opens a file or a pipe and says of it what is known. It is looked at before it is opened, for opening a device can do something,
 * and once more when it is open, for by then the path may lead elsewhere. */
static int open_to_read(const char *path, int *file, struct statx *about)
{
    if (statx(AT_FDCWD, path, 0, STATX_TYPE, about) != 0) {
        return failed(path, "can't be read");
    }
    int status = readable(path, about);
    if (status != DONE) {
        return status;
    }
    *file = open(path, O_RDONLY | O_NOCTTY | O_CLOEXEC);
    if (*file < 0) {
        return failed(path, "can't be read");
    }
    bool known = statx(*file, "", AT_EMPTY_PATH, STATX_TYPE | STATX_SIZE, about) == 0;
    status = known ? readable(path, about) : failed(path, "can't be read");
    if (status != DONE) {
        close(*file);
    }
    return status;
}

/* One read, after those that a signal ended; 0 at the end, less than 0 after an error. */
static ssize_t read_some(int file, uint8_t *at, size_t room)
{
    ssize_t count;
    do {
        count = read(file, at, room);
    } while (count < 0 && errno == EINTR);
    return count;
}

/* Reads to the end, wherever that is by then: a file may grow or shrink while it is read. */
static int read_all(int file, const char *path, size_t most, struct bytes *bytes)
{
    for (;;) {
        if (bytes->room == bytes->length && !bytes_room(bytes, READ_STEP)) {
            return say_no_memory(READ_STEP);
        }
        ssize_t count = read_some(file, bytes->at + bytes->length, bytes->room - bytes->length);
        if (count <= 0) {
            return count == 0 ? DONE : failed(path, "can't be read");
        }
        bytes->length += (size_t)count;
        if (bytes->length > most) {
            return say_failed("%s: longer than any file of its kind", path);
        }
    }
}

int file_read(const char *path, size_t most, struct bytes *bytes)
{
    struct statx about;
    int file;
    memset(bytes, 0, sizeof *bytes);
    progress_begin("reading", path);
    int status = open_to_read(path, &file, &about);
    if (status != DONE) {
        return status;
    }
    if (S_ISREG(about.stx_mode) && about.stx_size > most) {
        status = say_failed("%s: longer than any file of its kind", path);
    } else if (S_ISREG(about.stx_mode) && !bytes_room(bytes, (size_t)about.stx_size + 1)) {
        /* one byte more than the file has, so that its end is seen without growing */
        status = say_no_memory((size_t)about.stx_size);
    } else {
        status = read_all(file, path, most, bytes);
    }
    progress_end();
    close(file);
    return status;
}

int source_open(struct source *source, const char *path)
{
    struct statx about;
    memset(source, 0, sizeof *source);
    source->path = path;
    int status = open_to_read(path, &source->file, &about);
    if (status != DONE) {
        return status;
    }
    source->sized = S_ISREG(about.stx_mode);
    source->length = source->sized ? about.stx_size : 0;
    source->at = malloc(SOURCE_BYTES);
    if (source->at == NULL) {
        close(source->file);
        return say_no_memory(SOURCE_BYTES);
    }
    return DONE;
}

int source_fill(struct source *source)
{
    memmove(source->at, source->at + source->start, source->end - source->start);
    source->end -= source->start;
    source->start = 0;
    while (source->end < SOURCE_BYTES) {
        ssize_t count = read_some(source->file, source->at + source->end, SOURCE_BYTES - source->end);
        if (count <= 0) {
            return count == 0 ? DONE : failed(source->path, "can't be read");
        }
        source->end += (size_t)count;
    }
    return DONE;
}

void source_close(struct source *source)
{
    close(source->file);
    free(source->at);
}

/* ---- writing ---- */

#define BESIDE ".rooms-XXXXXX"

/* Where a file is written, and whose it is. */
struct place {
    char *path; /* that of the command line, or what it links to; allocated */
    mode_t mode;
    bool taken; /* a file is there, with this owner and group */
    uid_t owner;
    gid_t group;
};

/* A file that is there already. */
static int take_place(struct place *place, const char *path, const char *from)
{
    struct statx about, source;
    if (statx(AT_FDCWD, path, 0, STATX_BASIC_STATS, &about) != 0) {
        return failed(path, "can't be written");
    }
    if (!S_ISREG(about.stx_mode)) {
        return say_failed("%s: %s, not a file; nothing is written", path, S_ISDIR(about.stx_mode) ? "a folder" : "a pipe or device");
    }
    if (statx(AT_FDCWD, from, 0, STATX_BASIC_STATS, &source) == 0 && source.stx_ino == about.stx_ino &&
        source.stx_dev_major == about.stx_dev_major && source.stx_dev_minor == about.stx_dev_minor) {
        return say_failed("%s: that is the file read; nothing is written over it", path);
    }
    place->mode = about.stx_mode & 0777;
    place->taken = true;
    place->owner = about.stx_uid;
    place->group = about.stx_gid;
    place->path = access(path, W_OK) == 0 ? realpath(path, NULL) : NULL;
    return place->path != NULL ? DONE : failed(path, "can't be written");
}

/* The place of a file to be written. Says why there is none. */
static int find_place(struct place *place, const char *path, const char *from)
{
    struct statx about;
    mode_t mask = umask(0);
    umask(mask);
    memset(place, 0, sizeof *place);
    if (statx(AT_FDCWD, path, AT_SYMLINK_NOFOLLOW, STATX_TYPE, &about) == 0) {
        return take_place(place, path, from);
    }
    if (errno != ENOENT) {
        return failed(path, "can't be written");
    }
    place->mode = 0666 & ~mask;
    place->path = strdup(path);
    return place->path != NULL ? DONE : say_no_memory(strlen(path));
}

/* The name of a file in the folder of `path`, as mkstemp takes it. Allocated. */
static char *beside(const char *path)
{
    const char *slash = strrchr(path, '/');
    size_t folder = slash == NULL ? 0 : (size_t)(slash - path) + 1;
    char *name = malloc(folder + sizeof BESIDE);
    if (name != NULL) {
        memcpy(name, path, folder);
        memcpy(name + folder, BESIDE, sizeof BESIDE);
    }
    return name;
}

static bool write_all(int file, const uint8_t *at, size_t length)
{
    while (length > 0) {
        ssize_t count = write(file, at, length);
        if (count < 0 && errno != EINTR) {
            return false;
        }
        at += count > 0 ? count : 0;
        length -= count > 0 ? (size_t)count : 0;
    }
    return true;
}

/* Gives a file the rights of its place; owner and group as far as this user may give them. */
static bool give_rights(int file, const struct place *place)
{
    if (place->taken && fchown(file, place->owner, place->group) != 0 && fchown(file, (uid_t)-1, place->group) != 0) {
        errno = 0; /* it is then this user's */
    }
    return fchmod(file, place->mode) == 0;
}

/* Writes the file named by the pattern `name` and renames it to its place; errno tells what failed. */
static bool write_beside(char *name, const struct place *place, const uint8_t *at, size_t length)
{
    int file = mkstemp(name);
    if (file < 0) {
        return false;
    }
    bool good = write_all(file, at, length) && give_rights(file, place) && fsync(file) == 0;
    int why = errno;
    if (close(file) != 0 && good) {
        good = false;
        why = errno;
    }
    if (good && rename(name, place->path) != 0) {
        good = false;
        why = errno;
    }
    if (!good) {
        unlink(name);
        errno = why;
    }
    return good;
}

int file_write(const char *path, const char *from, const uint8_t *at, size_t length)
{
    struct place place;
    int status = find_place(&place, path, from);
    if (status != DONE) {
        return status;
    }
    char *name = beside(place.path);
    if (name == NULL) {
        free(place.path);
        return say_no_memory(strlen(path));
    }
    /* a signal that would end the command waits until nothing is left beside */
    sigset_t all, before;
    sigfillset(&all);
    sigprocmask(SIG_BLOCK, &all, &before);
    bool good = write_beside(name, &place, at, length);
    int why = errno;
    sigprocmask(SIG_SETMASK, &before, NULL);
    free(name);
    free(place.path);
    errno = why;
    return good ? DONE : failed(path, "not written");
}
