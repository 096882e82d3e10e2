#include "files/files.h"

#include <errno.h>
#include <fcntl.h>
#include <stdio.h>
#include <stdlib.h>
#include <string.h>
#include <sys/stat.h>
#include <unistd.h>

#include "files/interrupts.h"
#include "files/messages.h"
#include "files/paths.h"

/* Says what errno says, and keeps it; of a link that leads nowhere it would say that the link is missing. */
static bool complain_why(const char *path)
{
    int why = errno;
    bool dangling = (why == ENOENT || why == ELOOP) && leads_nowhere(path);
    complain(path, "%s", dangling ? of_dangling : strerror(why));
    errno = why;
    return false;
}

/* Closes, and keeps the errno of what failed before. */
static bool close_after(int file, bool done)
{
    int why = errno;
    bool closed = close(file) == 0;
    if (!done)
        errno = why;
    return done && closed;
}

/* Waits where it is a fifo, for somebody at its other end. */
static int open_file(const char *path, int flags)
{
    int file;
    do
        file = open(path, flags | O_NOCTTY | O_CLOEXEC);
    while (file < 0 && is_to_be_repeated());
    return file;
}

/* ---- Reading ---- */

/* At most `most` bytes; -1 is an error. */
static ssize_t read_some(int file, uint8_t *bytes, size_t most)
{
    ssize_t length;
    do
        length = read(file, bytes, most);
    while (length < 0 && is_to_be_repeated());
    return length;
}

/* Appends the rest of an open file. */
static bool read_rest(int file, struct buffer *contents)
{
    enum { PART = 1 << 16 };
    size_t start = contents->length;
    for (;;) {
        buffer_reserve(contents, PART);
        ssize_t length = read_some(file, contents->bytes + contents->length, PART);
        if (length <= 0)
            return length == 0;
        contents->length += (size_t)length;
        if (contents->length - start > LONGEST_FILE)
            return errno = EFBIG, false;
    }
}

/* Where reading was broken off by a signal there is no fault to tell. */
static bool complain_unread(const char *path)
{
    if (errno == EFBIG)
        complain(path, "longer than %d MiB", LONGEST_FILE >> 20);
    else if (errno != EINTR)
        complain_why(path);
    return false;
}

bool read_file(const char *path, struct buffer *contents)
{
    if (is_dash(path))
        return read_rest(STDIN_FILENO, contents) || complain_unread(path);
    int file = open_file(path, O_RDONLY);
    return (file >= 0 && close_after(file, read_rest(file, contents))) || complain_unread(path);
}

/* ---- Writing ---- */

static bool write_all(int file, const uint8_t *bytes, size_t length)
{
    while (length > 0) {
        ssize_t written = write(file, bytes, length);
        if (written < 0 && is_to_be_repeated())
            continue;
        if (written <= 0)
            return false;
        bytes += written;
        length -= (size_t)written;
    }
    return true;
}

/* What was printed before goes out first. */
static enum written write_to_standard_output(const uint8_t *bytes, size_t length)
{
    bool done = fflush(stdout) == 0 && write_all(STDOUT_FILENO, bytes, length);
    return (done || complain_why("standard output")) ? WRITTEN : NOT_WRITTEN;
}

static enum written write_into(const char *path, const uint8_t *bytes, size_t length)
{
    int file = open_file(path, O_WRONLY);
    bool done = file >= 0 && close_after(file, write_all(file, bytes, length));
    return (done || complain_why(path)) ? WRITTEN : NOT_WRITTEN;
}

static bool sync_file(int file)
{
    int failed;
    do
        failed = fsync(file);
    while (failed && is_to_be_repeated());
    return !failed;
}

/* The mode that a plain creation would give. */
static mode_t mode_of_new_file(void)
{
    mode_t mask = umask(0);
    umask(mask);
    return 0666 & ~mask;
}

/* After a failure, whose errno is kept: no temporary file is left. */
static bool drop(const char *temporary)
{
    int why = errno;
    unlink(temporary);
    errno = why;
    return false;
}

/* Fills a new file, whose name mkstemp makes. */
static bool write_temporary(char *temporary, mode_t mode, const uint8_t *bytes, size_t length)
{
    int file = mkstemp(temporary);
    if (file < 0)
        return false;
    bool done = write_all(file, bytes, length) && fchmod(file, mode) == 0 && sync_file(file);
    return close_after(file, done) || drop(temporary);
}

static bool rename_temporary(const char *temporary, const char *target)
{
    return rename(temporary, target) == 0 || drop(temporary);
}

/* No signal ends the program while the temporary file is there. */
static bool write_and_rename(char *temporary, const char *target, mode_t mode, const uint8_t *bytes, size_t length)
{
    sigset_t before;
    hold_signals(&before);
    bool renamed = write_temporary(temporary, mode, bytes, length) && rename_temporary(temporary, target);
    release_signals(&before);
    return renamed;
}

/* Makes the new name last.  A file system that cannot sync a folder (EINVAL) has nothing to sync. */
static enum written sync_folder(int folder, const char *path)
{
    bool synced = close_after(folder, sync_file(folder) || errno == EINVAL);
    if (!synced)
        complain(path, "is written, but its folder is not synced: %s", strerror(errno));
    return synced ? WRITTEN : WRITTEN_UNSYNCED;
}

/* Replaces the target, a regular file or none; `path` is its name in messages. */
static enum written replace(const char *target, const char *path, mode_t mode, const uint8_t *bytes, size_t length)
{
    char *temporary = path_beside(target, ".flow-XXXXXX"), *parent = path_beside(target, ".");
    int folder = open_file(parent, O_RDONLY | O_DIRECTORY);
    bool renamed = folder >= 0 && write_and_rename(temporary, target, mode, bytes, length);
    if (!renamed)
        complain_why(path);
    free(temporary);
    free(parent);
    if (renamed)
        return sync_folder(folder, path);
    if (folder >= 0)
        close_after(folder, false);
    return NOT_WRITTEN;
}

/* A file that may not be written is not replaced either. */
static enum written replace_existing(const char *path, mode_t mode, const uint8_t *bytes, size_t length)
{
    char *target = realpath(path, NULL);
    bool allowed = (target != NULL && access(target, W_OK) == 0) || complain_why(path);
    enum written written = allowed ? replace(target, path, mode, bytes, length) : NOT_WRITTEN;
    free(target);
    return written;
}

/* errno is why the path leads to nothing. */
static enum written write_new(const char *path, const uint8_t *bytes, size_t length)
{
    if (errno != ENOENT || leads_nowhere(path))
        return complain_why(path), NOT_WRITTEN;
    return replace(path, path, mode_of_new_file(), bytes, length);
}

enum written write_file(const char *path, const uint8_t *bytes, size_t length)
{
    struct stat there;
    if (is_dash(path))
        return write_to_standard_output(bytes, length);
    if (names_folder(path))
        return complain(path, "is the name of a folder, and not of a file"), NOT_WRITTEN;
    if (stat(path, &there) != 0)
        return write_new(path, bytes, length);
    if (!S_ISCHR(there.st_mode) && is_standard_output(path))
        return write_to_standard_output(bytes, length);
    if (!S_ISREG(there.st_mode))
        return write_into(path, bytes, length);
    return replace_existing(path, there.st_mode & 0777, bytes, length);
}
