/*
 * For tests: calls of the system that fail, or in which a signal comes.  Put before libc by LD_PRELOAD, by what stands in the
 * environment:
 *   FAIL=NAME, FAIL=NAME:N  the first, or the Nth, call of this name fails: read, write, fchmod, fsync, close or rename
 *   RAISE=NAME, ..:N        in this call the signal comes whose number is SIGNAL: in one of these, open, mkstemp or unlink,
 *                           before its work is done; with LATE=1, after that; with TWICE=1, twice
 *   SHORT=1                 open, read, write and fsync are interrupted every other time; reads and writes take 7 bytes at most
 *   TRACE=1                 fsync and rename are told on standard error
 */
#include <dlfcn.h>
#include <errno.h>
#include <fcntl.h>
#include <signal.h>
#include <stdarg.h>
#include <stdbool.h>
#include <stdio.h>
#include <stdlib.h>
#include <string.h>
#include <sys/stat.h>
#include <unistd.h>

/* Is this the call that the variable names?  Each variable counts by itself. */
static bool is_wanted(const char *variable, int *calls, const char *name)
{
    const char *wanted = getenv(variable);
    size_t length = strlen(name);
    if (wanted == NULL || strncmp(wanted, name, length) != 0 || (wanted[length] != 0 && wanted[length] != ':'))
        return false;
    return ++*calls == (wanted[length] == ':' ? atoi(wanted + length + 1) : 1);
}

static bool fails(const char *name, int why)
{
    static int calls;
    if (!is_wanted("FAIL", &calls, name))
        return false;
    errno = why;
    return true;
}

static bool is_signalled(const char *name)
{
    static int calls;
    return is_wanted("RAISE", &calls, name);
}

/* Stands before a call's work and after it. */
static void let_come(bool signalled, bool late)
{
    int why = errno, times = !signalled || late != (getenv("LATE") != NULL) ? 0 : getenv("TWICE") != NULL ? 2 : 1;
    for (int i = 0; i < times; i++)
        raise(atoi(getenv("SIGNAL")));
    errno = why;
}

static bool is_interrupted(void)
{
    static int calls;
    if (getenv("SHORT") == NULL || ++calls % 2 == 0)
        return false;
    errno = EINTR;
    return true;
}

static size_t shortened(size_t length)
{
    return getenv("SHORT") != NULL && length > 7 ? 7 : length;
}

ssize_t read(int file, void *bytes, size_t length)
{
    ssize_t (*next)(int, void *, size_t) = (ssize_t(*)(int, void *, size_t))dlsym(RTLD_NEXT, "read");
    bool signalled = is_signalled("read");
    let_come(signalled, false);
    ssize_t done = fails("read", EIO) || is_interrupted() ? -1 : next(file, bytes, shortened(length));
    let_come(signalled, true);
    return done;
}

ssize_t write(int file, const void *bytes, size_t length)
{
    ssize_t (*next)(int, const void *, size_t) = (ssize_t(*)(int, const void *, size_t))dlsym(RTLD_NEXT, "write");
    bool signalled = is_signalled("write");
    let_come(signalled, false);
    ssize_t done = fails("write", ENOSPC) || is_interrupted() ? -1 : next(file, bytes, shortened(length));
    let_come(signalled, true);
    return done;
}

int open(const char *path, int flags, ...)
{
    int (*next)(const char *, int, ...) = (int (*)(const char *, int, ...))dlsym(RTLD_NEXT, "open");
    bool signalled = is_signalled("open");
    va_list arguments;
    va_start(arguments, flags);
    mode_t mode = flags & O_CREAT ? va_arg(arguments, mode_t) : 0;
    va_end(arguments);
    let_come(signalled, false);
    int file = is_interrupted() ? -1 : next(path, flags, mode);
    let_come(signalled, true);
    return file;
}

int mkstemp(char *name)
{
    int (*next)(char *) = (int (*)(char *))dlsym(RTLD_NEXT, "mkstemp");
    bool signalled = is_signalled("mkstemp");
    let_come(signalled, false);
    int file = next(name);
    let_come(signalled, true);
    return file;
}

int unlink(const char *path)
{
    int (*next)(const char *) = (int (*)(const char *))dlsym(RTLD_NEXT, "unlink");
    bool signalled = is_signalled("unlink");
    let_come(signalled, false);
    int done = next(path);
    let_come(signalled, true);
    return done;
}

int fchmod(int file, mode_t mode)
{
    int (*next)(int, mode_t) = (int (*)(int, mode_t))dlsym(RTLD_NEXT, "fchmod");
    bool signalled = is_signalled("fchmod");
    let_come(signalled, false);
    int done = fails("fchmod", EPERM) ? -1 : next(file, mode);
    let_come(signalled, true);
    return done;
}

int fsync(int file)
{
    int (*next)(int) = (int (*)(int))dlsym(RTLD_NEXT, "fsync");
    bool signalled = is_signalled("fsync");
    struct stat there;
    if (getenv("TRACE") != NULL && fstat(file, &there) == 0)
        fprintf(stderr, "fsync of a %s\n", S_ISDIR(there.st_mode) ? "folder" : "file");
    let_come(signalled, false);
    int done = fails("fsync", EIO) || is_interrupted() ? -1 : next(file);
    let_come(signalled, true);
    return done;
}

int close(int file)
{
    int (*next)(int) = (int (*)(int))dlsym(RTLD_NEXT, "close");
    bool signalled = is_signalled("close");
    let_come(signalled, false);
    int done = next(file);
    let_come(signalled, true);
    return fails("close", EIO) ? -1 : done;
}

int rename(const char *from, const char *to)
{
    int (*next)(const char *, const char *) = (int (*)(const char *, const char *))dlsym(RTLD_NEXT, "rename");
    bool signalled = is_signalled("rename");
    if (getenv("TRACE") != NULL)
        fprintf(stderr, "rename to %s\n", to);
    let_come(signalled, false);
    int done = fails("rename", EXDEV) ? -1 : next(from, to);
    let_come(signalled, true);
    return done;
}
