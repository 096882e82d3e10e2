#include "files/paths.h"

#include <errno.h>
#include <stdlib.h>
#include <string.h>
#include <sys/stat.h>
#include <unistd.h>

#include "records/buffer.h"

/* ---- Names ---- */

bool is_dash(const char *path)
{
    return strcmp(path, "-") == 0;
}

size_t count_dashes(char *const *paths, size_t count)
{
    size_t dashes = 0;
    for (size_t i = 0; i < count; i++)
        dashes += is_dash(paths[i]);
    return dashes;
}

const char *base_name(const char *path)
{
    const char *slash = strrchr(path, '/');
    return slash != NULL ? slash + 1 : path;
}

bool names_folder(const char *path)
{
    const char *name = base_name(path);
    return *path != 0 && (*name == 0 || strcmp(name, ".") == 0 || strcmp(name, "..") == 0);
}

/* The first bytes of a path, a text and a name.  A buffer ends the program where there is no memory. */
static char *joined(const char *path, size_t length, const char *between, const char *name)
{
    struct buffer whole = {0};
    buffer_append(&whole, (const uint8_t *)path, length);
    buffer_append(&whole, (const uint8_t *)between, strlen(between));
    buffer_append(&whole, (const uint8_t *)name, strlen(name) + 1);
    return (char *)whole.bytes;
}

char *path_copy(const char *path)
{
    return joined("", 0, "", path);
}

char *path_within(const char *folder, const char *name)
{
    return joined(folder, strlen(folder), "/", name);
}

char *path_beside(const char *path, const char *name)
{
    return joined(path, (size_t)(base_name(path) - path), "", name);
}

/* ---- Files ---- */

struct identity {
    dev_t device;
    ino_t inode;
};

/* "-" is the standard file of this number, which also says whether the path is an input or an output. */
static bool identity_of(const char *path, int standard, struct identity *identity)
{
    struct stat there;
    bool is_there = is_dash(path) ? fstat(standard, &there) == 0 : stat(path, &there) == 0;
    if (!is_there || (!S_ISREG(there.st_mode) && !(standard == STDOUT_FILENO && S_ISFIFO(there.st_mode))))
        return false;
    *identity = (struct identity){there.st_dev, there.st_ino};
    return true;
}

static int compare(const void *left, const void *right)
{
    const struct identity *one = left, *two = right;
    if (one->device != two->device)
        return one->device < two->device ? -1 : 1;
    return (one->inode > two->inode) - (one->inode < two->inode);
}

static bool is_one(const struct stat *first, const struct stat *second)
{
    return first->st_dev == second->st_dev && first->st_ino == second->st_ino;
}

static bool is_one_folder(const char *one, const char *other)
{
    struct stat first, second;
    return stat(one, &first) == 0 && stat(other, &second) == 0 && is_one(&first, &second);
}

/* One name in one folder. */
static bool is_one_name(const char *one, const char *other)
{
    char *first = path_beside(one, "."), *second = path_beside(other, ".");
    bool same = strcmp(base_name(one), base_name(other)) == 0 && is_one_folder(first, second);
    free(first);
    free(second);
    return same;
}

bool is_written_over(const char *input, const char *output)
{
    struct identity read, written;
    return identity_of(input, STDIN_FILENO, &read) && identity_of(output, STDOUT_FILENO, &written) &&
           compare(&read, &written) == 0;
}

static bool is_standard(int standard, const char *path, struct stat *there)
{
    struct stat named;
    return stat(path, &named) == 0 && fstat(standard, there) == 0 && is_one(&named, there);
}

bool is_standard_output(const char *path)
{
    struct stat there;
    return is_dash(path) || is_standard(STDOUT_FILENO, path, &there);
}

bool is_standard_error(const char *path)
{
    struct stat there;
    return !is_standard_output(path) && is_standard(STDERR_FILENO, path, &there) && S_ISREG(there.st_mode);
}

/* Of devices a terminal alone: two that go to /dev/null do not meet. */
bool is_one_output(const char *one, const char *other)
{
    struct identity first, second;
    if (isatty(STDOUT_FILENO) && is_standard_output(one) && is_standard_output(other))
        return true;
    if (identity_of(one, STDOUT_FILENO, &first) && identity_of(other, STDOUT_FILENO, &second))
        return compare(&first, &second) == 0;
    return !is_dash(one) && !is_dash(other) && is_one_name(one, other);
}

const char of_dangling[] = "is a link that leads nowhere";

bool leads_nowhere(const char *path)
{
    struct stat there;
    return !is_dash(path) && lstat(path, &there) == 0 && S_ISLNK(there.st_mode) && stat(path, &there) != 0 &&
           (errno == ENOENT || errno == ELOOP);
}

static void file_set_take(struct file_set *set, char *const *paths, size_t count, int standard)
{
    struct buffer identities = {0};
    struct identity identity;
    for (size_t i = 0; i < count; i++)
        if (identity_of(paths[i], standard, &identity))
            buffer_append(&identities, (const uint8_t *)&identity, sizeof identity);
    *set = (struct file_set){(struct identity *)(void *)identities.bytes, identities.length / sizeof identity};
    if (set->count > 0)
        qsort(set->identities, set->count, sizeof identity, compare);
}

void file_set_of_inputs(struct file_set *set, char *const *paths, size_t count)
{
    file_set_take(set, paths, count, STDIN_FILENO);
}

void file_set_of_outputs(struct file_set *set, char *const *paths, size_t count)
{
    file_set_take(set, paths, count, STDOUT_FILENO);
}

void file_set_free(struct file_set *set)
{
    free(set->identities);
    *set = (struct file_set){0};
}

bool file_set_holds(const struct file_set *set, const char *output)
{
    struct identity identity;
    return set->count > 0 && identity_of(output, STDOUT_FILENO, &identity) &&
           bsearch(&identity, set->identities, set->count, sizeof identity, compare) != NULL;
}

bool file_set_repeats(const struct file_set *set)
{
    for (size_t i = 1; i < set->count; i++)
        if (compare(&set->identities[i - 1], &set->identities[i]) == 0)
            return true;
    return false;
}
