/* Names of files: parts of them, names made of them, and which names lead to one file. */
#ifndef PATHS_H
#define PATHS_H

#include <stdbool.h>
#include <stddef.h>

/* Is it "-", which is standard input or standard output? */
bool is_dash(const char *path);

/* How many of them are. */
size_t count_dashes(char *const *paths, size_t count);

/* What stands behind the last slash. */
const char *base_name(const char *path);

/* Does it end in a slash, "." or ".."?  Then, whatever is there, it is no name of a file. */
bool names_folder(const char *path);

/* To be freed: the path itself; a file of this name in the folder; one in the folder that the path's own file is in. */
char *path_copy(const char *path);
char *path_within(const char *folder, const char *name);
char *path_beside(const char *path, const char *name);

/* Is it a link that leads nowhere?  (One that may not be followed may lead somewhere.)  And what is said of it. */
bool leads_nowhere(const char *path);
extern const char of_dangling[];

/* Is it standard output: "-", or the same file by another name, as /dev/stdout? */
bool is_standard_output(const char *path);

/* Is it the regular file of standard error, and not standard output too?  Were it replaced, messages would be lost. */
bool is_standard_error(const char *path);

/*
 * Would what is written change what is read?  A regular file alone is in danger: a pipe or a device is none the worse.  Would
 * two that are written be one file, pipe or terminal?  "-" is standard input, or output.
 */
bool is_written_over(const char *input, const char *output);
bool is_one_output(const char *one, const char *other);

/* The files that some paths lead to, and of outputs the pipes, by device and inode; a path that leads to none is left out. */
struct file_set {
    struct identity *identities; /* in order */
    size_t count;
};

void file_set_of_inputs(struct file_set *set, char *const *paths, size_t count);
void file_set_of_outputs(struct file_set *set, char *const *paths, size_t count);
void file_set_free(struct file_set *set);

/* Does the path of an output lead to one of them?  Does one stand there twice? */
bool file_set_holds(const struct file_set *set, const char *output);
bool file_set_repeats(const struct file_set *set);

#endif
