#include "commands/batch.h"

#include <errno.h>
#include <stdlib.h>
#include <string.h>
#include <sys/stat.h>

#include "files/messages.h"
#include "files/outputs.h"
#include "files/paths.h"

char *batch_out(const struct batch *batch, size_t i)
{
    return batch->into != NULL ? path_within(batch->into, base_name(batch->files[i])) : path_copy(batch->out);
}

static bool is_folder(const char *path)
{
    struct stat there;
    if (stat(path, &there) != 0)
        return complain(path, "%s", strerror(errno)), false;
    if (!S_ISDIR(there.st_mode))
        return complain(path, "is no folder"), false;
    return true;
}

static int compare_base_names(const void *left, const void *right)
{
    return strcmp(base_name(*(char *const *)left), base_name(*(char *const *)right));
}

static bool are_base_names_distinct(const struct batch *batch)
{
    struct buffer copy = {0};
    buffer_append(&copy, (const uint8_t *)batch->files, batch->count * sizeof *batch->files);
    char **sorted = (char **)(void *)copy.bytes;
    bool distinct = true;
    qsort(sorted, batch->count, sizeof *sorted, compare_base_names);
    for (size_t i = 1; i < batch->count && distinct; i++) {
        distinct = compare_base_names(&sorted[i - 1], &sorted[i]) != 0;
        if (!distinct)
            complain(sorted[i], "would get the same name as another; nothing is hardened");
    }
    buffer_free(&copy);
    return distinct;
}

/* ---- The files that are written, beside those that are read and each other ---- */

static bool complain_of(const char *path, const char *message)
{
    complain(output_name(path), "%s; nothing is hardened", message);
    return false;
}

/* An input must have a name too, for its output to go into the folder by. */
static bool are_names_of_files(const struct batch *batch)
{
    for (size_t i = 0; i < batch->count; i++) {
        const char *name = batch->files[i];
        if (*name == 0 || names_folder(name))
            return complain_of(name, *name == 0 ? "is no name" : "is the name of a folder, and not of a table");
    }
    return true;
}

static bool is_name_in_order(const char *path)
{
    if (*path == 0)
        return complain_of(path, "is no name");
    if (names_folder(path))
        return complain_of(path, "is the name of a folder, and not of a file");
    if (is_standard_error(path))
        return complain_of(path, "would be written and is standard error");
    return !leads_nowhere(path) || complain_of(path, of_dangling);
}

/* Is it a file, or its folder there for it?  Of the report, else all would be done before that shows. */
static bool is_place_of_file(const char *path)
{
    struct stat there;
    char *folder = path_beside(path, ".");
    bool found = stat(path, &there) == 0;
    bool is_file = found && !S_ISDIR(there.st_mode), is_new = !found && errno == ENOENT && stat(folder, &there) == 0;
    int why = errno;
    free(folder);
    return is_file || is_new || complain_of(path, found ? "is a folder, and not a file" : strerror(why));
}

static bool is_out_in_order(const struct batch *batch, const char *out, const struct file_set *inputs)
{
    if (!is_name_in_order(out))
        return false;
    if (file_set_holds(inputs, out))
        return complain_of(out, "would be written and is read too");
    if (batch->report != NULL && is_one_output(batch->report, out))
        return complain_of(batch->report, "would hold the report and a hardened table");
    if (batch->into != NULL && is_one_output("-", out))
        return complain_of(out, "would hold a hardened table and is standard output");
    return true;
}

static bool is_report_in_order(const struct batch *batch, const struct file_set *inputs)
{
    if (!is_name_in_order(batch->report) || (!is_dash(batch->report) && !is_place_of_file(batch->report)))
        return false;
    if (file_set_holds(inputs, batch->report))
        return complain_of(batch->report, "would be written and is read too");
    if (batch->into != NULL && is_one_output("-", batch->report))
        return complain_of(batch->report, "would hold the report and is standard output");
    return true;
}

/* Links in the folder may make one file of two. */
static bool are_outs_distinct(const struct batch *batch, char *const *outs)
{
    struct file_set set;
    file_set_of_outputs(&set, outs, batch->count);
    bool distinct = !file_set_repeats(&set) || complain_of(batch->into, "holds links that make one file of two");
    file_set_free(&set);
    return distinct;
}

static void take_outs(const struct batch *batch, struct buffer *outs)
{
    for (size_t i = 0; i < batch->count; i++) {
        char *out = batch_out(batch, i);
        buffer_append(outs, (const uint8_t *)&out, sizeof out);
    }
}

/* Each is freed as it is looked at. */
static bool are_outs_in_order(const struct batch *batch, const struct file_set *inputs)
{
    struct buffer paths = {0};
    take_outs(batch, &paths);
    char **outs = (char **)(void *)paths.bytes;
    bool in_order = are_outs_distinct(batch, outs);
    for (size_t i = 0; i < batch->count; i++) {
        in_order = in_order && is_out_in_order(batch, outs[i], inputs);
        free(outs[i]);
    }
    buffer_free(&paths);
    return in_order;
}

/* Of many tables a line each goes there. */
static bool is_standard_output_in_order(const struct file_set *inputs)
{
    return !file_set_holds(inputs, "-") || complain_of("-", "would be written and is read too");
}

static bool are_files_in_order(const struct batch *batch)
{
    struct file_set inputs;
    file_set_of_inputs(&inputs, batch->files, batch->count);
    bool in_order = are_outs_in_order(batch, &inputs) && (batch->into == NULL || is_standard_output_in_order(&inputs)) &&
                    (batch->report == NULL || is_report_in_order(batch, &inputs));
    file_set_free(&inputs);
    return in_order;
}

bool batch_is_in_order(const struct batch *batch)
{
    bool in_order = batch->into != NULL ? is_folder(batch->into) && are_names_of_files(batch) && are_base_names_distinct(batch)
                                        : takes_bytes(batch->out);
    return in_order && are_files_in_order(batch);
}

void batch_note_dangling(const struct batch *batch, struct buffer *dangling)
{
    for (size_t i = 0; i < batch->count; i++) {
        uint8_t byte = leads_nowhere(batch->files[i]);
        buffer_append(dangling, &byte, 1);
    }
}
