#include "files/draft.h"

#include <stdint.h>
#include <stdlib.h>

#include "files/files.h"
#include "files/messages.h"

static bool complain_of_memory(const char *path)
{
    complain(output_name(path), "there is no memory for what is to be written");
    return false;
}

bool draft_open(struct draft *draft, const char *path)
{
    *draft = (struct draft){0};
    draft->to = open_memstream(&draft->text, &draft->length);
    return draft->to != NULL || complain_of_memory(path);
}

bool draft_write(struct draft *draft, const char *path)
{
    bool whole = !ferror(draft->to);
    whole = fclose(draft->to) == 0 && whole;
    bool written = whole ? write_file(path, (const uint8_t *)draft->text, draft->length) == WRITTEN : complain_of_memory(path);
    free(draft->text);
    return written;
}
