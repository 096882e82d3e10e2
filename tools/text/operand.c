#include "text/operand.h"

#include <string.h>
#include <unistd.h>

#include "files/files.h"
#include "files/messages.h"

static const char how_a_file_is_given[] = " (a file is given as @NAME)";

static bool looks_like_a_file(const char *argument)
{
    return strcmp(argument, "-") == 0 || strpbrk(argument, "./") != NULL || access(argument, F_OK) == 0;
}

static bool open_file(struct operand *operand, const char *path)
{
    operand->file = true;
    if (*path == 0) {
        complain(operand->name, "the name of a file is missing behind the @");
        return false;
    }
    operand->name = path;
    return read_file(path, &operand->bytes);
}

bool operand_open(struct operand *operand, const char *argument, const char *called)
{
    *operand = (struct operand){.name = called, .hint = ""};
    if (*argument == '@')
        return open_file(operand, argument + 1);
    if (looks_like_a_file(argument))
        operand->hint = how_a_file_is_given;
    if (*argument == '.' || *argument == '/') {
        complain(called, "no text begins with '%c'%s", *argument, operand->hint);
        return false;
    }
    buffer_append(&operand->bytes, (const uint8_t *)argument, strlen(argument));
    return true;
}

void operand_free(struct operand *operand)
{
    buffer_free(&operand->bytes);
}

bool operand_holds_zero(const struct operand *operand)
{
    return operand->bytes.length > 0 && memchr(operand->bytes.bytes, 0, operand->bytes.length) != NULL;
}
