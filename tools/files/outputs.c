#include "files/outputs.h"

#include <unistd.h>

#include "files/messages.h"
#include "files/paths.h"

bool spares_input(const char *output, const char *input)
{
    if (!is_written_over(input, output))
        return true;
    complain(output_name(output), "would be written and is read too");
    return false;
}

bool takes_bytes(const char *output)
{
    if (!isatty(STDOUT_FILENO) || !is_standard_output(output))
        return true;
    complain("standard output", "is a terminal: give -o FILE, or send it elsewhere");
    return false;
}
