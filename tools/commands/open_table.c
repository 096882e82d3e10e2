#include "commands/open_table.h"

#include <string.h>

#include "files/files.h"
#include "files/messages.h"
#include "files/outputs.h"
#include "files/paths.h"
#include "text/faults.h"
#include "text/source.h"

/* ---- Names ---- */

static bool has_flag(const struct open_table *opened)
{
    const struct table *table = &opened->table;
    if (table->variables == 0)
        complain(opened->name, "it has no variable, and so no flag");
    else if (table->secret.variables >> (table->variables - 1) & 1)
        complain(opened->name, "its last variable is labelled secret, and so is no flag");
    else
        return true;
    return false;
}

/* Are the declarations of a source those of the table, as far as names go? */
static bool declares(const struct table *declared, const struct table *table, bool flag, const char *path)
{
    if (declared->variables + flag != table->variables || declared->arrays != table->arrays)
        complain(path, "it declares %u variables and %u arrays, and the table %u and %u%s", declared->variables, declared->arrays,
                 table->variables, table->arrays,
                 flag ? ", with the flag"
                 : declared->variables + 1 == table->variables ? " (with --flag the last is the flag)" : "");
    else if (memcmp(declared->counts, table->counts, sizeof table->counts) != 0)
        complain(path, "it declares arrays with other cell counts than the table's");
    else
        return true;
    return false;
}

static bool take_names(struct names *names, const struct table *table, struct naming naming)
{
    struct buffer text = {0};
    struct source source = {0};
    struct table declared;
    bool taken = read_file(naming.source, &text) && assemble_source(&source, naming.source, &text, stderr);
    if (taken) {
        table_open(&declared, &source.table);
        taken = declares(&declared, table, naming.flag, naming.source);
        names->declared = true;
        memcpy(names->variable, source.names.variable, declared.variables * sizeof names->variable[0]);
        memcpy(names->array, source.names.array, sizeof names->array);
    }
    source_free(&source);
    buffer_free(&text);
    return taken;
}

static bool name_table(struct open_table *opened, struct naming naming)
{
    if (naming.flag && !has_flag(opened))
        return false;
    number_names(&opened->names, &opened->table, false);
    if (naming.source != NULL && !take_names(&opened->names, &opened->table, naming))
        return false;
    if (naming.flag)
        name_flag(&opened->names);
    return true;
}

/* ---- Tables ---- */

int open_table(struct open_table *opened, const char *path, struct naming naming)
{
    *opened = (struct open_table){.name = path};
    if (!read_file(path, &opened->bytes))
        return STATUS_TROUBLE;
    opened->answer = label_table(&opened->bytes, &opened->sheet);
    if (opened->answer.refusal != FLOW_ACCEPTED) {
        print_refusal(stderr, path, &opened->bytes, opened->answer);
        return STATUS_REFUSED;
    }
    table_open(&opened->table, &opened->bytes);
    return name_table(opened, naming) ? STATUS_DONE : STATUS_TROUBLE;
}

void close_table(struct open_table *opened)
{
    buffer_free(&opened->bytes);
    buffer_free(&opened->sheet);
}

/* The names are the original's; those of a source were read from it once, and it may be standard input. */
int open_hardened(struct open_table *hardened, const struct open_table *original)
{
    unsigned variables = original->table.variables;
    *hardened = (struct open_table){.name = original->name};
    struct answer answer = harden_table(&original->bytes, &hardened->bytes);
    if (answer.refusal != FLOW_ACCEPTED) {
        print_refusal(stderr, original->name, &original->bytes, answer);
        return STATUS_REFUSED;
    }
    table_open(&hardened->table, &hardened->bytes);
    number_names(&hardened->names, &hardened->table, false);
    memcpy(hardened->names.variable, original->names.variable, variables * sizeof original->names.variable[0]);
    memcpy(hardened->names.array, original->names.array, sizeof original->names.array);
    hardened->names.declared = original->names.declared;
    name_flag(&hardened->names);
    return STATUS_DONE;
}

unsigned state_variables(const struct open_table *opened, struct naming naming)
{
    return naming.flag && opened->table.variables > 0 ? opened->table.variables - 1 : opened->table.variables;
}

/* ---- Inputs ---- */

static bool reads_standard_input_once(const struct command *self, struct naming naming, int argc, char **argv)
{
    int times = naming.source != NULL && is_dash(naming.source);
    for (int i = 0; i < argc; i++)
        times += strcmp(argv[i], i == 0 ? "-" : "@-") == 0; /* the first operand is a table */
    if (times > 1)
        misused(self, "standard input can be read once only");
    return times <= 1;
}

bool are_inputs_in_order(const struct command *self, struct naming naming, int argc, char **argv, const char *output)
{
    if (!reads_standard_input_once(self, naming, argc, argv) ||
        (naming.source != NULL && !spares_input(output, naming.source)) || !spares_input(output, argv[0]))
        return false;
    for (int i = 1; i < argc; i++)
        if (argv[i][0] == '@' && !spares_input(output, argv[i] + 1))
            return false;
    return true;
}
