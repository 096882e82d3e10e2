#include "commands/hardening.h"

#include "files/files.h"
#include "files/interrupts.h"
#include "records/table.h"

/* What an accepted table's header says. */
static void take_header(const struct buffer *accepted, unsigned *nodes, unsigned *version)
{
    struct table table;
    table_open(&table, accepted);
    *nodes = table.nodes;
    *version = table.version;
}

/* Does the library read this table, though it may not harden it? */
static bool is_readable(const struct buffer *table)
{
    struct buffer sheet = {0};
    struct answer answer = label_table(table, &sheet);
    buffer_free(&sheet);
    return answer.refusal == FLOW_ACCEPTED;
}

/* Of what could not be read or written.  A signal that only came meanwhile is not the reason. */
static enum ending ending_of_failure(void)
{
    return was_broken_off() ? ENDED_INTERRUPTED : ENDED_FAILED;
}

static enum ending write_hardened(struct hardening *hardening, const char *out)
{
    enum written written = write_file(out, hardening->hardened.bytes, hardening->hardened.length);
    hardening->unsynced = written == WRITTEN_UNSYNCED;
    return written == NOT_WRITTEN ? ending_of_failure() : ENDED_HARDENED;
}

void harden_file(struct hardening *hardening, const char *name, const char *out)
{
    *hardening = (struct hardening){.name = name};
    hardening->read = read_file(name, &hardening->table);
    if (!hardening->read) {
        hardening->ending = ending_of_failure();
        return;
    }
    hardening->answer = harden_table(&hardening->table, &hardening->hardened);
    bool refused = hardening->answer.refusal != FLOW_ACCEPTED;
    if (!refused)
        take_header(&hardening->hardened, &hardening->nodes_out, &hardening->version_out);
    if (!refused || is_readable(&hardening->table))
        take_header(&hardening->table, &hardening->nodes_in, &hardening->version_in);
    hardening->ending = refused ? ENDED_REFUSED : write_hardened(hardening, out);
}

void hardening_free(struct hardening *hardening)
{
    buffer_free(&hardening->table);
    buffer_free(&hardening->hardened);
}
