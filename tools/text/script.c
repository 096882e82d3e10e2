#include "text/script.h"

#include <inttypes.h>

#include "records/assemble.h"
#include "text/operand.h"
#include "text/text.h"
#include "text/words.h"

/* The kind of the directive that is next; 0: none is. */
static unsigned next_directive(const struct text *text)
{
    for (unsigned kind = FLOW_STEP; kind <= FLOW_ROLLBACK; kind++)
        if (text_is(text, directive_in_words(kind)))
            return kind;
    return 0;
}

/* An array by its number, which need not be declared, or by its name. */
static unsigned read_array(struct text *text, const struct names *names)
{
    struct token token = text->next;
    int array = token.kind == TOKEN_NAME ? array_named(names, token.at, token.length) : -1;
    if (!text_line_goes_on(text) || (token.kind != TOKEN_NAME && token.kind != TOKEN_NUMBER))
        text_miss(text, &token, "an array");
    else if (token.kind == TOKEN_NAME && array < 0)
        text_fail(text, &token, "no array %s: the table has %s", token_in_words(&token).words, arrays_in_words(names).words);
    else if (token.kind == TOKEN_NUMBER && token.number > UINT16_MAX)
        text_fail(text, &token, "an array's number is at most %u, not %" PRIu32, (unsigned)UINT16_MAX, token.number);
    text_take(text);
    return array >= 0 ? (unsigned)array : token.number;
}

static uint32_t read_index(struct text *text)
{
    if (!text_line_goes_on(text))
        text_miss(text, &text->next, "an index");
    text_want_number(text, "an index");
    return text_take(text).number;
}

/* A line break ends a directive, too. */
static void read_directive(struct text *text, const struct names *names, const char *hint, struct buffer *directives)
{
    unsigned kind = next_directive(text);
    if (kind == 0) {
        text_fail(text, &text->next, "no directive %s%s", token_in_words(&text->next).words, hint);
        return;
    }
    text_take(text);
    if (kind == FLOW_LOAD || kind == FLOW_STORE) {
        unsigned array = read_array(text, names);
        assemble_redirect(directives, kind, array, read_index(text));
    } else {
        assemble_directive(directives, kind);
    }
    if (text_line_goes_on(text) && !text_is(text, ";"))
        text_fail(text, &text->next, "';' or a line break is wanted here, not %s", token_in_words(&text->next).words);
}

static bool read_text(const struct operand *operand, const struct names *names, struct buffer *directives)
{
    struct text text;
    text_open(&text, operand->name, operand->bytes.bytes, operand->bytes.length, stderr);
    while (text.next.kind != TOKEN_END)
        if (!text_accept(&text, ";"))
            read_directive(&text, names, operand->hint, directives);
    return !text.failed;
}

/* Every record has a zero byte, the high one of its length. */
bool read_script(const char *argument, const struct names *names, struct script *script)
{
    struct operand operand;
    bool read = operand_open(&operand, argument, "SCRIPT");
    *script = (struct script){.name = operand.name, .records = read && operand_holds_zero(&operand)};
    if (script->records)
        buffer_append(&script->directives, operand.bytes.bytes, operand.bytes.length);
    else if (read)
        read = read_text(&operand, names, &script->directives);
    operand_free(&operand);
    return read;
}

void script_free(struct script *script)
{
    buffer_free(&script->directives);
}
