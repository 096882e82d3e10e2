#include "text/text.h"

#include <inttypes.h>
#include <stdarg.h>
#include <string.h>

#include "files/messages.h"

static bool starts_name(int c)
{
    return (c >= 'a' && c <= 'z') || (c >= 'A' && c <= 'Z') || c == '_';
}

static bool is_digit(int c)
{
    return c >= '0' && c <= '9';
}

static bool in_name(int c)
{
    return starts_name(c) || is_digit(c) || c == '\'';
}

static int peek(const struct text *text, size_t ahead)
{
    return (size_t)(text->end - text->at) > ahead ? (unsigned char)text->at[ahead] : -1;
}

static bool is_blank(int c)
{
    return c == ' ' || c == '\t' || c == '\r' || c == '\n';
}

/* Not behind a token: x--1 is no x with a comment behind it. */
static bool starts_comment(const struct text *text)
{
    return peek(text, 0) == '-' && peek(text, 1) == '-' && (text->at == text->start || is_blank(text->at[-1]));
}

static void skip_blanks(struct text *text)
{
    bool comment = false;
    for (; text->at < text->end; text->at++, text->column++) {
        int c = peek(text, 0);
        comment = comment ? c != '\n' : starts_comment(text);
        if (!comment && !is_blank(c))
            return;
        if (c == '\n') {
            text->line++;
            text->column = 0;
        }
    }
}

static bool is_printable(int c)
{
    return c >= ' ' && c <= '~';
}

static bool begins_with_mark(const char *bytes, size_t length)
{
    static const char mark[] = {'\xef', '\xbb', '\xbf'};
    return length >= sizeof mark && memcmp(bytes, mark, sizeof mark) == 0;
}

bool can_be_text(const uint8_t *bytes, size_t length)
{
    const char *start = (const char *)bytes;
    if (length == 0 || memchr(bytes, 0, length) != NULL)
        return false;
    if (begins_with_mark(start, length))
        return true;
    struct text text = {.start = start, .at = start, .end = start + length};
    for (skip_blanks(&text); text.at < text.end; text.at++, skip_blanks(&text))
        if (!is_printable(peek(&text, 0)))
            return false;
    return true;
}

static void read_name(struct text *text, struct token *token)
{
    token->kind = TOKEN_NAME;
    while (in_name(peek(text, token->length)))
        token->length++;
}

/* The value of a digit; 16: it is none. */
static unsigned digit_value(int c)
{
    if (is_digit(c))
        return (unsigned)(c - '0');
    return c >= 'a' && c <= 'f' ? (unsigned)(c - 'a') + 10 : c >= 'A' && c <= 'F' ? (unsigned)(c - 'A') + 10 : 16;
}

/* Takes the digits that are next into the token.  Beyond 32 bits, it matters no more how far. */
static uint64_t read_digits(const struct text *text, struct token *token, unsigned base)
{
    uint64_t number = 0;
    for (unsigned digit; (digit = digit_value(peek(text, token->length))) < base; token->length++)
        if (number <= UINT32_MAX)
            number = base * number + digit;
    return number;
}

/* 0x10, as other languages have it. */
static bool starts_hexadecimal(const struct text *text)
{
    return peek(text, 0) == '0' && (peek(text, 1) == 'x' || peek(text, 1) == 'X') && digit_value(peek(text, 2)) < 16;
}

static void read_number(struct text *text, struct token *token)
{
    bool hexadecimal = starts_hexadecimal(text);
    token->kind = TOKEN_NUMBER;
    token->length = hexadecimal ? 2 : 0;
    uint64_t number = read_digits(text, token, hexadecimal ? 16 : 10);
    if (number > UINT32_MAX)
        text_fail(text, token, "%s is above 4294967295", token_in_words(token).words);
    else if (in_name(peek(text, token->length)))
        text_fail(text, token, "a number runs into a name");
    else if (hexadecimal)
        text_fail(text, token, "numbers are decimal: for %s write %" PRIu64, token_in_words(token).words, number);
    token->number = (uint32_t)number;
}

static bool is_symbol(int c)
{
    return c > 0 && strchr("+-*=<>?:;,()[]", c) != NULL;
}

static void fail_outside_ascii(struct text *text, const struct token *token)
{
    if (text->at == text->start && begins_with_mark(text->start, (size_t)(text->end - text->start)))
        text_fail(text, token, "the text begins with a byte order mark (ef bb bf): save it without one");
    else
        text_fail(text, token, "byte %d: only printable ASCII may stand outside comments", peek(text, 0));
}

/* One byte, or two that are an operator here or elsewhere: whoever reads it says what is to be written instead. */
static void read_symbol(struct text *text, struct token *token)
{
    int c = peek(text, 0), then = peek(text, 1);
    token->kind = TOKEN_SYMBOL;
    token->length = then == '=' && c != 0 && strchr(":<>=!", c) != NULL ? 2 : 1;
    if (c == '-' && then == '-')
        text_fail(text, token, "a blank is wanted before '--', which begins a comment");
    else if (!is_printable(c))
        fail_outside_ascii(text, token);
    else if (token->length == 1 && !is_symbol(c))
        text_fail(text, token, "%s is no word of the language", token_in_words(token).words);
}

static void read_token(struct text *text)
{
    if (text->failed)
        return;
    skip_blanks(text);
    struct token token = {.kind = TOKEN_END, .at = text->at, .line = text->line, .column = text->column};
    int c = peek(text, 0);
    if (starts_name(c))
        read_name(text, &token);
    else if (is_digit(c))
        read_number(text, &token);
    else if (c >= 0)
        read_symbol(text, &token);
    if (text->failed)
        return;
    text->at += token.length;
    text->column += (unsigned)token.length;
    text->next = token;
}

void text_open(struct text *text, const char *name, const uint8_t *bytes, size_t length, FILE *errors)
{
    *text = (struct text){.name = name, .errors = errors, .line = 1, .column = 1};
    text->start = text->at = length > 0 ? (const char *)bytes : "";
    text->end = text->at + length;
    read_token(text);
}

struct token text_take(struct text *text)
{
    text->last = text->next;
    read_token(text);
    return text->last;
}

bool text_is(const struct text *text, const char *what)
{
    const struct token *next = &text->next;
    return next->kind != TOKEN_END && next->kind != TOKEN_NUMBER && strlen(what) == next->length &&
           memcmp(what, next->at, next->length) == 0;
}

bool text_accept(struct text *text, const char *what)
{
    bool is = text_is(text, what);
    if (is)
        text_take(text);
    return is;
}

bool text_line_goes_on(const struct text *text)
{
    return text->next.kind != TOKEN_END && text->next.line == text->last.line;
}

void text_expect(struct text *text, const char *what)
{
    if (!text_accept(text, what))
        text_fail(text, &text->next, "'%s' is wanted here, not %s", what, token_in_words(&text->next).words);
}

void text_fail(struct text *text, const struct token *where, const char *format, ...)
{
    va_list arguments;
    if (text->failed)
        return;
    print_name(text->errors, text->name);
    fprintf(text->errors, ":%u:%u: ", where->line, where->column);
    va_start(arguments, format);
    vfprintf(text->errors, format, arguments);
    va_end(arguments);
    fputc('\n', text->errors);
    text->failed = true;
    text->next = (struct token){.kind = TOKEN_END, .at = text->end, .line = text->line, .column = text->column};
}

void text_fail_sign(struct text *text, const struct token *sign, bool subtracts)
{
    uint32_t number = text->next.number;
    char subtraction[24] = "";
    if (subtracts)
        snprintf(subtraction, sizeof subtraction, "(0 - %" PRIu32 ") or ", number);
    text_fail(text, sign, "there is no sign: for -%" PRIu32 " write %s%" PRIu32, number, subtraction, -number);
}

void text_miss(struct text *text, const struct token *where, const char *what)
{
    text_fail(text, where, "%s is wanted here, not %s", what, token_in_words(where).words);
}

void text_want_number(struct text *text, const char *what)
{
    struct token next = text->next;
    if (next.kind == TOKEN_NUMBER)
        return;
    if (text_accept(text, "-") && text->next.kind == TOKEN_NUMBER)
        text_fail_sign(text, &next, false);
    else
        text_miss(text, &next, what);
}

struct token_words token_in_words(const struct token *token)
{
    struct token_words words;
    enum { SHOWN = 32 };
    if (token->kind == TOKEN_END)
        snprintf(words.words, sizeof words.words, "the end");
    else
        snprintf(words.words, sizeof words.words, "'%.*s%s'", token->length > SHOWN ? SHOWN : (int)token->length, token->at,
                 token->length > SHOWN ? ".." : "");
    return words;
}
