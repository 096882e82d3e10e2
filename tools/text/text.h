/*
 * Text taken apart into tokens: programs, scripts and states are all made of these.  Comments run from --, at the start or behind
 * a blank, to the end of the line.
 */
#ifndef TEXT_H
#define TEXT_H

#include <stdbool.h>
#include <stddef.h>
#include <stdint.h>
#include <stdio.h>

enum token_kind {
    TOKEN_END, /* also behind an error */
    TOKEN_NAME,
    TOKEN_NUMBER,
    TOKEN_SYMBOL
};

struct token {
    enum token_kind kind;
    const char *at; /* into the text, not ended by a zero */
    size_t length;
    uint32_t number; /* of TOKEN_NUMBER */
    unsigned line, column; /* from 1; a column is a byte */
};

struct text {
    const char *name; /* for messages */
    FILE *errors;
    const char *start, *at, *end;
    unsigned line, column;
    struct token next, last; /* the token that is next, and the one before it */
    bool failed;
};

/*
 * Could these bytes be a text?  Then there are some, none is zero, and outside comments all are printable ASCII or blanks; or a
 * byte order mark stands first, with which a text is an error that says so.
 */
bool can_be_text(const uint8_t *bytes, size_t length);

/* Starts a text: its first token is next. */
void text_open(struct text *text, const char *name, const uint8_t *bytes, size_t length, FILE *errors);

/* Goes on to the token after the next one, and gives back the one that was next. */
struct token text_take(struct text *text);

/* Is this symbol or word next?  text_accept takes it if it is; text_expect fails if it is not. */
bool text_is(const struct text *text, const char *what);
bool text_accept(struct text *text, const char *what);
void text_expect(struct text *text, const char *what);

/* Does the line of the last token go on? */
bool text_line_goes_on(const struct text *text);

/* Prints NAME:LINE:COLUMN: message, for the first error alone.  From then on the text has failed, and its end is next. */
void text_fail(struct text *text, const struct token *where, const char *format, ...);

/* Fails at a sign, behind which a number is next, and says what to write instead; `subtracts`: a subtraction can be written. */
void text_fail_sign(struct text *text, const struct token *sign, bool subtracts);

/* Fails: this is wanted ("an index"), and not the token that stands there. */
void text_miss(struct text *text, const struct token *where, const char *what);

/* Fails unless a number, wanted as this, is next. */
void text_want_number(struct text *text, const char *what);

/* For messages: the token as it stands in the text, cut where it is long. */
struct token_words {
    char words[48];
};
struct token_words token_in_words(const struct token *token);

#endif
