/* The operators of expressions in text: how tightly each binds, and which node it makes. */
#ifndef OPERATORS_H
#define OPERATORS_H

#include <stddef.h>

/* From the weakest to the strongest. */
enum level { LEVEL_CHOICE, LEVEL_AND, LEVEL_NOT, LEVEL_COMPARISON, LEVEL_SUM, LEVEL_PRODUCT, LEVEL_SINGLE };

/* A binary operator; a chain of one level is read from the left.  Sorts are letters of kinds.h. */
struct operator {
    const char *symbol;
    enum level level;
    unsigned kind;
    char operands, result;
};

/* The operator of this kind of node, or NULL: the kind is no binary operator's. */
const struct operator *operator_of(unsigned kind);

/* All of them; the last has no symbol. */
extern const struct operator operators[];

/* Operators of other languages: of a <= b, what is written instead.  The last has no symbol. */
struct foreign_operator {
    const char *symbol, *instead;
};
extern const struct foreign_operator foreign_operators[];

/* How tightly an expression of this kind binds where it stands in text. */
enum level level_of(unsigned kind);

#endif
