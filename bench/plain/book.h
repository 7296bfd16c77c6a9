/* Books and records. A read book points into its bytes. */
#ifndef BOOK_H
#define BOOK_H

#include "term.h"

enum { MOST_SYMBOLS = 16, MOST_RULES = 32, MOST_SIDE_NODES = 10, MOST_ARGUMENTS = 6, MOST_VARIABLES = 16, MOST_NODES = 256 };

typedef struct { const uint8_t *at; size_t nodes; } side;

typedef struct { side left, right; } rule;

typedef struct {
    size_t symbols, rules;
    uint8_t arities[MOST_SYMBOLS];
    rule rule[MOST_RULES];
} book;

/* number 0: none */
typedef struct { uint64_t number, place; } refusal;

static inline refusal refuse(uint64_t number, uint64_t place)
{
    return (refusal){number, place};
}

static inline refusal taken(void)
{
    return refuse(0, 0);
}

/* Refusals 1 to 6. */
refusal read_book(const uint8_t *bytes, size_t length, book *read);

/* How many nodes the record has; 0 if it is malformed or has too many. */
size_t read_record(const book *book, const uint8_t *bytes, size_t length);

#endif
