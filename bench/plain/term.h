/* Terms where they stand in bytes: a term is a pointer to its first node, and every node is two bytes, kind and number.
 * These few are called for every node, so they stand here to be inlined. */
#ifndef TERM_H
#define TERM_H

#include <stdbool.h>
#include <stddef.h>
#include <stdint.h>

enum { SYMBOL = 1, RULE = 2, SYMBOL_NODE = 3, VARIABLE_NODE = 4, END = 5 };

static inline size_t arguments_of(const uint8_t *arities, const uint8_t *term)
{
    return term[0] == SYMBOL_NODE ? arities[term[1]] : 0;
}

static inline const uint8_t *end_of(const uint8_t *arities, const uint8_t *term)
{
    for (size_t missing = 1; missing > 0; term += 2)
        missing += arguments_of(arities, term) - 1;
    return term;
}

static inline bool identical(const uint8_t *arities, const uint8_t *s, const uint8_t *t)
{
    for (size_t missing = 1; missing > 0; s += 2, t += 2) {
        if (s[0] != t[0] || s[1] != t[1])
            return false;
        missing += arguments_of(arities, s) - 1;
    }
    return true;
}

#endif
