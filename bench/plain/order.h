/* The order on terms, and the rank check. */
#ifndef ORDER_H
#define ORDER_H

#include "book.h"

/* The lowest rule that does not decrease; the number of rules if every rule does. */
size_t first_not_decreasing(const book *book, const uint8_t *ranks);

/* Refusals 7 and 8. */
refusal ranks_clear(const book *book, const uint8_t *ranks, size_t ranks_length);

#endif
