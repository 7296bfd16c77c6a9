/* Steps and runs, and the argument question. */
#ifndef REWRITING_H
#define REWRITING_H

#include "book.h"

enum { RUN_ROOM = 2 * MOST_NODES + 1 };

typedef enum { DONE = 1, SPENT, TOO_LARGE } outcome;

typedef struct { outcome outcome; uint64_t steps; size_t length; } ran;

/* Runs a record of so many nodes and lays the term reached, with its end record, into out, which has room for RUN_ROOM. */
ran run_record(const book *book, const uint8_t *record, size_t nodes, uint64_t budget, uint8_t *out);

/* Where argument `number` of a record's root starts and ends; false if there is none. */
bool find_argument(const book *book, const uint8_t *record, uint64_t number, const uint8_t **start, const uint8_t **end);

#endif
