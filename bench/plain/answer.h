/* A solver's answer. */
#ifndef ANSWER_H
#define ANSWER_H

#include "book.h"

enum { LONGEST_ANSWER = 65536 };

/* Refusals 12, 13 and 14; else the rank of each symbol. */
refusal read_answer(const book *book, const uint8_t *text, size_t length, uint8_t ranks[MOST_SYMBOLS]);

#endif
