/* How deep the stack goes: the library's six calls, each on a stack of its own that is painted before. */
#ifndef STACK_H
#define STACK_H

#include "rulebook.h"

#include <stdio.h>

rulebook_book painted_read_book(const uint8_t *book, size_t book_len);

rulebook_verdict painted_check_ranks(const uint8_t *book, size_t book_len, const uint8_t *ranks, size_t ranks_len);

rulebook_written painted_write_block(const uint8_t *book, size_t book_len, uint64_t number, uint8_t *out, size_t out_len);

rulebook_written painted_ranks_from_answer(const uint8_t *book, size_t book_len, const uint8_t *answer, size_t answer_len,
                                           uint8_t *out, size_t out_len);

rulebook_ran painted_run(const uint8_t *book, size_t book_len, const uint8_t *ranks, size_t ranks_len,
                         const uint8_t *record, size_t record_len, uint64_t budget, uint8_t *out, size_t out_len);

rulebook_part painted_argument(const uint8_t *book, size_t book_len, const uint8_t *record, size_t record_len,
                               uint64_t number);

/* The high-water mark of each call since the program's start, in bytes. */
void print_marks(FILE *file);

#endif
