/* The six calls of include/rulebook.h under names of their own, so that both can be linked into one program. */
#ifndef PLAIN_H
#define PLAIN_H

#include "rulebook.h"

rulebook_book plain_read_book(const uint8_t *book, size_t book_len);

rulebook_verdict plain_check_ranks(const uint8_t *book, size_t book_len, const uint8_t *ranks, size_t ranks_len);

rulebook_written plain_write_block(const uint8_t *book, size_t book_len, uint64_t number, uint8_t *out, size_t out_len);

rulebook_written plain_ranks_from_answer(const uint8_t *book, size_t book_len, const uint8_t *answer, size_t answer_len,
                                         uint8_t *out, size_t out_len);

rulebook_ran plain_run(const uint8_t *book, size_t book_len, const uint8_t *ranks, size_t ranks_len,
                       const uint8_t *record, size_t record_len, uint64_t budget, uint8_t *out, size_t out_len);

rulebook_part plain_argument(const uint8_t *book, size_t book_len, const uint8_t *record, size_t record_len,
                             uint64_t number);

#endif
