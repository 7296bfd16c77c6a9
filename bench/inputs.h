/* What is measured: books, ranks, records and answers, made anew by each run of the program and always the same. */
#ifndef INPUTS_H
#define INPUTS_H

#include <stddef.h>
#include <stdint.h>

enum {
    BOOK_ROOM = 1345,
    RECORD_ROOM = 513,
    RANKS_ROOM = 16,
    ANSWER_ROOM = 65536,
    LARGEST_BLOCKS = 3473,
    COUNTER_STEPS = 1048575,
    REVERSE_STEPS = 2080
};

typedef struct { size_t length; uint8_t bytes[BOOK_ROOM]; } book_bytes;

typedef struct { size_t length; uint8_t bytes[RANKS_ROOM]; } rank_bytes;

typedef struct { size_t length; uint8_t bytes[RECORD_ROOM]; } record_bytes;

typedef struct { book_bytes book; rank_bytes ranks; } ranked_book;

typedef struct { ranked_book ranked; record_bytes record; } run_bytes;

/* 16 symbols, 32 rules, 10 nodes on every side: as much as a book can hold. The ranks clear each of the three. The rules of
 * the first are drawn; those of the second are chains of symbols whose comparison takes the most steps; those of the third
 * are chains whose comparison goes the deepest. */
void make_largest(ranked_book *largest);
void make_chains(ranked_book *chains);
void make_deepest(ranked_book *deepest);

/* The book with its last node's symbol not declared: refused at the last record before its end. */
void spoil_end(book_bytes *book);

/* An answer of 65,536 bytes to a book of that size, that gives these ranks. */
void make_answer(const rank_bytes *ranks, uint8_t answer[ANSWER_ROOM]);

/* Five digits that count down from 15 each: COUNTER_STEPS steps, in terms of 97 nodes at most. */
void make_counter(run_bytes *counter);

/* A list of 63 that is reversed: REVERSE_STEPS steps, in terms of 254 nodes at most. */
void make_reverse(run_bytes *reverse);

/* A chain of 255 symbols of one argument over a constant, as a record of the counter's book: the largest record. */
void make_long_record(record_bytes *record);

#endif
