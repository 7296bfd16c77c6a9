/* Rule books that come to rest: the library's six calls, for C99 and C++11 on x86-64.
 *
 * Each call takes arbitrary bytes, ends, and replies by value. A reply's refusal is 0 if the input was taken, else a number of
 * enum rulebook_refusal with its place; then every other field is 0 and no byte of a lent buffer has changed.
 *
 * Pointers: each points to as many bytes as its length says, and is not null, even where that length is 0 (a static byte will do). A lent
 * buffer `out` shares no byte with another argument. What is read is not kept: after the call the library holds none of it.
 *
 * Threads and stack: there is no state between calls and no allocation, so calls may be made from any number of threads at a time, and from a
 * signal handler. A call uses less than 8 KiB of stack, as measured.
 *
 * Each call meets the contract that crates/rulebook/src/lib.rt has for it, by proof. */
#ifndef RULEBOOK_H
#define RULEBOOK_H

#include <stddef.h>
#include <stdint.h>

#define RULEBOOK_VERSION "1.0.0"

/* What a lent buffer needs, and the largest inputs that are taken. */
#define RULEBOOK_BLOCK_BYTES 512    /* out of rulebook_write_block */
#define RULEBOOK_RUN_BYTES 513      /* out of rulebook_run */
#define RULEBOOK_SYMBOLS 16         /* of a book; out of rulebook_ranks_from_answer needs a byte for each that the book has */
#define RULEBOOK_RULES 32           /* of a book */
#define RULEBOOK_NODES 256          /* of a record */
#define RULEBOOK_ANSWER_BYTES 65536 /* of a solver's answer */

/* Why an input is refused; where no place is named it is 0. */
enum rulebook_refusal {
    RULEBOOK_TAKEN = 0,
    RULEBOOK_BOOK_ENDED = 1,      /* before its end record, or inside a body; place: the book's length */
    RULEBOOK_UNKNOWN_KIND = 2,    /* place: the kind byte */
    RULEBOOK_NOT_ALLOWED = 3,     /* a record that may not stand there; place: its kind byte */
    RULEBOOK_BAD_BODY = 4,        /* arity above 6, variable above 15, symbol not declared; place: the body byte */
    RULEBOOK_TOO_MANY = 5,        /* 17th symbol, 33rd rule, 11th node of a side; place: the kind byte */
    RULEBOOK_AFTER_END = 6,       /* bytes after the end record; place: the first of them */
    RULEBOOK_RANK_COUNT = 7,      /* not one rank for each symbol */
    RULEBOOK_NOT_DECREASING = 8,  /* place: the lowest rule that does not decrease, from 0 */
    RULEBOOK_SHORT_BUFFER = 9,    /* out is too short */
    RULEBOOK_NO_SUCH_BLOCK = 10,
    RULEBOOK_BAD_RECORD = 11,     /* malformed, or above 256 nodes */
    RULEBOOK_ANSWER_TOO_LONG = 12,
    RULEBOOK_BAD_ANSWER = 13,     /* place: start of the first faulty line, or the text's length if something is missing */
    RULEBOOK_NO_MODEL = 14,       /* UNSATISFIABLE or UNKNOWN: the solver's claim, which proves nothing */
    RULEBOOK_NO_SUCH_ARGUMENT = 15
};

/* How a run ended. */
enum rulebook_outcome {
    RULEBOOK_DONE = 1,     /* no rule fits the term reached */
    RULEBOOK_SPENT = 2,    /* the budget is used and a rule still fits */
    RULEBOOK_TOO_LARGE = 3 /* steps remain, a rule fits, and the next term would have more than 256 nodes */
};

typedef struct { uint64_t refusal, place; } rulebook_verdict;

/* blocks: how many blocks the clause file has, its header included */
typedef struct { uint64_t refusal, place, symbols, rules, blocks; } rulebook_book;

/* length: bytes laid at the start of out; later bytes keep their values */
typedef struct { uint64_t refusal, place, length; } rulebook_written;

/* outcome: one of enum rulebook_outcome; length: bytes laid at the start of out, the end record included */
typedef struct { uint64_t refusal, place, outcome, steps, length; } rulebook_ran;

/* a part of the record: where it starts and how many bytes it has */
typedef struct { uint64_t refusal, place, start, length; } rulebook_part;

/* A reply that is not looked at is a mistake, and so is a null pointer. */
#if defined(__GNUC__) || defined(__clang__)
#define RULEBOOK_CALL __attribute__((warn_unused_result, nonnull))
#else
#define RULEBOOK_CALL
#endif

#ifdef __cplusplus
extern "C" {
#endif

/* Reads a book. */
RULEBOOK_CALL rulebook_book rulebook_read_book(const uint8_t *book, size_t book_len);

/* Whether the ranks, one byte a symbol, make every rule decrease: refusal 0 says that every record comes to rest. */
RULEBOOK_CALL rulebook_verdict rulebook_check_ranks(const uint8_t *book, size_t book_len, const uint8_t *ranks, size_t ranks_len);

/* Writes block `number`, from 0, of the clause file; out needs RULEBOOK_BLOCK_BYTES. All blocks, one after the other, are the file. */
RULEBOOK_CALL rulebook_written rulebook_write_block(const uint8_t *book, size_t book_len, uint64_t number, uint8_t *out, size_t out_len);

/* Reads a solver's answer and writes its ranks, if they make every rule decrease; out needs a byte for each symbol. */
RULEBOOK_CALL rulebook_written rulebook_ranks_from_answer(const uint8_t *book, size_t book_len, const uint8_t *answer, size_t answer_len,
                                                          uint8_t *out, size_t out_len);

/* Runs a record under a book that the ranks clear, and writes the term reached as a record; out needs RULEBOOK_RUN_BYTES.
 *
 * A spent run is carried on by a call with the record that it left, from another buffer: run(b1) and then run(b2) from its record end as
 * run(b1 + b2) does, with the steps of both added. */
RULEBOOK_CALL rulebook_ran rulebook_run(const uint8_t *book, size_t book_len, const uint8_t *ranks, size_t ranks_len, const uint8_t *record,
                                        size_t record_len, uint64_t budget, uint8_t *out, size_t out_len);

/* Where argument `number`, from 0, of the record's root stands in the record. */
RULEBOOK_CALL rulebook_part rulebook_argument(const uint8_t *book, size_t book_len, const uint8_t *record, size_t record_len, uint64_t number);

#ifdef __cplusplus
}
#endif

#endif
