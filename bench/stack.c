/* A call's arguments are kept in variables, since it is made from a function without parameters on the other stack. */
#define _GNU_SOURCE

#include "stack.h"

#include <stdio.h>
#include <stdlib.h>
#include <string.h>
#include <sys/mman.h>
#include <ucontext.h>

enum { STACK = 1 << 17, GUARD = 1 << 12, PAINT = 0xa5 };

enum { READ_BOOK, CHECK_RANKS, WRITE_BLOCK, RANKS_FROM_ANSWER, RUN, ARGUMENT, CALLS };

static const char *const NAMES[CALLS] = {"read_book", "check_ranks", "write_block", "ranks_from_answer", "run", "argument"};

static size_t marks[CALLS], calls[CALLS];

static struct {
    const uint8_t *book, *ranks, *record, *answer;
    size_t book_len, ranks_len, record_len, answer_len, out_len;
    uint64_t number;
    uint8_t *out;
} asked;

static union {
    rulebook_book book;
    rulebook_verdict verdict;
    rulebook_written written;
    rulebook_ran ran;
    rulebook_part part;
} reply;

static uint8_t *painted;

/* A page below the stack can't be touched, so that a call that goes deeper stops the program. */
static void make_stack(void)
{
    uint8_t *whole = mmap(NULL, GUARD + STACK, PROT_READ | PROT_WRITE, MAP_PRIVATE | MAP_ANONYMOUS, -1, 0);
    if (whole == MAP_FAILED || mprotect(whole, GUARD, PROT_NONE) != 0) {
        perror("no room for a stack");
        exit(2);
    }
    painted = whole + GUARD;
}

/* How many bytes of a painted stack a function without parameters writes to. */
static size_t depth_of(void (*function)(void))
{
    static ucontext_t here, there;
    size_t untouched = 0;
    if (!painted)
        make_stack();
    memset(painted, PAINT, STACK);
    getcontext(&there);
    there.uc_stack.ss_sp = painted;
    there.uc_stack.ss_size = STACK;
    there.uc_link = &here;
    makecontext(&there, function, 0);
    swapcontext(&here, &there);
    while (untouched < STACK && painted[untouched] == PAINT)
        untouched++;
    return STACK - untouched;
}

static void nothing(void)
{
}

/* What the change of stacks needs itself is not counted. */
static void mark(int call, void (*function)(void))
{
    static size_t bare;
    if (bare == 0)
        bare = depth_of(nothing);
    size_t depth = depth_of(function) - bare;
    calls[call]++;
    if (marks[call] < depth)
        marks[call] = depth;
}

void print_marks(FILE *file)
{
    fprintf(file, "%-20s %10s %12s\n", "entry point", "calls", "stack bytes");
    for (int call = 0; call < CALLS; call++)
        fprintf(file, "%-20s %10zu %12zu\n", NAMES[call], calls[call], marks[call]);
}

/* ---- the six calls */

static void call_read_book(void)
{
    reply.book = rulebook_read_book(asked.book, asked.book_len);
}

static void call_check_ranks(void)
{
    reply.verdict = rulebook_check_ranks(asked.book, asked.book_len, asked.ranks, asked.ranks_len);
}

static void call_write_block(void)
{
    reply.written = rulebook_write_block(asked.book, asked.book_len, asked.number, asked.out, asked.out_len);
}

static void call_ranks_from_answer(void)
{
    reply.written = rulebook_ranks_from_answer(asked.book, asked.book_len, asked.answer, asked.answer_len, asked.out,
                                               asked.out_len);
}

static void call_run(void)
{
    reply.ran = rulebook_run(asked.book, asked.book_len, asked.ranks, asked.ranks_len, asked.record, asked.record_len,
                             asked.number, asked.out, asked.out_len);
}

static void call_argument(void)
{
    reply.part = rulebook_argument(asked.book, asked.book_len, asked.record, asked.record_len, asked.number);
}

static void ask_book(const uint8_t *book, size_t book_len)
{
    asked.book = book;
    asked.book_len = book_len;
}

static void ask_out(uint8_t *out, size_t out_len)
{
    asked.out = out;
    asked.out_len = out_len;
}

rulebook_book painted_read_book(const uint8_t *book, size_t book_len)
{
    ask_book(book, book_len);
    mark(READ_BOOK, call_read_book);
    return reply.book;
}

rulebook_verdict painted_check_ranks(const uint8_t *book, size_t book_len, const uint8_t *ranks, size_t ranks_len)
{
    ask_book(book, book_len);
    asked.ranks = ranks;
    asked.ranks_len = ranks_len;
    mark(CHECK_RANKS, call_check_ranks);
    return reply.verdict;
}

rulebook_written painted_write_block(const uint8_t *book, size_t book_len, uint64_t number, uint8_t *out, size_t out_len)
{
    ask_book(book, book_len);
    asked.number = number;
    ask_out(out, out_len);
    mark(WRITE_BLOCK, call_write_block);
    return reply.written;
}

rulebook_written painted_ranks_from_answer(const uint8_t *book, size_t book_len, const uint8_t *answer, size_t answer_len,
                                           uint8_t *out, size_t out_len)
{
    ask_book(book, book_len);
    asked.answer = answer;
    asked.answer_len = answer_len;
    ask_out(out, out_len);
    mark(RANKS_FROM_ANSWER, call_ranks_from_answer);
    return reply.written;
}

rulebook_ran painted_run(const uint8_t *book, size_t book_len, const uint8_t *ranks, size_t ranks_len,
                         const uint8_t *record, size_t record_len, uint64_t budget, uint8_t *out, size_t out_len)
{
    ask_book(book, book_len);
    asked.ranks = ranks;
    asked.ranks_len = ranks_len;
    asked.record = record;
    asked.record_len = record_len;
    asked.number = budget;
    ask_out(out, out_len);
    mark(RUN, call_run);
    return reply.ran;
}

rulebook_part painted_argument(const uint8_t *book, size_t book_len, const uint8_t *record, size_t record_len,
                               uint64_t number)
{
    ask_book(book, book_len);
    asked.record = record;
    asked.record_len = record_len;
    asked.number = number;
    mark(ARGUMENT, call_argument);
    return reply.part;
}
