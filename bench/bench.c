/* The library and the plain C of bench/plain, doing the same in turns: first compared, then timed. */
#define _POSIX_C_SOURCE 200809L

#include "inputs.h"
#include "plain/plain.h"
#include "stack.h"

#include <stdio.h>
#include <stdlib.h>
#include <string.h>
#include <time.h>

enum { LEAST_ROUNDS = 5, BLOCK_ROOM = 512, RUN_ROOM = 513, TEXT_ROOM = 1 << 20, WRITTEN_BEFORE = 0x5a };

/* A round of one side takes at least so long, and all rounds of both, in seconds of this process alone. */
static const double ROUND_SECONDS = 0.02, SUBJECT_SECONDS = 3;

typedef struct {
    rulebook_book (*read_book)(const uint8_t *, size_t);
    rulebook_verdict (*check_ranks)(const uint8_t *, size_t, const uint8_t *, size_t);
    rulebook_written (*write_block)(const uint8_t *, size_t, uint64_t, uint8_t *, size_t);
    rulebook_written (*ranks_from_answer)(const uint8_t *, size_t, const uint8_t *, size_t, uint8_t *, size_t);
    rulebook_ran (*run)(const uint8_t *, size_t, const uint8_t *, size_t, const uint8_t *, size_t, uint64_t, uint8_t *, size_t);
    rulebook_part (*argument)(const uint8_t *, size_t, const uint8_t *, size_t, uint64_t);
} calls;

static const calls LIBRARY = {rulebook_read_book,         rulebook_check_ranks, rulebook_write_block,
                              rulebook_ranks_from_answer, rulebook_run,         rulebook_argument};
static const calls PLAIN = {plain_read_book,         plain_check_ranks, plain_write_block,
                            plain_ranks_from_answer, plain_run,         plain_argument};
static const calls PAINTED = {painted_read_book,         painted_check_ranks, painted_write_block,
                              painted_ranks_from_answer, painted_run,         painted_argument};

/* ---- what is asked, and what comes of it */

static ranked_book largest, chains, deepest;
static book_bytes spoilt_end, spoilt_start;
static uint8_t answer[ANSWER_ROOM];
static run_bytes counter, reverse;
static record_bytes long_record;

static void make_inputs(void)
{
    make_largest(&largest);
    make_chains(&chains);
    make_deepest(&deepest);
    spoilt_end = largest.book;
    spoil_end(&spoilt_end);
    spoilt_start = largest.book;
    spoilt_start.bytes[0] = 0;
    make_answer(&largest.ranks, answer);
    make_counter(&counter);
    make_reverse(&reverse);
    make_long_record(&long_record);
}

/* The last reply, with zeros behind it, and the lent buffer. */
static struct {
    union {
        rulebook_book book;
        rulebook_verdict verdict;
        rulebook_written written;
        rulebook_ran ran;
        rulebook_part part;
    } reply;
    size_t length;
    uint8_t text[TEXT_ROOM];
} came, came_first;

static void read_largest(const calls *c)
{
    came.reply.book = c->read_book(largest.book.bytes, largest.book.length);
}

static void check(const calls *c, const ranked_book *b)
{
    came.reply.verdict = c->check_ranks(b->book.bytes, b->book.length, b->ranks.bytes, b->ranks.length);
}

static void check_largest(const calls *c)
{
    check(c, &largest);
}

static void check_chains(const calls *c)
{
    check(c, &chains);
}

static void write_all_blocks(const calls *c)
{
    came.length = 0;
    for (uint64_t number = 0; number < LARGEST_BLOCKS; number++) {
        came.reply.written = c->write_block(largest.book.bytes, largest.book.length, number, came.text + came.length, BLOCK_ROOM);
        came.length += came.reply.written.length;
    }
}

static void read_answer(const calls *c)
{
    came.reply.written = c->ranks_from_answer(largest.book.bytes, largest.book.length, answer, ANSWER_ROOM, came.text, RANKS_ROOM);
}

static void run(const calls *c, const run_bytes *r)
{
    came.reply.ran = c->run(r->ranked.book.bytes, r->ranked.book.length, r->ranked.ranks.bytes, r->ranked.ranks.length,
                            r->record.bytes, r->record.length, UINT64_MAX, came.text, RUN_ROOM);
}

static void run_counter(const calls *c)
{
    run(c, &counter);
}

static void run_reverse(const calls *c)
{
    run(c, &reverse);
}

static void refuse_at_end(const calls *c)
{
    came.reply.book = c->read_book(spoilt_end.bytes, spoilt_end.length);
}

static void refuse_at_start(const calls *c)
{
    came.reply.book = c->read_book(spoilt_start.bytes, spoilt_start.length);
}

static void ask_argument(const calls *c)
{
    came.reply.part = c->argument(counter.ranked.book.bytes, counter.ranked.book.length, long_record.bytes, long_record.length, 0);
}

static const struct { const char *name; void (*once)(const calls *); } SUBJECTS[] = {
    {"rank check of the largest book", check_largest},
    {"rank check of the largest book, chains", check_chains},
    {"all blocks of the largest book", write_all_blocks},
    {"reading an answer of 65,536 bytes", read_answer},
    {"a run of 1,048,575 steps", run_counter},
    {"a run of 2,080 steps, terms to 254 nodes", run_reverse},
    {"a rejected book, at its end", refuse_at_end},
    {"a rejected book, at its first byte", refuse_at_start},
    {"reading the largest book", read_largest},
    {"an argument of a record of 256 nodes", ask_argument},
};

enum { SUBJECT_COUNT = sizeof SUBJECTS / sizeof *SUBJECTS };

/* ---- equal work */

static void ask_once(void (*once)(const calls *), const calls *c)
{
    memset(&came, 0, sizeof came);
    memset(came.text, WRITTEN_BEFORE, TEXT_ROOM);
    once(c);
}

static void demand(int holds, const char *subject, const char *what)
{
    if (!holds) {
        fprintf(stderr, "bench: %s: %s\n", subject, what);
        exit(1);
    }
}

static void compare_all(void)
{
    for (int i = 0; i < SUBJECT_COUNT; i++) {
        ask_once(SUBJECTS[i].once, &PLAIN);
        came_first = came;
        ask_once(SUBJECTS[i].once, &LIBRARY);
        demand(memcmp(&came, &came_first, sizeof came) == 0, SUBJECTS[i].name, "the library and the plain C differ");
    }
}

/* That the inputs are what their names say. */
static void check_inputs(void)
{
    rulebook_book read = plain_read_book(largest.book.bytes, largest.book.length);
    demand(read.symbols == 16 && read.rules == 32 && read.blocks == LARGEST_BLOCKS, "largest book", "not the largest");
    check_largest(&PLAIN);
    demand(came.reply.verdict.refusal == 0, "largest book", "not cleared");
    check_chains(&PLAIN);
    demand(came.reply.verdict.refusal == 0, "chains", "not cleared");
    check(&PLAIN, &deepest);
    demand(came.reply.verdict.refusal == 0, "deepest", "not cleared");
    read_answer(&PLAIN);
    demand(came.reply.written.refusal == 0 && memcmp(came.text, largest.ranks.bytes, RANKS_ROOM) == 0, "answer", "other ranks");
    run_counter(&PLAIN);
    demand(came.reply.ran.outcome == 1 && came.reply.ran.steps == COUNTER_STEPS, "counter", "another number of steps");
    run_reverse(&PLAIN);
    demand(came.reply.ran.outcome == 1 && came.reply.ran.steps == REVERSE_STEPS, "reverse", "another number of steps");
    refuse_at_end(&PLAIN);
    demand(came.reply.book.refusal == 4 && came.reply.book.place == BOOK_ROOM - 2, "rejected book", "not refused at its end");
    refuse_at_start(&PLAIN);
    demand(came.reply.book.refusal == 2 && came.reply.book.place == 0, "rejected book", "not refused at its start");
    ask_argument(&PLAIN);
    demand(came.reply.part.start == 2 && came.reply.part.length == 510, "argument", "another part");
}

/* ---- times */

static double seconds(void)
{
    struct timespec now;
    clock_gettime(CLOCK_PROCESS_CPUTIME_ID, &now);
    return (double)now.tv_sec + (double)now.tv_nsec / 1e9;
}

static double time_of(void (*once)(const calls *), const calls *c, size_t times)
{
    double start = seconds();
    for (size_t i = 0; i < times; i++)
        once(c);
    return seconds() - start;
}

static size_t times_for_a_round(void (*once)(const calls *))
{
    size_t times = 1;
    while (time_of(once, &PLAIN, times) < ROUND_SECONDS)
        times *= 2;
    return times;
}

static double lesser(double a, double b)
{
    return a < b ? a : b;
}

static void time_subject(const char *name, void (*once)(const calls *))
{
    size_t times = times_for_a_round(once);
    double library = 1e9, plain = 1e9, start = seconds();
    for (int round = 0; round < LEAST_ROUNDS || seconds() - start < SUBJECT_SECONDS; round++) {
        library = lesser(library, time_of(once, &LIBRARY, times));
        plain = lesser(plain, time_of(once, &PLAIN, times));
    }
    printf("%-42s %14.3f %14.3f %8.2f\n", name, library / (double)times * 1e6, plain / (double)times * 1e6, library / plain);
    fflush(stdout);
}

static void time_all(void)
{
    printf("CPU time in microseconds, best of %d rounds or more\n", LEAST_ROUNDS);
    printf("%-42s %14s %14s %8s\n", "", "library", "plain C", "ratio");
    for (int i = 0; i < SUBJECT_COUNT; i++)
        time_subject(SUBJECTS[i].name, SUBJECTS[i].once);
}

/* The rank check of the deepest book, by each call that makes one. */
static void go_deepest(const calls *c)
{
    make_answer(&deepest.ranks, answer);
    check(c, &deepest);
    c->ranks_from_answer(deepest.book.bytes, deepest.book.length, answer, ANSWER_ROOM, came.text, RANKS_ROOM);
    c->run(deepest.book.bytes, deepest.book.length, deepest.ranks.bytes, deepest.ranks.length, counter.record.bytes,
           counter.record.length, 0, came.text, RUN_ROOM);
}

static void mark_all(void)
{
    for (int i = 0; i < SUBJECT_COUNT; i++)
        SUBJECTS[i].once(&PAINTED);
    go_deepest(&PAINTED);
    print_marks(stdout);
}

int main(void)
{
    make_inputs();
    check_inputs();
    compare_all();
    time_all();
    printf("\n");
    mark_all();
    return 0;
}
