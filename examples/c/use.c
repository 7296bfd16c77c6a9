/* use BOOK RANKS RECORD: checks the ranks, then runs the record in slices of 1,000 steps until it comes to rest. It is C99 and C++11.
 *
 * In a clone, once `bin/library` has proved and built the library:
 *
 *     cc -Iinclude -o use examples/c/use.c target/staticlib/librulebook.a
 *     ./use examples/dosing.book examples/dosing.book.ranks examples/dosing.record
 */
#include "rulebook.h"

#include <inttypes.h>
#include <stdio.h>
#include <string.h>

/* More than any book, ranks or record that is taken; what lies behind changes no reply. */
enum { MOST = 4096 };

typedef struct { uint8_t bytes[MOST]; size_t length; } input;

static int read_input(const char *name, input *to)
{
    FILE *file = fopen(name, "rb");
    int good;
    if (!file)
        return perror(name), 0;
    to->length = fread(to->bytes, 1, MOST, file);
    good = !ferror(file);
    fclose(file);
    return good;
}

static int refused(uint64_t number, uint64_t place)
{
    printf("refused %" PRIu64 " at %" PRIu64 "\n", number, place);
    return 1;
}

static const char *name_of(uint64_t outcome)
{
    return outcome == RULEBOOK_DONE ? "done" : outcome == RULEBOOK_SPENT ? "spent" : "too large";
}

int main(int count, char **words)
{
    static input book, ranks, record;
    uint8_t out[RULEBOOK_RUN_BYTES];
    uint64_t steps = 0;
    rulebook_verdict verdict;
    rulebook_ran ran;
    if (count != 4 || !read_input(words[1], &book) || !read_input(words[2], &ranks) || !read_input(words[3], &record))
        return 2;
    verdict = rulebook_check_ranks(book.bytes, book.length, ranks.bytes, ranks.length);
    if (verdict.refusal != RULEBOOK_TAKEN)
        return refused(verdict.refusal, verdict.place);
    do {
        ran = rulebook_run(book.bytes, book.length, ranks.bytes, ranks.length, record.bytes, record.length, 1000, out, sizeof out);
        if (ran.refusal != RULEBOOK_TAKEN)
            return refused(ran.refusal, ran.place);
        steps += ran.steps;
        memcpy(record.bytes, out, ran.length);
        record.length = ran.length;
    } while (ran.outcome == RULEBOOK_SPENT);
    printf("%s\nsteps %" PRIu64 "\nbytes ", name_of(ran.outcome), steps);
    for (size_t i = 0; i < record.length; i++)
        printf("%02x", record.bytes[i]);
    printf("\n");
    return 0;
}
