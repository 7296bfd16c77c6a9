#include "plain.h"

#include "answer.h"
#include "book.h"
#include "clauses.h"
#include "order.h"
#include "rewriting.h"

#include <string.h>

rulebook_book plain_read_book(const uint8_t *bytes, size_t bytes_len)
{
    book read;
    refusal found = read_book(bytes, bytes_len, &read);
    if (found.number != 0)
        return (rulebook_book){.refusal = found.number, .place = found.place};
    return (rulebook_book){.symbols = read.symbols, .rules = read.rules, .blocks = blocks_of(&read)};
}

rulebook_verdict plain_check_ranks(const uint8_t *bytes, size_t bytes_len, const uint8_t *ranks, size_t ranks_len)
{
    book read;
    refusal found = read_book(bytes, bytes_len, &read);
    if (found.number == 0)
        found = ranks_clear(&read, ranks, ranks_len);
    return (rulebook_verdict){found.number, found.place};
}

rulebook_written plain_write_block(const uint8_t *bytes, size_t bytes_len, uint64_t number, uint8_t *out, size_t out_len)
{
    book read;
    refusal found = read_book(bytes, bytes_len, &read);
    if (found.number == 0 && number >= blocks_of(&read))
        found = refuse(10, 0);
    if (found.number == 0 && out_len < BLOCK_ROOM)
        found = refuse(9, 0);
    if (found.number != 0)
        return (rulebook_written){found.number, found.place, 0};
    return (rulebook_written){0, 0, lay_block(&read, number, out)};
}

/* Refusals 9 and 8 of ranks that an answer gave. */
static refusal check_answered(const book *read, const uint8_t *ranks, size_t out_len)
{
    if (out_len < read->symbols)
        return refuse(9, 0);
    size_t rule = first_not_decreasing(read, ranks);
    return rule < read->rules ? refuse(8, rule) : taken();
}

rulebook_written plain_ranks_from_answer(const uint8_t *bytes, size_t bytes_len, const uint8_t *answer, size_t answer_len,
                                         uint8_t *out, size_t out_len)
{
    book read;
    uint8_t ranks[MOST_SYMBOLS];
    refusal found = read_book(bytes, bytes_len, &read);
    if (found.number == 0)
        found = read_answer(&read, answer, answer_len, ranks);
    if (found.number == 0)
        found = check_answered(&read, ranks, out_len);
    if (found.number != 0)
        return (rulebook_written){found.number, found.place, 0};
    memcpy(out, ranks, read.symbols);
    return (rulebook_written){0, 0, read.symbols};
}

rulebook_ran plain_run(const uint8_t *bytes, size_t bytes_len, const uint8_t *ranks, size_t ranks_len,
                       const uint8_t *record, size_t record_len, uint64_t budget, uint8_t *out, size_t out_len)
{
    book read;
    size_t nodes = 0;
    refusal found = read_book(bytes, bytes_len, &read);
    if (found.number == 0)
        found = ranks_clear(&read, ranks, ranks_len);
    if (found.number == 0 && (nodes = read_record(&read, record, record_len)) == 0)
        found = refuse(11, 0);
    if (found.number == 0 && out_len < RUN_ROOM)
        found = refuse(9, 0);
    if (found.number != 0)
        return (rulebook_ran){.refusal = found.number, .place = found.place};
    ran ran = run_record(&read, record, nodes, budget, out);
    return (rulebook_ran){.outcome = ran.outcome, .steps = ran.steps, .length = ran.length};
}

rulebook_part plain_argument(const uint8_t *bytes, size_t bytes_len, const uint8_t *record, size_t record_len,
                             uint64_t number)
{
    book read;
    const uint8_t *start, *end;
    refusal found = read_book(bytes, bytes_len, &read);
    if (found.number == 0 && read_record(&read, record, record_len) == 0)
        found = refuse(11, 0);
    if (found.number == 0 && !find_argument(&read, record, number, &start, &end))
        found = refuse(15, 0);
    if (found.number != 0)
        return (rulebook_part){.refusal = found.number, .place = found.place};
    return (rulebook_part){.start = (uint64_t)(start - record), .length = (uint64_t)(end - start)};
}
