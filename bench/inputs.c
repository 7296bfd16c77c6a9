#include "inputs.h"

#include "plain/plain.h"

#include <stdbool.h>
#include <stdio.h>
#include <string.h>

enum { SYMBOLS = 16, RULES = 32, NODES = 10, BITS = 4, RANK_VARIABLES = SYMBOLS * BITS, VARIABLES = 7424, LINE = 78 };

/* ---- bytes, one behind another */

static void put(book_bytes *book, uint8_t byte)
{
    book->bytes[book->length++] = byte;
}

static void put_two(book_bytes *book, uint8_t kind, uint8_t number)
{
    put(book, kind);
    put(book, number);
}

/* A term as a text: letters from A on are symbols 0 to 15, letters from a on are variables 0 to 15, in prefix order. */
static void put_term(book_bytes *book, const char *text)
{
    for (; *text; text++) {
        bool symbol = *text >= 'A' && *text <= 'P';
        put_two(book, symbol ? 3 : 4, (uint8_t)(*text - (symbol ? 'A' : 'a')));
    }
}

static void put_rule(book_bytes *book, const char *left, const char *right)
{
    put(book, 2);
    put_term(book, left);
    put_term(book, right);
}

static void put_symbols(book_bytes *book, const uint8_t *arities, size_t many)
{
    book->length = 0;
    for (size_t i = 0; i < many; i++)
        put_two(book, 1, arities[i]);
}

static void put_node(record_bytes *record, uint8_t symbol)
{
    record->bytes[record->length++] = 3;
    record->bytes[record->length++] = symbol;
}

/* A symbol of one argument, so many times, over a constant. */
static void put_chain(record_bytes *record, uint8_t symbol, size_t many, uint8_t constant)
{
    while (many-- > 0)
        put_node(record, symbol);
    put_node(record, constant);
}

static void set_ranks(rank_bytes *ranks, const char *digits)
{
    ranks->length = strlen(digits);
    for (size_t i = 0; i < ranks->length; i++)
        ranks->bytes[i] = (uint8_t)(digits[i] - '0');
}

/* ---- the largest book: drawn rules, kept if they decrease */

static uint64_t drawn = 1;

static size_t draw(size_t below)
{
    drawn ^= drawn << 13;
    drawn ^= drawn >> 7;
    drawn ^= drawn << 17;
    return (size_t)(drawn % below);
}

/* Two symbols of each arity 0 to 6 and two more of 2. */
static const uint8_t ARITIES[SYMBOLS] = {0, 0, 1, 1, 2, 2, 3, 3, 4, 4, 5, 5, 6, 6, 2, 2};

/* A term of so many nodes with variables below `variables`; false if what was drawn has another number of nodes. */
static bool draw_term(char *text, size_t nodes, size_t variables)
{
    size_t missing = 1;
    for (size_t i = 0; i < nodes; i++) {
        if (missing == 0)
            return false;
        size_t symbol = draw(SYMBOLS);
        bool variable = missing > 1 && draw(2) == 0;
        text[i] = (char)(variable ? 'a' + draw(variables) : 'A' + symbol);
        missing += variable ? 0 : ARITIES[symbol];
        missing--;
    }
    text[nodes] = '\0';
    return missing == 0;
}

static void draw_side(char *text)
{
    while (!draw_term(text, NODES, 3)) {
    }
}

static bool decreases(const char *left, const char *right, const rank_bytes *ranks)
{
    book_bytes one;
    put_symbols(&one, ARITIES, SYMBOLS);
    put_rule(&one, left, right);
    put(&one, 5);
    return plain_check_ranks(one.bytes, one.length, ranks->bytes, ranks->length).refusal == 0;
}

void make_largest(ranked_book *largest)
{
    char left[NODES + 1], right[NODES + 1];
    drawn = 1;
    largest->ranks.length = SYMBOLS;
    for (size_t f = 0; f < SYMBOLS; f++)
        largest->ranks.bytes[f] = (uint8_t)(f * 7 % SYMBOLS);
    put_symbols(&largest->book, ARITIES, SYMBOLS);
    for (size_t rule = 0; rule < RULES;) {
        draw_side(left);
        draw_side(right);
        if (decreases(left, right, &largest->ranks)) {
            put_rule(&largest->book, left, right);
            rule++;
        }
    }
    put(&largest->book, 5);
}

/* One rule, as often as a book can hold it; A to N have one argument, O and P none. */
static void make_repeated(ranked_book *repeated, const char *left, const char *right, const char *ranks)
{
    static const uint8_t arities[SYMBOLS] = {1, 1, 1, 1, 1, 1, 1, 1, 1, 1, 1, 1, 1, 1, 0, 0};
    put_symbols(&repeated->book, arities, SYMBOLS);
    for (size_t rule = 0; rule < RULES; rule++)
        put_rule(&repeated->book, left, right);
    put(&repeated->book, 5);
    set_ranks(&repeated->ranks, ranks);
}

/* D is above B, B above A, A above C: only the whole left side exceeds the right side, by its D against B at the far end, and
 * every way through both chains is gone before that is known. */
void make_chains(ranked_book *chains)
{
    make_repeated(chains, "DAAAAAAAAa", "CCCCCCCCBa", "1203000000000000");
}

/* P is above all others: the comparison goes down the left side to P, and from there down the right side to O. */
void make_deepest(ranked_book *deepest)
{
    make_repeated(deepest, "AAAAAAAAAP", "BBBBBBBBBO", "0000000000000001");
}

void spoil_end(book_bytes *book)
{
    book->bytes[book->length - 3] = 3;
    book->bytes[book->length - 2] = SYMBOLS;
}

/* ---- the answer */

typedef struct { uint8_t *bytes; size_t length, line; } text;

static void put_item(text *t, const char *item)
{
    size_t length = strlen(item);
    if (t->line + 1 + length > LINE) {
        t->bytes[t->length++] = '\n';
        t->bytes[t->length++] = 'v';
        t->line = 1;
    }
    t->bytes[t->length++] = ' ';
    memcpy(t->bytes + t->length, item, length);
    t->length += length;
    t->line += 1 + length;
}

static bool is_true(const rank_bytes *ranks, size_t variable)
{
    if (variable > RANK_VARIABLES)
        return draw(2) == 0;
    return ranks->bytes[(variable - 1) / BITS] >> (variable - 1) % BITS & 1;
}

/* All variables in order, then those that are no rank variables over again, until only the closing 0 has room; spaces fill
 * its line. */
void make_answer(const rank_bytes *ranks, uint8_t answer[ANSWER_ROOM])
{
    text t = {answer, 0, LINE};
    char item[16];
    drawn = 1;
    t.length = (size_t)sprintf((char *)answer, "s SATISFIABLE");
    for (size_t v = 1; t.length + LINE < ANSWER_ROOM; v = v < VARIABLES ? v + 1 : RANK_VARIABLES + 1) {
        sprintf(item, "%s%zu", is_true(ranks, v) ? "" : "-", v);
        put_item(&t, item);
    }
    put_item(&t, "0");
    memset(answer + t.length, ' ', ANSWER_ROOM - t.length);
    answer[ANSWER_ROOM - 1] = '\n';
}

/* ---- runs */

static const uint8_t COUNTER_ARITIES[] = {0, 1, 6};

/* A is 0, B the successor, C holds five digits and the highest digit. The lowest digit that is not 0 goes down by one, those
 * behind it go back to the highest: as many steps as numbers below 16^5. */
void make_counter(run_bytes *counter)
{
    book_bytes *book = &counter->ranked.book;
    put_symbols(book, COUNTER_ARITIES, sizeof COUNTER_ARITIES);
    put_rule(book, "CabcdBef", "Cabcdef");
    put_rule(book, "CabcBdAf", "Cabcdff");
    put_rule(book, "CabBcAAf", "Cabcfff");
    put_rule(book, "CaBbAAAf", "Cabffff");
    put_rule(book, "CBaAAAAf", "Cafffff");
    put(book, 5);
    set_ranks(&counter->ranked.ranks, "000");
    counter->record.length = 0;
    put_node(&counter->record, 2);
    for (size_t digit = 0; digit < 6; digit++)
        put_chain(&counter->record, 1, 15, 0);
    counter->record.bytes[counter->record.length++] = 5;
}

/* A is the empty list, B an element before a list, C joins two lists, D turns one round, E is an element. */
void make_reverse(run_bytes *reverse)
{
    static const uint8_t arities[] = {0, 2, 2, 1, 0};
    book_bytes *book = &reverse->ranked.book;
    put_symbols(book, arities, sizeof arities);
    put_rule(book, "CAa", "a");
    put_rule(book, "CBabc", "BaCbc");
    put_rule(book, "DA", "A");
    put_rule(book, "DBab", "CDbBaA");
    put(book, 5);
    set_ranks(&reverse->ranked.ranks, "00120");
    reverse->record.length = 0;
    put_node(&reverse->record, 3);
    for (size_t i = 0; i < 63; i++) {
        put_node(&reverse->record, 1);
        put_node(&reverse->record, 4);
    }
    put_node(&reverse->record, 0);
    reverse->record.bytes[reverse->record.length++] = 5;
}

void make_long_record(record_bytes *record)
{
    record->length = 0;
    put_chain(record, 1, 255, 0);
    record->bytes[record->length++] = 5;
}
