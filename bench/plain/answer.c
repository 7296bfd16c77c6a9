#include "answer.h"

#include "clauses.h"

#include <string.h>

enum { MOST_RANK_VARIABLES = 64 };

typedef enum { SILENT, OPEN, CLOSED, NO_MODEL, FAULTY } stage;

typedef enum { NOT_NAMED, IS_TRUE, IS_FALSE } value;

/* Rank variable v stands at v - 1. */
typedef struct {
    size_t variables, rank_variables;
    uint8_t values[MOST_RANK_VARIABLES];
} values;

/* The number from 1 to top that a text is, without leading zeros; 0 if it is none. */
static size_t number_within(const uint8_t *at, const uint8_t *end, size_t top)
{
    size_t number = 0;
    for (; at < end; at++) {
        if (*at < '0' || *at > '9')
            return 0;
        number = number * 10 + (size_t)(*at - '0');
        if (number == 0 || number > top)
            return 0;
    }
    return number;
}

static stage name_value(values *read, size_t variable, value value)
{
    if (variable == 0)
        return FAULTY;
    if (variable > read->rank_variables)
        return OPEN;
    if (read->values[variable - 1] != NOT_NAMED)
        return FAULTY;
    read->values[variable - 1] = (uint8_t)value;
    return OPEN;
}

static stage read_item(values *read, const uint8_t *at, const uint8_t *end)
{
    if (end - at == 1 && *at == '0')
        return CLOSED;
    if (*at == '-')
        return name_value(read, number_within(at + 1, end, read->variables), IS_FALSE);
    return name_value(read, number_within(at, end, read->variables), IS_TRUE);
}

/* The items behind the v: each after one or more spaces, at least one. */
static stage read_items(values *read, const uint8_t *at, const uint8_t *end)
{
    stage now = OPEN;
    bool found = false;
    if (at == end || *at != ' ')
        return FAULTY;
    while (at < end) {
        if (*at == ' ') {
            at++;
            continue;
        }
        const uint8_t *start = at;
        while (at < end && *at != ' ')
            at++;
        if (now != OPEN)
            return FAULTY;
        now = read_item(read, start, at);
        found = true;
    }
    return found ? now : FAULTY;
}

static bool is_text(const uint8_t *at, const uint8_t *end, const char *text)
{
    size_t length = strlen(text);
    return (size_t)(end - at) == length && memcmp(at, text, length) == 0;
}

static stage read_line(values *read, stage now, const uint8_t *line, const uint8_t *end)
{
    if (line == end)
        return FAULTY;
    if (*line == 'c')
        return now;
    if (*line == 'v')
        return now == OPEN ? read_items(read, line + 1, end) : FAULTY;
    if (now != SILENT)
        return FAULTY;
    if (is_text(line, end, "s SATISFIABLE"))
        return OPEN;
    if (is_text(line, end, "s UNSATISFIABLE") || is_text(line, end, "s UNKNOWN"))
        return NO_MODEL;
    return FAULTY;
}

/* Refusals 13 and 14. */
static refusal read_lines(values *read, const uint8_t *text, size_t length)
{
    const uint8_t *line = text, *text_end = text + length;
    stage now = SILENT;
    while (line < text_end) {
        const uint8_t *end = memchr(line, '\n', (size_t)(text_end - line));
        if (!end)
            end = text_end;
        now = read_line(read, now, line, end);
        if (now == FAULTY)
            return refuse(13, (uint64_t)(line - text));
        line = end + 1;
    }
    if (now == NO_MODEL)
        return refuse(14, 0);
    return now == CLOSED ? taken() : refuse(13, length);
}

refusal read_answer(const book *book, const uint8_t *text, size_t length, uint8_t ranks[MOST_SYMBOLS])
{
    size_t k = rank_bits(book->symbols);
    values read = {variables_of(book), book->symbols * k, {NOT_NAMED}};
    if (length > LONGEST_ANSWER)
        return refuse(12, 0);
    refusal found = read_lines(&read, text, length);
    if (found.number != 0)
        return found;
    for (size_t f = 0; f < book->symbols; f++) {
        ranks[f] = 0;
        for (size_t b = 0; b < k; b++)
            if (read.values[f * k + b] == IS_TRUE)
                ranks[f] |= (uint8_t)(1 << b);
    }
    return taken();
}
