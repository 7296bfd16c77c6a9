#include "book.h"

static const uint8_t BODY_LENGTHS[] = {[SYMBOL] = 1, [RULE] = 0, [SYMBOL_NODE] = 1, [VARIABLE_NODE] = 1, [END] = 0};

/* What is read, and where in it: `missing` subterms and `nodes` nodes of the side that is open. */
typedef struct {
    book *book;
    enum { BEFORE_RULES, IN_LEFT, IN_RIGHT, RULE_WHOLE } stage;
    size_t missing, nodes;
} reading;

static bool side_open(const reading *r)
{
    return r->stage == IN_LEFT || r->stage == IN_RIGHT;
}

static refusal take_symbol(reading *r, size_t at, uint8_t arity)
{
    if (r->stage != BEFORE_RULES)
        return refuse(3, at);
    if (arity > MOST_ARGUMENTS)
        return refuse(4, at + 1);
    if (r->book->symbols == MOST_SYMBOLS)
        return refuse(5, at);
    r->book->arities[r->book->symbols++] = arity;
    return taken();
}

static void open_side(reading *r, side *side, const uint8_t *at)
{
    side->at = at;
    r->missing = 1;
    r->nodes = 0;
}

static refusal take_rule(reading *r, const uint8_t *bytes, size_t at)
{
    if (side_open(r))
        return refuse(3, at);
    if (r->book->rules == MOST_RULES)
        return refuse(5, at);
    r->stage = IN_LEFT;
    open_side(r, &r->book->rule[r->book->rules].left, bytes + at + 1);
    return taken();
}

static void close_side(reading *r, const uint8_t *end)
{
    rule *rule = &r->book->rule[r->book->rules];
    if (r->stage == IN_LEFT) {
        rule->left.nodes = r->nodes;
        r->stage = IN_RIGHT;
        open_side(r, &rule->right, end);
    } else {
        rule->right.nodes = r->nodes;
        r->stage = RULE_WHOLE;
        r->book->rules++;
    }
}

static refusal take_node(reading *r, const uint8_t *bytes, size_t at)
{
    uint8_t kind = bytes[at], number = bytes[at + 1];
    if (!side_open(r))
        return refuse(3, at);
    if (number >= (kind == SYMBOL_NODE ? r->book->symbols : MOST_VARIABLES))
        return refuse(4, at + 1);
    if (r->nodes == MOST_SIDE_NODES)
        return refuse(5, at);
    r->nodes++;
    r->missing += arguments_of(r->book->arities, bytes + at) - 1;
    if (r->missing == 0)
        close_side(r, bytes + at + 2);
    return taken();
}

static refusal take_end(const reading *r, size_t at, size_t length)
{
    if (side_open(r))
        return refuse(3, at);
    return at + 1 < length ? refuse(6, at + 1) : taken();
}

refusal read_book(const uint8_t *bytes, size_t length, book *read)
{
    reading r = {read, BEFORE_RULES, 0, 0};
    read->symbols = 0;
    read->rules = 0;
    for (size_t at = 0; at < length;) {
        uint8_t kind = bytes[at];
        if (kind < SYMBOL || kind > END)
            return refuse(2, at);
        if (length - at - 1 < BODY_LENGTHS[kind])
            return refuse(1, length);
        refusal found;
        switch (kind) {
        case SYMBOL: found = take_symbol(&r, at, bytes[at + 1]); break;
        case RULE: found = take_rule(&r, bytes, at); break;
        case END: return take_end(&r, at, length);
        default: found = take_node(&r, bytes, at); break;
        }
        if (found.number != 0)
            return found;
        at += 1 + BODY_LENGTHS[kind];
    }
    return refuse(1, length);
}

size_t read_record(const book *book, const uint8_t *bytes, size_t length)
{
    size_t nodes = 0;
    for (size_t missing = 1; missing > 0; nodes++) {
        const uint8_t *node = bytes + 2 * nodes;
        if (nodes == MOST_NODES || length < 2 * nodes + 2 || node[0] != SYMBOL_NODE || node[1] >= book->symbols)
            return 0;
        missing += book->arities[node[1]] - 1;
    }
    return length == 2 * nodes + 1 && bytes[2 * nodes] == END ? nodes : 0;
}
