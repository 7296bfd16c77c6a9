#include "rewriting.h"

#include <string.h>

/* Where the term of each variable starts, of the variables whose bit is set in `bound`. */
typedef struct { const uint8_t *starts[MOST_VARIABLES]; uint16_t bound; } match;

/* A subterm and the rule that fits it; no rule if there is none. */
typedef struct { const uint8_t *at, *end; const rule *rule; match match; } place;

/* A term from `at` to `end`. */
typedef struct { const uint8_t *at, *end; } term;

static bool meets(const uint8_t *arities, match *m, unsigned x, const uint8_t *at)
{
    if (m->bound >> x & 1)
        return identical(arities, m->starts[x], at);
    m->bound |= (uint16_t)(1 << x);
    m->starts[x] = at;
    return true;
}

/* Whether a left side fits the subterm at a place: node by node. */
static bool fits(const uint8_t *arities, side left, const uint8_t *at, match *m)
{
    const uint8_t *end = left.at + 2 * left.nodes;
    m->bound = 0;
    for (const uint8_t *node = left.at; node < end; node += 2) {
        if (node[0] == SYMBOL_NODE) {
            if (at[1] != node[1])
                return false;
            at += 2;
        } else {
            if (!meets(arities, m, node[1], at))
                return false;
            at = end_of(arities, at);
        }
    }
    return true;
}

static const rule *first_rule(const book *book, const uint8_t *at, match *m)
{
    for (const rule *rule = book->rule; rule < book->rule + book->rules; rule++)
        if (fits(book->arities, rule->left, at, m))
            return rule;
    return NULL;
}

/* The first place in postorder at which a rule fits. Places are tried in prefix order: where a rule fits, only a place
 * inside it comes earlier in postorder. */
static void first_place(const book *book, term t, place *first)
{
    match m;
    first->rule = NULL;
    for (const uint8_t *at = t.at, *bound = t.end; at < bound; at += 2) {
        const rule *rule = first_rule(book, at, &m);
        if (rule) {
            bound = end_of(book->arities, at);
            *first = (place){at, bound, rule, m};
        }
    }
}

/* How many bytes the right side has under the match. */
static size_t grown(const book *book, const place *p)
{
    const uint8_t *node = p->rule->right.at, *end = node + 2 * p->rule->right.nodes;
    size_t length = 0;
    for (; node < end; node += 2) {
        if (node[0] == SYMBOL_NODE) {
            length += 2;
        } else {
            const uint8_t *start = p->match.starts[node[1]];
            length += (size_t)(end_of(book->arities, start) - start);
        }
    }
    return length;
}

static uint8_t *lay(uint8_t *out, const uint8_t *start, const uint8_t *end)
{
    memcpy(out, start, (size_t)(end - start));
    return out + (end - start);
}

/* The next term: what stands before the place, the right side under the match, what stands behind. */
static term build(const book *book, term t, const place *p, uint8_t *buffer)
{
    const uint8_t *node = p->rule->right.at, *right_end = node + 2 * p->rule->right.nodes;
    uint8_t *end = lay(buffer, t.at, p->at);
    for (; node < right_end; node += 2) {
        if (node[0] == SYMBOL_NODE) {
            end = lay(end, node, node + 2);
        } else {
            const uint8_t *start = p->match.starts[node[1]];
            end = lay(end, start, end_of(book->arities, start));
        }
    }
    return (term){buffer, lay(end, p->end, t.end)};
}

ran run_record(const book *book, const uint8_t *record, size_t nodes, uint64_t budget, uint8_t *out)
{
    uint8_t buffers[2][2 * MOST_NODES];
    term t = {buffers[0], buffers[0] + 2 * nodes};
    ran ran = {DONE, 0, 0};
    memcpy(buffers[0], record, 2 * nodes);
    for (;; ran.steps++) {
        place p;
        first_place(book, t, &p);
        if (!p.rule) {
            ran.outcome = DONE;
            break;
        }
        if (ran.steps == budget) {
            ran.outcome = SPENT;
            break;
        }
        if ((size_t)(p.at - t.at) + grown(book, &p) + (size_t)(t.end - p.end) > 2 * MOST_NODES) {
            ran.outcome = TOO_LARGE;
            break;
        }
        t = build(book, t, &p, t.at == buffers[0] ? buffers[1] : buffers[0]);
    }
    uint8_t *end = lay(out, t.at, t.end);
    *end++ = END;
    ran.length = (size_t)(end - out);
    return ran;
}

bool find_argument(const book *book, const uint8_t *record, uint64_t number, const uint8_t **start, const uint8_t **end)
{
    if (number >= arguments_of(book->arities, record))
        return false;
    *start = record + 2;
    *end = end_of(book->arities, *start);
    for (; number > 0; number--) {
        *start = *end;
        *end = end_of(book->arities, *start);
    }
    return true;
}
