#include "order.h"

typedef struct { const uint8_t *arities, *ranks; } order;

static bool exceeds(const order *o, const uint8_t *s, const uint8_t *t);

/* (3) of the order: some argument of s is identical to t or exceeds it. */
static bool some_reaches(const order *o, const uint8_t *s, const uint8_t *t)
{
    const uint8_t *si = s + 2;
    for (size_t left = o->arities[s[1]]; left > 0; left--, si = end_of(o->arities, si))
        if (identical(o->arities, si, t) || exceeds(o, si, t))
            return true;
    return false;
}

static bool exceeds_every(const order *o, const uint8_t *s, const uint8_t *tj, size_t many)
{
    for (; many > 0; many--, tj = end_of(o->arities, tj))
        if (!exceeds(o, s, tj))
            return false;
    return true;
}

/* (1) of the order: at the first argument that differs s decreases, and s exceeds every later argument of t. */
static bool decreases(const order *o, const uint8_t *s, const uint8_t *t)
{
    const uint8_t *si = s + 2, *ti = t + 2;
    for (size_t left = o->arities[s[1]]; left > 0; left--) {
        const uint8_t *later = end_of(o->arities, ti);
        if (!identical(o->arities, si, ti))
            return exceeds(o, si, ti) && exceeds_every(o, s, later, left - 1);
        si += later - ti;
        ti = later;
    }
    return false;
}

static bool exceeds(const order *o, const uint8_t *s, const uint8_t *t)
{
    if (s[0] != SYMBOL_NODE)
        return false;
    if (some_reaches(o, s, t))
        return true;
    if (t[0] != SYMBOL_NODE)
        return false;
    if (o->ranks[s[1]] > o->ranks[t[1]])
        return exceeds_every(o, s, t + 2, o->arities[t[1]]);
    return s[1] == t[1] && decreases(o, s, t);
}

size_t first_not_decreasing(const book *book, const uint8_t *ranks)
{
    order o = {book->arities, ranks};
    size_t i = 0;
    while (i < book->rules && exceeds(&o, book->rule[i].left.at, book->rule[i].right.at))
        i++;
    return i;
}

refusal ranks_clear(const book *book, const uint8_t *ranks, size_t ranks_length)
{
    if (ranks_length != book->symbols)
        return refuse(7, 0);
    size_t rule = first_not_decreasing(book, ranks);
    return rule < book->rules ? refuse(8, rule) : taken();
}
