#include "clauses.h"

#include <string.h>

static const uint8_t RANK_BITS[MOST_SYMBOLS + 1] = {0, 0, 1, 2, 2, 3, 3, 3, 3, 4, 4, 4, 4, 4, 4, 4, 4};

size_t rank_bits(size_t symbols)
{
    return RANK_BITS[symbols];
}

/* ---- literals: a variable, below 0 for its negation. A writer lays its text and returns where it ends. */

static uint8_t *put_number(uint8_t *out, unsigned number)
{
    uint8_t digits[10];
    size_t many = 0;
    do
        digits[many++] = (uint8_t)('0' + number % 10);
    while ((number /= 10) > 0);
    while (many > 0)
        *out++ = digits[--many];
    return out;
}

static uint8_t *put_literal(uint8_t *out, int literal)
{
    if (literal < 0)
        *out++ = '-';
    out = put_number(out, (unsigned)(literal < 0 ? -literal : literal));
    *out++ = ' ';
    return out;
}

static uint8_t *put_clause_end(uint8_t *out)
{
    *out++ = '0';
    *out++ = '\n';
    return out;
}

static uint8_t *put_clause(uint8_t *out, const int *literals, size_t many)
{
    for (size_t i = 0; i < many; i++)
        out = put_literal(out, literals[i]);
    return put_clause_end(out);
}

static uint8_t *put_one(uint8_t *out, int a)
{
    return put_clause(out, &a, 1);
}

static uint8_t *put_two(uint8_t *out, int a, int b)
{
    return put_clause(out, (int[]){a, b}, 2);
}

static uint8_t *put_three(uint8_t *out, int a, int b, int c)
{
    return put_clause(out, (int[]){a, b, c}, 3);
}

/* ---- the block of a pair of symbols */

static size_t pairs_of(size_t symbols)
{
    return symbols == 0 ? 0 : symbols * (symbols - 1);
}

/* G(f,g,j): the low j bits of f are the larger number. */
static int larger(size_t n, size_t f, size_t g, size_t j)
{
    size_t k = rank_bits(n), pair = f * (n - 1) + (g < f ? g : g - 1);
    return (int)(n * k + pair * k + j);
}

static size_t lay_pair(size_t n, size_t pair, uint8_t *out)
{
    size_t k = rank_bits(n), f = pair / (n - 1), rest = pair % (n - 1), g = rest < f ? rest : rest + 1;
    uint8_t *end = out;
    for (size_t j = 1; j <= k; j++) {
        int G = larger(n, f, g, j), q = G - 1, a = (int)(f * k + j), b = (int)(g * k + j);
        if (j == 1) {
            end = put_two(end, -G, a);
            end = put_two(end, -G, -b);
            end = put_three(end, G, -a, b);
        } else {
            end = put_three(end, G, -a, b);
            end = put_three(end, G, -a, -q);
            end = put_three(end, G, b, -q);
            end = put_three(end, -G, a, -b);
            end = put_three(end, -G, a, q);
            end = put_three(end, -G, -b, q);
        }
    }
    return (size_t)(end - out);
}

/* ---- the blocks of a rule */

/* A rule with the number before its first C. */
typedef struct {
    const book *book;
    const rule *rule;
    size_t base;
} setting;

typedef struct { size_t many; int of[MOST_ARGUMENTS + 1]; } parts;

static void add_part(parts *p, int part)
{
    p->of[p->many++] = part;
}

static const uint8_t *left_node(const setting *s, size_t u)
{
    return s->rule->left.at + 2 * u;
}

static const uint8_t *right_node(const setting *s, size_t v)
{
    return s->rule->right.at + 2 * v;
}

/* C of nodes u and v. */
static int c_of(const setting *s, size_t u, size_t v)
{
    return (int)(s->base + 2 * (u * s->rule->right.nodes + v) + 1);
}

static int c_at(const setting *s, const uint8_t *left, const uint8_t *right)
{
    return c_of(s, (size_t)(left - s->rule->left.at) / 2, (size_t)(right - s->rule->right.at) / 2);
}

/* C of s with each of so many terms that stand one after another from `at` on. */
static void add_each(const setting *set, parts *p, const uint8_t *s, const uint8_t *at, size_t many)
{
    for (; many > 0; many--, at = end_of(set->book->arities, at))
        add_part(p, c_at(set, s, at));
}

static void parts_of_d(const setting *set, const uint8_t *s, const uint8_t *t, parts *p)
{
    const uint8_t *arities = set->book->arities;
    p->many = 0;
    if (s[0] != SYMBOL_NODE || t[0] != SYMBOL_NODE)
        return;
    size_t left = arities[t[1]];
    if (s[1] != t[1]) {
        add_part(p, larger(set->book->symbols, s[1], t[1], rank_bits(set->book->symbols)));
        add_each(set, p, s, t + 2, left);
        return;
    }
    const uint8_t *si = s + 2, *ti = t + 2;
    for (; left > 0; left--) {
        const uint8_t *later = end_of(arities, ti);
        if (!identical(arities, si, ti)) {
            add_part(p, c_at(set, si, ti));
            add_each(set, p, s, later, left - 1);
            return;
        }
        si += later - ti;
        ti = later;
    }
}

static void parts_of_c(const setting *set, const uint8_t *s, const uint8_t *t, int d, parts *p)
{
    const uint8_t *arities = set->book->arities, *si = s + 2;
    p->many = 0;
    for (size_t left = arguments_of(arities, s); left > 0; left--, si = end_of(arities, si))
        add_part(p, c_at(set, si, t));
    add_part(p, d);
}

static bool some_identical(const uint8_t *arities, const uint8_t *s, const uint8_t *t)
{
    const uint8_t *si = s + 2;
    for (size_t left = arguments_of(arities, s); left > 0; left--, si = end_of(arities, si))
        if (identical(arities, si, t))
            return true;
    return false;
}

/* (whole -part) for each part, then (-whole part1 ..): the whole if some part is. With whole and parts negated it says:
 * if all parts are. */
static uint8_t *put_parts(uint8_t *out, int whole, int sign, const parts *p)
{
    for (size_t i = 0; i < p->many; i++)
        out = put_two(out, whole, -sign * p->of[i]);
    out = put_literal(out, -whole);
    for (size_t i = 0; i < p->many; i++)
        out = put_literal(out, sign * p->of[i]);
    return put_clause_end(out);
}

static size_t lay_nodes(const setting *set, size_t u, size_t v, uint8_t *out)
{
    const uint8_t *s = left_node(set, u), *t = right_node(set, v);
    int c = c_of(set, u, v), d = c + 1;
    parts p;
    parts_of_d(set, s, t, &p);
    uint8_t *end = p.many == 0 ? put_one(out, -d) : put_parts(out, -d, -1, &p);
    if (some_identical(set->book->arities, s, t)) {
        end = put_one(end, c);
    } else {
        parts_of_c(set, s, t, d, &p);
        end = put_parts(end, c, 1, &p);
    }
    return (size_t)(end - out);
}

static size_t lay_rule_block(const setting *set, size_t number, uint8_t *out)
{
    size_t width = set->rule->right.nodes;
    if (number == 0)
        return (size_t)(put_one(out, c_of(set, 0, 0)) - out);
    return lay_nodes(set, (number - 1) / width, (number - 1) % width, out);
}

/* ---- the header */

static size_t nodes_of(const rule *rule)
{
    return rule->left.nodes * rule->right.nodes;
}

static size_t first_base(const book *book)
{
    return book->symbols * book->symbols * rank_bits(book->symbols);
}

size_t variables_of(const book *book)
{
    size_t base = first_base(book);
    for (size_t i = 0; i < book->rules; i++)
        base += 2 * nodes_of(&book->rule[i]);
    return base;
}

size_t blocks_of(const book *book)
{
    size_t blocks = 1 + pairs_of(book->symbols);
    for (size_t i = 0; i < book->rules; i++)
        blocks += 1 + nodes_of(&book->rule[i]);
    return blocks;
}

static size_t node_clauses(const setting *set, size_t u, size_t v)
{
    const uint8_t *s = left_node(set, u), *t = right_node(set, v);
    parts p;
    parts_of_d(set, s, t, &p);
    size_t clauses = p.many + 1;
    if (some_identical(set->book->arities, s, t))
        return clauses + 1;
    return clauses + arguments_of(set->book->arities, s) + 2;
}

static size_t rule_clauses(const setting *set)
{
    size_t clauses = 1;
    for (size_t u = 0; u < set->rule->left.nodes; u++)
        for (size_t v = 0; v < set->rule->right.nodes; v++)
            clauses += node_clauses(set, u, v);
    return clauses;
}

static size_t clauses_of(const book *book)
{
    size_t k = rank_bits(book->symbols);
    size_t clauses = k == 0 ? 0 : pairs_of(book->symbols) * (6 * k - 3);
    for (size_t i = 0; i < book->rules; i++)
        clauses += rule_clauses(&(setting){book, &book->rule[i], 0});
    return clauses;
}

static size_t lay_header(const book *book, uint8_t *out)
{
    uint8_t *end = out;
    memcpy(end, "p cnf ", 6);
    end = put_number(end + 6, (unsigned)variables_of(book));
    *end++ = ' ';
    end = put_number(end, (unsigned)clauses_of(book));
    *end++ = '\n';
    return (size_t)(end - out);
}

/* ---- blocks by number */

size_t lay_block(const book *book, size_t number, uint8_t *out)
{
    size_t pairs = pairs_of(book->symbols);
    if (number == 0)
        return lay_header(book, out);
    if (number <= pairs)
        return lay_pair(book->symbols, number - 1, out);
    setting set = {book, book->rule, first_base(book)};
    number -= 1 + pairs;
    for (; number > nodes_of(set.rule); set.rule++) {
        number -= 1 + nodes_of(set.rule);
        set.base += 2 * nodes_of(set.rule);
    }
    return lay_rule_block(&set, number, out);
}
