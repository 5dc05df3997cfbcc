/* Plain C: a DIMACS text becomes a table. The nodes are made in `p_table` while the text is read, so that nothing is written before the whole
 * text is known to be well formed; then the blocks are written. */
#ifndef PLAIN_DIMACS_H
#define PLAIN_DIMACS_H

#include "plain_table.h"

static struct {
    size_t room;                        /* nodes that there is room for */
    int full;                           /* a node more was wanted */
    uint32_t clause, seen[2048];        /* the clause's number from 1, and by literal the last clause that has it */
    uint16_t literal[2048];             /* those of the clause, without repeats */
    unsigned count;
    int both;
} pd;

/* The literal of a record, found or new. */
static inline unsigned p_grow(uint64_t r)
{
    uint16_t *s = p_slot(r);
    if (!*s) {
        if (p_table.nodes == pd.room) {
            pd.full = 1;
            return 0;
        }
        p_table.node[p_table.nodes++] = r;
        *s = (uint16_t)p_table.nodes;
    }
    return 2 * (unsigned)(*s - 1);
}

/* The same of a pair, by rising node. */
static inline unsigned p_pair(unsigned kind, unsigned a, unsigned b)
{
    return p_grow(kind | (uint64_t)(a < b ? a : b) << 16 | (uint64_t)(a < b ? b : a) << 32);
}

/* The literal of the clause that was gathered. */
static unsigned p_fold(void)
{
    if (pd.both || pd.count == 0)
        return p_grow(1) + !pd.both;
    unsigned l = pd.literal[0];
    for (unsigned i = 1; i < pd.count && !pd.full; i++)
        l = p_pair(4, l, pd.literal[i]);
    return l;
}

static unsigned p_and(unsigned a, unsigned b) { return a == b ? a : a == (b ^ 1) ? p_grow(1) + 1 : p_pair(3, a, b); }

/* Reads 1 to 9 digits: how many bytes, or 0. */
static inline size_t p_digits(const uint8_t *t, const uint8_t *end, uint32_t *value)
{
    const uint8_t *at = t;
    uint32_t v = 0;
    while (at < end && (uint8_t)(*at - '0') < 10 && at - t < 10)
        v = 10 * v + (uint32_t)(*at++ - '0');
    *value = v;
    return at - t < 10 ? (size_t)(at - t) : 0;
}

/* The bytes of the comments and the heading, with its numbers, or NULL. */
static const uint8_t *p_heading(const uint8_t *t, const uint8_t *end, uint32_t *vars, uint32_t *clauses)
{
    size_t n;
    while (t < end && *t == 'c') {
        t = memchr(t, '\n', (size_t)(end - t));
        if (!t)
            return NULL;
        t++;
    }
    if (end - t < 6 || memcmp(t, "p cnf ", 6))
        return NULL;
    t += 6;
    if (!(n = p_digits(t, end, vars)) || t + n == end || t[n] != ' ')
        return NULL;
    t += n + 1;
    if (!(n = p_digits(t, end, clauses)) || t + n == end || t[n] != '\n' || *vars > 1024)
        return NULL;
    return t + n + 1;
}

static inline void p_take(unsigned l)
{
    pd.both |= pd.seen[l ^ 1] == pd.clause;
    if (pd.seen[l] != pd.clause) {
        pd.seen[l] = pd.clause;
        pd.literal[pd.count++] = (uint16_t)l;
    }
}

/* The body: whether it is well formed, and the goal. */
static int p_body(const uint8_t *t, const uint8_t *end, uint32_t vars, uint32_t clauses, unsigned *goal)
{
    size_t done = 0;
    uint32_t v;
    unsigned written = 0;
    for (;;) {
        while (t < end && (*t == ' ' || *t == '\n'))
            t++;
        if (t == end)
            return !written && done == clauses;
        unsigned no = *t == '-';
        t += no;
        size_t n = p_digits(t, end, &v);
        t += n;
        if (!n || v > vars || (no && !v) || (t < end && *t != ' ' && *t != '\n'))
            return 0;
        written = v;
        if (v) {
            p_take(2 * (v - 1) + no);
            continue;
        }
        if (!pd.full) {
            unsigned l = p_fold();
            *goal = done ? p_and(*goal, l) : l;
        }
        done++;
        if (++pd.clause == 0) {
            memset(pd.seen, 0, sizeof pd.seen);
            pd.clause = 1;
        }
        pd.count = 0;
        pd.both = 0;
    }
}

static void p_write_blocks(uint8_t *buf)
{
    for (size_t n = 0, j = 0; n < p_table.nodes; n += 63, j++) {
        size_t count = p_table.nodes - n < 63 ? p_table.nodes - n : 63;
        uint8_t *b = buf + 512 * j;
        b[0] = 70;
        b[1] = (uint8_t)count;
        b[2] = (uint8_t)j;
        b[3] = 0;
        memcpy(b + 4, p_table.node + n, 8 * count);
        memset(b + 4 + 8 * count, 0, 506 - 8 * count);
        p_seal(b);
    }
}

static p_added p_dimacs(const uint8_t *text, size_t text_len, uint8_t *buf, size_t len)
{
    p_added v = { 60, 0, 0, 0 };
    uint32_t vars, clauses;
    unsigned goal = 0;
    const uint8_t *end = text + text_len, *body = p_heading(text, end, &vars, &clauses);
    if (!body)
        return v;
    memset(&pd, 0, sizeof pd);
    memset(p_table.slot, 0, sizeof p_table.slot);
    p_table.nodes = 0;
    pd.room = len / 512 < 32 ? 63 * (len / 512) : P_NODES;
    pd.clause = 1;
    for (unsigned p = 0; p < vars && !pd.full; p++)
        p_grow(2 | (uint64_t)p << 16);
    v.number = 61;
    if (!p_body(body, end, vars, clauses, &goal))
        return v;
    if (clauses == 0 && !pd.full)
        goal = p_grow(1);
    v.number = pd.full ? pd.room < P_NODES ? 52 : 51 : 0;
    v.place = pd.full ? p_table.nodes : 0;
    if (v.number)
        return v;
    p_write_blocks(buf);
    v.literal = goal;
    v.used = 512 * ((p_table.nodes + 62) / 63);
    return v;
}

#endif
