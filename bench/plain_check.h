/* Plain C: the checker of derivations, and the reader of their steps. */
#ifndef PLAIN_CHECK_H
#define PLAIN_CHECK_H

#include "plain_calls.h"

enum { P_STRUCK = 8, P_CLAUSES = P_GOALS + 3 * P_NODES };

/* By clause: its literals, and a byte of which are struck (bits 0 to 2), whether it is (3) and how many it has (4). A mark on a clause that
 * is older than the newest split is noted. */
static struct {
    uint8_t value[4096], state[P_CLAUSES + 3];
    uint64_t lits[P_CLAUSES + 3]; /* of 16 bits each */
    uint16_t trail[P_NODES];
    uint32_t note[4 * P_CLAUSES + 1];
    struct { uint16_t literal, held, clauses; uint32_t notes; } level[P_NODES];
} pc;

/* How many there are of each; `older` are the clauses that the newest split found. */
typedef struct { unsigned held, clauses, notes, levels, older; } p_hand;

/* Clauses of a row: the operands of each from a bit on, under a mask, with signs; how long, how many. */
static struct { uint64_t mask, sign[2]; uint8_t from, state, count; } p_shape[18];

static void p_shapes(void)
{
    for (unsigned row = 6; row < 18; row++) {
        int clause[3][3];
        unsigned count = p_template(row, clause), size = clause[0][1] < 0 ? 1 : clause[0][2] < 0 ? 2 : 3;
        p_shape[row].count = (uint8_t)count;
        p_shape[row].state = (uint8_t)(16 * size);
        p_shape[row].from = size == 1 ? 16 : 0;
        p_shape[row].mask = ((uint64_t)1 << 16 * size) - 1;
        for (unsigned j = 0; j < 2; j++)
            for (unsigned i = 0; i < size; i++)
                p_shape[row].sign[j] |= j < count ? (uint64_t)(clause[j][i] & 1) << 16 * i : 0;
    }
    p_shape[3].count = 1;
}

P_INLINE void p_hold(p_hand *h, unsigned l)
{
    uint64_t r = p_table.node[l / 2], operands = r >> 16;
    unsigned row = 2 * (r & 255) + (l & 1), k = h->clauses;
    pc.value[l] = 1;
    pc.value[l ^ 1] = 2;
    pc.trail[h->held++] = (uint16_t)l;
    pc.state[k] = pc.state[k + 1] = p_shape[row].state;
    pc.lits[k] = (operands & p_shape[row].mask) ^ p_shape[row].sign[0];
    pc.lits[k + 1] = (operands >> p_shape[row].from & p_shape[row].mask) ^ p_shape[row].sign[1];
    if (p_shape[row].count > 2) {
        pc.state[k + 2] = p_shape[row].state;
        pc.lits[k + 2] = (operands >> 32) ^ p_shape[row].sign[1];
    }
    h->clauses = k + p_shape[row].count;
}

P_INLINE void p_strike(p_hand *h, unsigned k, unsigned state, unsigned mark)
{
    pc.note[h->notes] = k | state << 16;
    h->notes += k < h->older;
    pc.state[k] = (uint8_t)(state | mark);
}

/* The newest open split turns right: 0 where there is none. */
P_INLINE int p_turn(p_hand *h)
{
    if (!h->levels)
        return 0;
    h->levels--;
    for (; h->held > pc.level[h->levels].held; h->held--) {
        unsigned l = pc.trail[h->held - 1];
        pc.value[l] = pc.value[l ^ 1] = 0;
    }
    while (h->notes > pc.level[h->levels].notes) {
        uint32_t note = pc.note[--h->notes];
        pc.state[note & 65535] = (uint8_t)(note >> 16);
    }
    h->clauses = pc.level[h->levels].clauses;
    h->older = h->levels ? pc.level[h->levels - 1].clauses : 0;
    p_hold(h, pc.level[h->levels].literal ^ 1u);
    return 1;
}

P_INLINE int p_apply_split(p_hand *h, unsigned l)
{
    if (l >= 2 * p_table.nodes || pc.value[l])
        return 0;
    pc.level[h->levels].literal = (uint16_t)l;
    pc.level[h->levels].held = (uint16_t)h->held;
    pc.level[h->levels].clauses = (uint16_t)h->clauses;
    pc.level[h->levels++].notes = h->notes;
    h->older = h->clauses;
    p_hold(h, l);
    return 1;
}

/* One step of version one: 0 its condition fails, 1 it goes on, 2 the derivation is complete. */
P_INLINE int p_apply(p_hand *h, unsigned rule, unsigned i, unsigned k)
{
    if (rule == 'S')
        return p_apply_split(h, k);
    unsigned state = k < h->clauses ? pc.state[k] : P_STRUCK, size = state >> 4;
    uint64_t lits = pc.lits[k < h->clauses ? k : 0];
    if (state & P_STRUCK)
        return 0;
    if (rule == 'R') {
        if (i >= size || state >> i & 1 || pc.value[lits >> 16 * i & 4095] != 2)
            return 0;
        p_strike(h, k, state, 1u << i);
        return 1;
    }
    unsigned left = ((1u << size) - 1) & ~state;
    if (rule == 'U') {
        unsigned x = lits >> 16 * (left >> 1 & 3) & 4095; /* of one literal left: 1, 2 or 4 */
        if (!left || left & (left - 1) || pc.value[x])
            return 0;
        p_strike(h, k, state, P_STRUCK);
        p_hold(h, x);
        return 1;
    }
    if (rule == 'C')
        return left ? 0 : p_turn(h) ? 1 : 2;
    for (i = 0; i < size && (state >> i & 1 || pc.value[lits >> 16 * i & 4095] != 1); i++)
        ;
    if (i == size)
        return 0;
    p_strike(h, k, state, P_STRUCK);
    return 1;
}

/* The same of version two: U and C by the values under G alone. */
P_INLINE int p_apply_two(p_hand *h, unsigned rule, unsigned k)
{
    if (rule == 'S')
        return p_apply_split(h, k);
    if (k >= h->clauses)
        return 0;
    uint64_t lits = pc.lits[k];
    unsigned left = 0, x = 0;
    for (unsigned i = 0; i < pc.state[k] >> 4; i++, lits >>= 16)
        if (pc.value[lits & 4095] != 2) {
            left++;
            x = lits & 4095;
        }
    if (rule != 'U')
        return left ? 0 : p_turn(h) ? 1 : 2;
    if (left != 1 || pc.value[x])
        return 0;
    p_hold(h, x);
    return 1;
}

/* Reading */

/* By version and rule letter: a position from here on is refused. */
static uint8_t p_past[2][256];

static void p_letters(void)
{
    for (int two = 0; two < 2; two++) {
        p_past[two]['U'] = p_past[two]['C'] = p_past[two]['S'] = p_past[two]['G'] = 1;
        p_past[two]['E'] = !two;
        p_past[two]['R'] = two ? 0 : 3;
    }
}

/* The row of a step: 44, 65 or 0. */
static unsigned p_step_row(const uint8_t *s, int two)
{
    return s[1] >= p_past[0][s[0]] ? 44 : s[1] >= p_past[two][s[0]] ? 65 : 0;
}

/* Rows 40 to 44 and 65, and the step count. The first bad step is kept until all blocks are seen. */
static p_refusal p_form(const uint8_t *d, size_t len, size_t *steps)
{
    if (len == 0 || len % 512 || len > 33554432)
        return p_no(40, 0);
    if (!p_past[0]['U'])
        p_letters();
    int two = d[0] == 86;
    p_refusal bad = p_no(0, 0);
    size_t blocks = len / 512;
    for (size_t j = 0; j < blocks; j++) {
        const uint8_t *b = d + 512 * j;
        unsigned row = p_block(b, j, j + 1 == blocks, two ? 86 : 68, 126, 4), wrong = 0;
        if (row)
            return p_no(40 + row, j);
        for (const uint8_t *s = b + 4, *end = s + 4 * b[1]; s < end; s += 4)
            wrong |= s[1] >= p_past[two][s[0]];
        for (unsigned i = 0; wrong && !bad.number; i++)
            if (p_step_row(b + 4 + 4 * i, two))
                bad = p_no(p_step_row(b + 4 + 4 * i, two), 126 * j + i);
    }
    *steps = 126 * (blocks - 1) + d[len - 511];
    return bad;
}

/* Open: the step count and the version, or the refusal. */
static size_t p_open(const uint8_t *d, size_t len, unsigned *version, p_refusal *no)
{
    size_t steps = 0;
    *no = p_form(d, len, &steps);
    *version = no->number ? 0 : d[0] == 86 ? 2 : 1;
    return no->number ? 0 : steps;
}

/* The step at an index as a number, or none left, or the refusal. */
static int p_step_at(const uint8_t *d, size_t len, size_t index, uint32_t *step, p_refusal *no)
{
    *no = p_no(len == 0 || len % 512 || len > 33554432 ? 40 : 0, 0);
    if (no->number)
        return 0;
    if (!p_past[0]['U'])
        p_letters();
    size_t blocks = len / 512, j = index / 126 < blocks ? index / 126 : blocks - 1;
    const uint8_t *b = d + 512 * j;
    int two = d[0] == 86;
    unsigned row = p_block(b, j, j + 1 == blocks, two ? 86 : 68, 126, 4);
    *no = p_no(row ? 40 + row : 0, row ? j : 0);
    if (row || index - 126 * j >= b[1])
        return 0;
    const uint8_t *s = b + 4 + 4 * (index - 126 * j);
    row = p_step_row(s, two);
    *no = p_no(row, row ? index : 0);
    memcpy(step, s, 4);
    return !row;
}

/* The steps behind those that name the goals. */
P_INLINE p_refusal p_replay(const uint8_t *d, size_t size, size_t steps, size_t from, p_hand h, const int two)
{
    int state = 1;
    size_t k = from;
    for (size_t j = from / 126; j < size / 512; j++) {
        const uint8_t *s = d + 512 * j + 4 + 4 * (k - 126 * j), *end = d + 512 * j + 4 + 4 * d[512 * j + 1];
        for (; s < end; s += 4, k++) {
            if (state == 2)
                return p_no(46, k);
            if (s[0] == 'G')
                return p_no(64, k);
            state = two ? p_apply_two(&h, s[0], p_word(s + 2)) : p_apply(&h, s[0], s[1], p_word(s + 2));
            if (!state)
                return p_no(45, k);
        }
    }
    return state == 2 ? p_no(0, 0) : p_no(47, steps);
}

static p_refusal p_checked(const uint8_t *t, size_t len, const p_list *g, const uint8_t *d, size_t size)
{
    size_t steps, named = 0;
    p_refusal no = p_asked(t, len, g);
    if (!no.number)
        no = p_form(d, size, &steps);
    if (no.number)
        return no;
    if (!p_shape[6].count)
        p_shapes();
    memset(pc.value, 0, 2 * p_table.nodes);
    p_hand h = { 0, (unsigned)g->count, 0, 0, 0 };
    for (size_t i = 0; i < g->count; i++) {
        pc.state[i] = 16;
        pc.lits[i] = g->goal[i];
    }
    if (d[0] == 86 || d[4] == 'G')
        for (; named < g->count; named++)
            if (named == steps || d[4 + 4 * named] != 'G' || p_word(d + 6 + 4 * named) != g->goal[named])
                return p_no(64, named);
    return d[0] == 86 ? p_replay(d, size, steps, named, h, 1) : p_replay(d, size, steps, named, h, 0);
}

#endif
