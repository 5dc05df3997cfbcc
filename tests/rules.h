/* Derivations, an independent reading of the scope paper in plain C: the form of the bytes, and the checker's rules on a state that is
 * saved whole at every split. It shares nothing with the library. */
#ifndef RULES_H
#define RULES_H

#include "order.h"

typedef struct { o_state s; uint8_t struck[O_CLAUSES], gone[O_CLAUSES][3]; } o_branch;

static inline const uint8_t *o_step_at(const uint8_t *d, size_t k) { return d + 512 * (k / 126) + 4 + 4 * (k % 126); }

/* The blocks that hold steps, written to a buffer; their length. */
static inline size_t o_steps_build(uint8_t *d, int letter, const uint8_t (*steps)[4], size_t n)
{
    size_t blocks = (n + 125) / 126;
    memset(d, 0, 512 * blocks);
    for (size_t j = 0; j < blocks; j++) {
        uint8_t *b = d + 512 * j;
        size_t count = n - 126 * j < 126 ? n - 126 * j : 126;
        b[0] = (uint8_t)letter;
        b[1] = (uint8_t)count;
        b[2] = (uint8_t)j;
        b[3] = (uint8_t)(j >> 8);
        memcpy(b + 4, steps[126 * j], 4 * count);
        o_seal(b);
    }
    return 512 * blocks;
}

/* Row 40, rows 41 to 43 of block j, and rows 44 and 65 of a step: 0 where it passes. The letter of block 0 says the version. */
static inline int o_size_bad(size_t len) { return len == 0 || len % 512 || len > 33554432; }

static inline int o_letter(const uint8_t *d) { return d[0] == 86 ? 86 : 68; }

static inline unsigned o_block_bad(const uint8_t *d, size_t j, int last)
{
    const uint8_t *b = d + 512 * j;
    if (o_check(b) != o_word(b + 510))
        return 41;
    if (b[0] != o_letter(d) || o_word(b + 2) != j || b[1] == 0 || b[1] > 126 || (!last && b[1] != 126))
        return 42;
    for (int i = 4 + 4 * b[1]; i < 510; i++)
        if (b[i])
            return 43;
    return 0;
}

static inline unsigned o_step_bad(int letter, const uint8_t *s)
{
    if (!(s[0] == 82 && s[1] <= 2) && !(s[1] == 0 && (s[0] == 85 || s[0] == 69 || s[0] == 67 || s[0] == 83 || s[0] == 71)))
        return 44;
    return letter == 86 && (s[0] == 82 || s[0] == 69) ? 65 : 0;
}

/* Rows 40 to 44 and 65, and the step count. */
static inline o_told o_form(const uint8_t *d, size_t len, size_t *steps)
{
    *steps = 0;
    if (o_size_bad(len))
        return o_no(40, 0);
    for (size_t j = 0; j < len / 512; j++) {
        unsigned number = o_block_bad(d, j, j + 1 == len / 512);
        if (number)
            return o_no(number, j);
        *steps += d[512 * j + 1];
    }
    for (size_t k = 0; k < *steps; k++) {
        unsigned number = o_step_bad(o_letter(d), o_step_at(d, k));
        if (number)
            return o_no(number, k);
    }
    return o_no(0, 0);
}

/* One step on a branch: 0 its condition fails, 1 it goes on, 2 the branch closes. */
static inline int o_apply(o_branch *b, const uint8_t *t, int rule, int p, int k)
{
    o_state *s = &b->s;
    if (k >= s->clauses || b->struck[k])
        return 0;
    const o_clause *c = &s->clause[k];
    int left = 0, lit = 0, met = 0;
    for (int i = 0; i < c->len; i++)
        if (!b->gone[k][i]) {
            left++;
            lit = c->lit[i];
            met |= o_value(s, lit) == 1;
        }
    switch (rule) {
    case 85:
        if (left != 1 || o_value(s, lit) != 0)
            return 0;
        b->struck[k] = 1;
        o_join(s, t, lit);
        return 1;
    case 82:
        if (p >= c->len || b->gone[k][p] || o_value(s, c->lit[p]) != 2)
            return 0;
        b->gone[k][p] = 1;
        return 1;
    case 69:
        if (!met)
            return 0;
        b->struck[k] = 1;
        return 1;
    default:
        return left == 0 ? 2 : 0;
    }
}

/* The same in version two: U and C by the values under G, no strike looked at. */
static inline int o_apply_two(o_branch *b, const uint8_t *t, int rule, int k)
{
    o_state *s = &b->s;
    int undecided = 0, lit = 0, met = 0;
    if (k >= s->clauses)
        return 0;
    for (int i = 0; i < s->clause[k].len; i++) {
        int value = o_value(s, s->clause[k].lit[i]);
        met |= value == 1;
        if (value == 0) {
            undecided++;
            lit = s->clause[k].lit[i];
        }
    }
    if (met || undecided != (rule == 85))
        return 0;
    if (rule == 85)
        o_join(s, t, lit);
    return rule == 85 ? 1 : 2;
}

static inline o_branch *o_root(const o_list *g)
{
    o_branch *b = calloc(1, sizeof *b);
    if (!b)
        exit(2);
    for (size_t i = 0; i < g->count; i++)
        o_clause_of(&b->s, 1, g->goal[i], 0);
    return b;
}

/* Whether a derivation that opens with a G, or is of version two, must have one at step i, and whether the step is wrong for it. */
static inline int o_name_due(const uint8_t *d, const o_list *g, size_t i) { return (d[4] == 71 || d[0] == 86) && i < g->count; }

static inline int o_name_bad(const uint8_t *s, const o_list *g, size_t i) { return s[0] != 71 || o_word(s + 2) != g->goal[i]; }

/* Each step in turn and the end: 0, or 45 to 47 and 64 with its place. */
static inline o_told o_run(const uint8_t *t, size_t nodes, const o_list *g, const uint8_t *d, size_t steps)
{
    static o_branch *waiting[2100];
    size_t depth = 0;
    o_branch *b = o_root(g);
    o_told v = o_no(0, 0);
    for (size_t i = 0; i < steps && !v.number; i++) {
        const uint8_t *s = o_step_at(d, i);
        int value = (int)o_word(s + 2);
        if (!b)
            v = o_no(46, i);
        else if (o_name_due(d, g, i)) {
            if (o_name_bad(s, g, i))
                v = o_no(64, i);
        } else if (s[0] == 71)
            v = o_no(64, i);
        else if (s[0] == 83) {
            if ((size_t)value >= 2 * nodes || o_value(&b->s, value))
                v = o_no(45, i);
            else {
                o_branch *right = malloc(sizeof *right);
                if (!right)
                    exit(2);
                *right = *b;
                o_join(&right->s, t, value ^ 1);
                o_join(&b->s, t, value);
                waiting[depth++] = right;
            }
        } else
            switch (d[0] == 86 ? o_apply_two(b, t, s[0], value) : o_apply(b, t, s[0], s[1], value)) {
            case 0:
                v = o_no(45, i);
                break;
            case 2:
                free(b);
                b = depth ? waiting[--depth] : NULL;
            }
    }
    if (!v.number && b)
        v = o_no(o_name_due(d, g, steps) ? 64 : 47, steps);
    free(b);
    while (depth)
        free(waiting[--depth]);
    return v;
}

/* Check of a readable table and a list of goals in it. */
static inline o_told o_checked(const uint8_t *t, size_t nodes, const o_list *g, const uint8_t *d, size_t len)
{
    size_t steps;
    o_told v = o_form(d, len, &steps);
    return v.number ? v : o_run(t, nodes, g, d, steps);
}

#endif
