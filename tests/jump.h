/* The search that jumps over splits, an independent reading in plain C: every move looks through the whole clause list, what a literal
 * rests on is one number of 128 bits, and a split is taken back by what stood before it. It shares nothing with the library. Where no
 * split counts it is the plain order. */
#ifndef JUMP_H
#define JUMP_H

#include "order.h"

typedef unsigned __int128 j_set;

typedef struct {
    o_state s;
    j_set rests[4032];        /* by literal held */
    int origin[O_CLAUSES];    /* of each clause: the literal whose expansion gave it, or -1 of a goal's */
    int counting;             /* how many nested splits count, at most 128 */
    uint64_t splits, skipped, deepest;
} j_search;

/* A literal joins, resting on a set; its clauses come from it. */
static inline void j_join(j_search *j, const uint8_t *t, int l, j_set rests)
{
    int from = j->s.clauses;
    o_join(&j->s, t, l);
    j->rests[l] = rests;
    for (int k = from; k < j->s.clauses; k++)
        j->origin[k] = l;
}

/* What a clause's false literals, and the literal that gave it, rest on. */
static inline j_set j_why(const j_search *j, int k)
{
    j_set why = j->origin[k] < 0 ? 0 : j->rests[j->origin[k]];
    for (int p = 0; p < j->s.clause[k].len; p++)
        if (o_value(&j->s, j->s.clause[k].lit[p]) == 2)
            why |= j->rests[j->s.clause[k].lit[p] ^ 1];
    return why;
}

/* The first clause of each sort: all false, one literal left, several left; -1 where there is none. */
typedef struct { int conflict, unit, open, unit_literal, open_literal; } j_firsts;

static inline j_firsts j_look(const o_state *s)
{
    j_firsts f = { -1, -1, -1, 0, 0 };
    for (int k = 0; k < s->clauses; k++) {
        int met = 0, left = 0, first = 0;
        for (int p = s->clause[k].len - 1; p >= 0; p--) {
            int v = o_value(s, s->clause[k].lit[p]);
            met |= v == 1;
            if (v == 0) {
                left++;
                first = s->clause[k].lit[p];
            }
        }
        if (met)
            continue;
        if (left == 0 && f.conflict < 0)
            f.conflict = k;
        if (left == 1 && f.unit < 0) {
            f.unit = k;
            f.unit_literal = first;
        }
        if (left > 1 && f.open < 0) {
            f.open = k;
            f.open_literal = first;
        }
    }
    return f;
}

static inline void j_back(j_search *j, int count, int clauses)
{
    while (j->s.count > count) {
        int l = j->s.held[--j->s.count];
        j->s.value[l] = j->s.value[l ^ 1] = 0;
    }
    j->s.clauses = clauses;
}

/* 1 with a model held; 0 where every branch closes, and what that rests on. `depth` splits are on the branch. */
static inline int j_from(j_search *j, const uint8_t *t, int depth, j_set *why)
{
    j_firsts f;
    for (f = j_look(&j->s); f.conflict < 0 && f.unit >= 0; f = j_look(&j->s))
        j_join(j, t, f.unit_literal, j_why(j, f.unit));
    if (f.conflict >= 0) {
        *why = j_why(j, f.conflict);
        return 0;
    }
    if (f.open < 0)
        return 1;
    int counts = depth < j->counting, l = f.open_literal, count = j->s.count, clauses = j->s.clauses;
    j_set own = counts ? (j_set)1 << depth : 0;
    j->splits++;
    j->deepest = (uint64_t)depth + 1 > j->deepest ? (uint64_t)depth + 1 : j->deepest;
    j_join(j, t, l, own);
    if (j_from(j, t, depth + 1, why))
        return 1;
    if (counts && !(*why & own)) {
        j->skipped++;
        return 0;
    }
    j_back(j, count, clauses);
    j_join(j, t, l ^ 1, *why & ~own);
    return j_from(j, t, depth + 1, why);
}

static j_search j_run;

/* Decide of a list, with so many nested splits that count; the settings if possible. The counts stay in j_run. */
static inline int j_decide(const uint8_t *t, const o_list *g, uint8_t *settings, int counting)
{
    j_set why;
    j_run.s.count = j_run.s.clauses = 0;
    memset(j_run.s.value, 0, sizeof j_run.s.value);
    j_run.splits = j_run.skipped = j_run.deepest = 0;
    j_run.counting = counting;
    for (size_t i = 0; i < g->count; i++) {
        j_run.origin[j_run.s.clauses] = -1;
        o_clause_of(&j_run.s, 1, g->goal[i], 0);
    }
    int possible = j_from(&j_run, t, 0, &why);
    if (possible) {
        memset(settings, 2, 1024);
        for (int i = 0; i < j_run.s.count; i++) {
            o_node x = o_get(o_at(t, (size_t)j_run.s.held[i] / 2));
            if (x.kind == 2)
                settings[x.a] = (uint8_t)!(j_run.s.held[i] & 1);
        }
    }
    return possible;
}

#endif
