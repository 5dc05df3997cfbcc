/* The solver's order and the derivation rules, an independent reading of the scope paper in plain C: it looks through the whole
 * clause list for every move, and saves a whole state at every split. It shares nothing with the library. */
#ifndef ORDER_H
#define ORDER_H

#include "oracle.h"
#include <stdlib.h>

enum { O_CLAUSES = 6200 };
typedef struct { int len, lit[3]; } o_clause;
typedef struct { int held[2016], count; uint8_t value[4032]; o_clause clause[O_CLAUSES]; int clauses; } o_state;
typedef struct { uint8_t (*step)[4]; size_t count, room; int letter; } o_steps; /* letter: 68 version one, 86 version two */

/* 1 true, 2 false, 0 undecided. */
static inline int o_value(const o_state *s, int l) { return s->value[l]; }

static inline void o_clause_of(o_state *s, int len, int x, int y)
{
    o_clause c = { len, { x, y, 0 } };
    s->clause[s->clauses++] = c;
}

/* The clauses of three operands: one with all of them, or three with one each. */
static inline void o_three(o_state *s, int together, int x, int y, int z)
{
    if (together) {
        o_clause c = { 3, { x, y, z } };
        s->clause[s->clauses++] = c;
        return;
    }
    o_clause_of(s, 1, x, 0);
    o_clause_of(s, 1, y, 0);
    o_clause_of(s, 1, z, 0);
}

/* A literal joins G, and its expansion the clause list. */
static inline void o_join(o_state *s, const uint8_t *t, int l)
{
    o_node x = o_get(o_at(t, (size_t)l / 2));
    int a = (int)x.a, b = (int)x.b, c = (int)x.c, no = l & 1;
    s->held[s->count++] = l;
    s->value[l] = 1;
    s->value[l ^ 1] = 2;
    switch (x.kind) {
    case 1:
        if (no)
            o_clause_of(s, 0, 0, 0);
        break;
    case 3:
        if (no)
            o_clause_of(s, 2, a ^ 1, b ^ 1);
        else {
            o_clause_of(s, 1, a, 0);
            o_clause_of(s, 1, b, 0);
        }
        break;
    case 4:
        if (no) {
            o_clause_of(s, 1, a ^ 1, 0);
            o_clause_of(s, 1, b ^ 1, 0);
        } else
            o_clause_of(s, 2, a, b);
        break;
    case 5:
        if (no) {
            o_clause_of(s, 1, a, 0);
            o_clause_of(s, 1, b ^ 1, 0);
        } else
            o_clause_of(s, 2, a ^ 1, b);
        break;
    case 6:
        o_clause_of(s, 2, no ? a : a ^ 1, b);
        o_clause_of(s, 2, no ? a ^ 1 : a, b ^ 1);
        break;
    case 7:
    case 8:
        o_three(s, (x.kind == 8) != no, a ^ no, b ^ no, c ^ no);
        break;
    }
}

static inline void o_step(o_steps *d, int rule, int position, int value)
{
    if (!d)
        return;
    if (d->count < d->room) {
        uint8_t s[4] = { (uint8_t)rule, (uint8_t)position, (uint8_t)value, (uint8_t)(value >> 8) };
        memcpy(d->step[d->count], s, 4);
    }
    d->count++;
}

static inline void o_removals(const o_state *s, o_steps *d, int k)
{
    for (int p = 0; d && d->letter == 68 && p < s->clause[k].len; p++)
        if (o_value(s, s->clause[k].lit[p]) == 2)
            o_step(d, 82, p, k);
}

/* 1 and the final state where a model is found, 0 where every branch closes; the steps as they come. */
static inline int o_search(o_state *s, const uint8_t *t, o_steps *d)
{
    for (;;) {
        int conflict = -1, unit = -1, unit_lit = 0, open = -1, open_lit = 0;
        for (int k = 0; k < s->clauses; k++) {
            int met = 0, free = 0, first = 0;
            for (int p = s->clause[k].len - 1; p >= 0; p--) {
                int v = o_value(s, s->clause[k].lit[p]);
                met |= v == 1;
                if (v == 0) {
                    free++;
                    first = s->clause[k].lit[p];
                }
            }
            if (met)
                continue;
            if (free == 0 && conflict < 0)
                conflict = k;
            if (free == 1 && unit < 0) {
                unit = k;
                unit_lit = first;
            }
            if (open < 0) {
                open = k;
                open_lit = first;
            }
        }
        if (conflict >= 0) {
            o_removals(s, d, conflict);
            o_step(d, 67, 0, conflict);
            return 0;
        }
        if (unit >= 0) {
            o_removals(s, d, unit);
            o_step(d, 85, 0, unit);
            o_join(s, t, unit_lit);
            continue;
        }
        if (open < 0)
            return 1;
        o_state *right = malloc(sizeof *right);
        if (!right)
            exit(2);
        *right = *s;
        o_step(d, 83, 0, open_lit);
        o_join(s, t, open_lit);
        if (o_search(s, t, d)) {
            free(right);
            return 1;
        }
        *s = *right;
        free(right);
        o_join(s, t, open_lit ^ 1);
    }
}

/* Rows 62 and 20 of a list of goals. */
static inline o_told o_goals(const o_list *g, size_t nodes)
{
    if (g->count == 0 || g->count > 64)
        return o_no(62, 0);
    for (size_t i = 0; i < g->count; i++)
        if (g->goal[i] >= 2 * nodes)
            return o_no(20, i);
    return o_no(0, 0);
}

/* Decide of a readable table and a list of goals in it: 1 possible with the settings (2 for a point of neither sign), or 0; and the steps,
 * a G for each goal before those of the search. */
static inline int o_decide(const uint8_t *t, const o_list *g, uint8_t *settings, o_steps *d)
{
    static o_state s;
    s.count = s.clauses = 0;
    memset(s.value, 0, sizeof s.value);
    for (size_t i = 0; i < g->count; i++) {
        o_clause_of(&s, 1, g->goal[i], 0);
        o_step(d, 71, 0, g->goal[i]);
    }
    if (!o_search(&s, t, d))
        return 0;
    memset(settings, 2, 1024);
    for (int i = 0; i < s.count; i++) {
        o_node x = o_get(o_at(t, (size_t)s.held[i] / 2));
        if (x.kind == 2)
            settings[x.a] = s.held[i] % 2 == 0;
    }
    return 1;
}

#endif
