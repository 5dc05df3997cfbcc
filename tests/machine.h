/* A search that stops after any turn, and questions under one allowance: an independent reading in plain C. At every split it saves a whole
 * state for the right branch; a turn looks through the whole clause list. It shares nothing with the library. */
#ifndef MACHINE_H
#define MACHINE_H

#include "order.h"

enum { M_QUESTIONS = 8, M_CLOSED = 0, M_FOUND = 1, M_RUNNING = 2 };
typedef struct m_saved { o_state state; int right; struct m_saved *older; } m_saved;
typedef struct { o_state s; m_saved *open; int verdict; } m_search;
typedef struct { m_search of[M_QUESTIONS]; int count, last; } m_round;

static inline void m_open(m_search *m, int goal)
{
    m->s.count = m->s.clauses = 0;
    memset(m->s.value, 0, sizeof m->s.value);
    o_clause_of(&m->s, 1, goal, 0);
    m->open = NULL;
    m->verdict = M_RUNNING;
}

static inline void m_drop(m_search *m)
{
    while (m->open) {
        m_saved *older = m->open->older;
        free(m->open);
        m->open = older;
    }
}

/* How many of a clause's literals are undecided, with the first of them; -1 where one is true. */
static inline int m_free(const o_state *s, const o_clause *c, int *first)
{
    int count = 0;
    for (int p = c->len - 1; p >= 0; p--) {
        int v = o_value(s, c->lit[p]);
        if (v == 1)
            return -1;
        if (v == 0) {
            count++;
            *first = c->lit[p];
        }
    }
    return count;
}

/* One turn of a running search. */
static inline void m_turn(m_search *m, const uint8_t *t)
{
    o_state *s = &m->s;
    int unit = -1, split = -1, any = 0;
    for (int k = 0; k < s->clauses; k++) {
        int first = 0, count = m_free(s, &s->clause[k], &first);
        if (count == 0) {
            m_saved *v = m->open;
            if (!v) {
                m->verdict = M_CLOSED;
                return;
            }
            *s = v->state;
            o_join(s, t, v->right);
            m->open = v->older;
            free(v);
            return;
        }
        if (count == 1 && unit < 0)
            unit = first;
        if (count > 1 && !any) {
            any = 1;
            split = first;
        }
    }
    if (unit >= 0)
        o_join(s, t, unit);
    else if (any) {
        m_saved *v = malloc(sizeof *v);
        if (!v)
            exit(2);
        v->state = *s;
        v->right = split ^ 1;
        v->older = m->open;
        m->open = v;
        o_join(s, t, split);
    } else
        m->verdict = M_FOUND;
}

/* The setting of the literals held. */
static inline void m_setting(const m_search *m, const uint8_t *t, uint8_t *settings)
{
    memset(settings, 2, 1024);
    for (int i = 0; i < m->s.count; i++) {
        o_node x = o_get(o_at(t, (size_t)m->s.held[i] / 2));
        if (x.kind == 2)
            settings[x.a] = m->s.held[i] % 2 == 0;
    }
}

/* One turn of the next unfinished question after the one served last; which, or -1. */
static inline int m_serve(m_round *r, const uint8_t *t)
{
    for (int k = 1; k <= r->count; k++) {
        int i = (r->last + k) % r->count;
        if (r->of[i].verdict == M_RUNNING) {
            m_turn(&r->of[i], t);
            r->last = i;
            return i;
        }
    }
    return -1;
}

#endif
