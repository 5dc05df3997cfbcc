/* What the calls are asked beside a table: texts, goals, wishes, rooms. */
#ifndef ASKS_H
#define ASKS_H

#include "calls.h"

/* A DIMACS text, added to */
static void write_text(const char *format, int v, unsigned w)
{
    asked.dimacs_len += (size_t)snprintf(asked.dimacs + asked.dimacs_len, sizeof asked.dimacs - asked.dimacs_len, format, v, w);
}

/* Random clauses of three variables, 4.26 to a variable. */
static void random_text(unsigned n, unsigned seed)
{
    unsigned clauses = n * 426 / 100;
    asked.dimacs_len = 0;
    b_seed = 88172645463325252u + seed * 7919;
    for (unsigned i = 0; i < 20; i++)
        pick(2);
    write_text("c random clauses of three variables, number %d\np cnf ", (int)seed, 0);
    write_text("%d %u\n", (int)n, clauses);
    for (unsigned k = 0; k < 3 * clauses; k++) {
        int v = 1 + (int)pick(n);
        write_text(k % 3 == 2 ? "%d 0\n" : "%d ", pick(2) ? -v : v, 0);
    }
}

/* n + 1 pigeons for n holes. */
static void pigeon_text(unsigned n)
{
    asked.dimacs_len = 0;
    write_text("p cnf %d %u\n", (int)(n * (n + 1)), n + 1 + n * n * (n + 1) / 2);
    for (unsigned i = 0; i <= n; i++) {
        for (unsigned j = 1; j <= n; j++)
            write_text("%d ", (int)(n * i + j), 0);
        write_text("0\n", 0, 0);
    }
    for (unsigned j = 1; j <= n; j++)
        for (unsigned i = 0; i <= n; i++)
            for (unsigned k = 0; k < i; k++)
                write_text("-%d -%u 0\n", (int)(n * k + j), n * i + j);
}

/* So many goals of a table, any of its literals. */
static void ask_goals(size_t count, size_t nodes)
{
    asked.count = count;
    for (size_t i = 0; i < count; i++)
        asked.goals[i] = (uint16_t)pick(2 * (unsigned)nodes);
}

/* Wishes: points both ways, so that at most half of them can be met. */
static void wish_both_ways(a_case *c, unsigned n, unsigned count, size_t questions)
{
    easy(c, n, 1);
    asked.wished = count;
    asked.questions = questions;
    for (unsigned i = 0; i < count; i++)
        asked.wishes[i] = (uint16_t)(2 * (5 * (i / 2)) + i % 2);
    snprintf(c->name, sizeof c->name, "%u points both ways", count / 2);
}

/* Wishes: any literals of an easy table, of which some are opposite to others. */
static void wish_any(a_case *c, unsigned n, unsigned count, unsigned opposite, size_t questions, unsigned seed)
{
    easy(c, n, seed);
    asked.wished = count;
    asked.questions = questions;
    for (unsigned i = 0; i < count; i++)
        asked.wishes[i] = (uint16_t)(i < count - opposite ? pick(2 * n) : asked.wishes[i + opposite - count] ^ 1u);
    snprintf(c->name, sizeof c->name, "%u literals/%u, %u opposite", count, seed, opposite);
}

/* Wishes: random clauses in parts, of which the first is the goal and the others are wished for. */
static void wish_parts(a_case *c, unsigned points, unsigned seed, unsigned count, size_t questions)
{
    random_list(c, points, seed, count + 1);
    asked.wished = count;
    asked.questions = questions;
    memcpy(asked.wishes, c->goals.goal + 1, sizeof *asked.wishes * count);
    c->goals.count = 1;
    snprintf(c->name, sizeof c->name, "random %u/%u in %u", points, seed, count);
}

/* Rooms: the goal of a table in each, and how the turns are shared out. */
static void ask_rooms(const a_case *c, size_t count, size_t first, size_t allowance, size_t most)
{
    asked.count = count;
    asked.first = first;
    asked.allowance = allowance;
    asked.most = most;
    for (size_t i = 0; i < count; i++)
        asked.goals[i] = c->goals.goal[0];
}

#endif
