/* The tables that are measured. */
#ifndef CASES_H
#define CASES_H

#include "plain.h"
#include <stdio.h>
#include <stdlib.h>

typedef struct { char name[32]; uint8_t table[16384]; size_t len, nodes; p_list goals; } a_case;

static uint64_t b_record[P_NODES];
static size_t b_nodes;
static uint64_t b_seed;

static unsigned pick(unsigned below)
{
    b_seed ^= b_seed << 13;
    b_seed ^= b_seed >> 7;
    b_seed ^= b_seed << 17;
    return (unsigned)(b_seed >> 11) % below;
}

enum { IS_TRUE = 1, ATOM, AND, OR, IMP, IFF, AND3, OR3 };

/* The literal of a record, which is added unless it is there. */
static unsigned find(uint64_t r)
{
    for (size_t n = 0; n < b_nodes; n++)
        if (b_record[n] == r)
            return 2 * (unsigned)n;
    if (b_nodes == P_NODES || p_record(r, b_nodes)) {
        fprintf(stderr, "bench: a case does not fit\n");
        exit(2);
    }
    b_record[b_nodes++] = r;
    return 2 * (unsigned)(b_nodes - 1);
}

static unsigned node(unsigned kind, unsigned a, unsigned b)
{
    if (kind > ATOM && kind != IMP && a / 2 > b / 2) {
        unsigned s = a;
        a = b;
        b = s;
    }
    return find(kind | (uint64_t)a << 16 | (uint64_t)b << 32);
}

/* A literal of kind 7 or 8, of three others. */
static unsigned node3(unsigned kind, unsigned a, unsigned b, unsigned c)
{
    unsigned l[3] = { a, b, c };
    for (int i = 0; i < 3; i++) {
        unsigned *x = l + i % 2, y = x[0];
        if (y / 2 > x[1] / 2) {
            x[0] = x[1];
            x[1] = y;
        }
    }
    return find(kind | (uint64_t)l[0] << 16 | (uint64_t)l[1] << 32 | (uint64_t)l[2] << 48);
}

static unsigned atom(unsigned point) { return node(ATOM, point, 0); }
static unsigned no(unsigned l) { return l ^ 1; }

/* One more member of a chain; `none` is the chain without any. */
enum { none = 65535 };
static unsigned chain(unsigned kind, unsigned so_far, unsigned l) { return so_far == none ? l : node(kind, so_far, l); }

/* A literal of two nodes, each with any sign; that of the second is picked first. */
static unsigned any_signs(unsigned kind, unsigned x, unsigned y)
{
    unsigned b = 2 * y + pick(2), a = 2 * x + pick(2);
    return node(kind, a, b);
}

/* A chain of ANDs or ORs, in pairs or in threes. */
typedef struct { unsigned kind, so_far, waiting; int threes; } a_chain;

static void more(a_chain *c, unsigned l)
{
    if (!c->threes || c->so_far == none)
        c->so_far = chain(c->kind, c->so_far, l);
    else if (c->waiting == none)
        c->waiting = l;
    else {
        c->so_far = node3(c->kind + AND3 - AND, c->so_far, c->waiting, l);
        c->waiting = none;
    }
}

static unsigned chained(const a_chain *c) { return c->waiting == none ? c->so_far : node(c->kind, c->so_far, c->waiting); }

static p_list one(size_t goal)
{
    p_list g = { 1, { (uint16_t)goal } };
    return g;
}

static void write_list(a_case *c, const char *name, unsigned n, p_list goals)
{
    snprintf(c->name, sizeof c->name, n ? "%s %u" : "%s", name, n);
    c->nodes = b_nodes;
    c->goals = goals;
    c->len = 512 * ((b_nodes + 62) / 63);
    memset(c->table, 0, sizeof c->table);
    for (size_t m = 0; m < b_nodes; m++) {
        uint8_t *b = c->table + 512 * (m / 63);
        b[0] = 70;
        b[1]++;
        b[2] = (uint8_t)(m / 63);
        memcpy(b + 4 + 8 * (m % 63), &b_record[m], 8);
    }
    for (size_t j = 0; j < c->len / 512; j++)
        p_seal(c->table + 512 * j);
    b_nodes = 0;
}

static void write_case(a_case *c, const char *name, unsigned n, unsigned goal) { write_list(c, name, n, one(goal)); }

/* Each of some pigeons has one of n holes, no two the same: clauses behind those of a chain so far. What comes last in a chain splits
 * first. */
static unsigned holes(unsigned all, unsigned low, unsigned pigeons, unsigned n)
{
    for (unsigned i = 0; i < pigeons; i++) {
        unsigned some = none;
        for (unsigned j = 0; j < n; j++)
            some = chain(OR, some, atom(low + n * i + j));
        all = chain(AND, all, some);
    }
    for (unsigned j = 0; j < n; j++)
        for (unsigned i = 0; i < pigeons; i++)
            for (unsigned k = 0; k < i; k++)
                all = chain(AND, all, node(OR, no(atom(low + n * k + j)), no(atom(low + n * i + j))));
    return all;
}

/* n + 1 pigeons do not fit into n holes. */
static void pigeonhole(a_case *c, unsigned n)
{
    for (unsigned i = 0; i <= n; i++)
        for (unsigned j = 0; j < n; j++)
            atom(n * i + j);
    write_case(c, "pigeonhole", n, holes(none, 0, n + 1, n));
}

/* 5 pigeons for 4 holes behind free pairs of points, each an OR: these split first, and have no part in the clash. */
static void free_points(a_case *c, unsigned pairs)
{
    unsigned all = holes(none, 0, 5, 4);
    for (unsigned i = 0; i < pairs; i++)
        all = chain(AND, all, node(OR, atom(100 + 2 * i), atom(101 + 2 * i)));
    write_case(c, "free points", pairs, all);
}

/* Two problems with no point in common under one goal: n pigeons for n holes, which fit, split first; 5 for 4 holes do not. */
static void two_problems(a_case *c, unsigned n)
{
    write_case(c, "two problems", n, holes(holes(none, 0, 5, 4), 100, n, n));
}

/* If any two neighbours of a ring of 2 n + 1 that are equal make all true, then all are true. */
static void de_bruijn(a_case *c, unsigned n)
{
    unsigned m = 2 * n + 1, all = none, left = none;
    for (unsigned i = 0; i < m; i++)
        all = chain(AND, all, atom(i));
    for (unsigned i = 0; i < m; i++)
        left = chain(AND, left, node(IMP, node(IFF, atom(i), atom((i + 1) % m)), all));
    write_case(c, "de Bruijn", n, no(node(IMP, left, all)));
}

/* ((p1 = p2) = ..) = pn is the same as p1 = (.. = pn). */
static void equivalences(a_case *c, unsigned n)
{
    unsigned up = none, down = none;
    for (unsigned i = 0; i < n; i++)
        atom(i);
    for (unsigned i = 0; i < n; i++)
        up = chain(IFF, up, atom(i));
    for (unsigned i = n; i-- > 0;)
        down = chain(IFF, down, atom(i));
    write_case(c, "equivalences", n, no(node(IFF, up, down)));
}

/* Not not (all p, or some not p), as implications of false. */
static void franzen(a_case *c, unsigned n)
{
    unsigned falsity = no(node(IS_TRUE, 0, 0)), all = none, some = none;
    for (unsigned i = 0; i < n; i++)
        all = chain(AND, all, atom(i));
    for (unsigned i = 0; i < n; i++)
        some = chain(OR, some, node(IMP, atom(i), falsity));
    write_case(c, "Franzen", n, no(node(IMP, node(IMP, node(OR, all, some), falsity), falsity)));
}

/* pn, and p(i) implies that p(i) implies p(i - 1): so p0. */
static void schwichtenberg(a_case *c, unsigned n)
{
    unsigned left = atom(n);
    for (unsigned i = 1; i <= n; i++)
        left = chain(AND, left, node(IMP, atom(i), node(IMP, atom(i), atom(i - 1))));
    write_case(c, "Schwichtenberg", n, no(node(IMP, left, atom(0))));
}

/* Random clauses of three points, 4.26 to a point: as one goal, or as a list of goals that have about as many clauses each. */
static void random_list(a_case *c, unsigned n, unsigned seed, size_t goals)
{
    char name[32];
    p_list all = { goals, { 0 } };
    b_seed = 88172645463325252u + seed * 7919;
    for (unsigned i = 0; i < 20; i++)
        pick(2);
    for (unsigned i = 0; i < n; i++)
        atom(i);
    unsigned clauses = n * 426 / 100;
    for (size_t k = 0; k < goals; k++)
        all.goal[k] = none;
    for (unsigned k = 0; k < clauses; k++) {
        unsigned x = pick(n), y = pick(n), z = pick(n);
        while (y == x)
            y = pick(n);
        while (z == x || z == y)
            z = pick(n);
        unsigned pair = any_signs(OR, x, y);
        uint16_t *goal = &all.goal[k * goals / clauses];
        *goal = (uint16_t)chain(AND, *goal, node(OR, pair, 2 * z + pick(2)));
    }
    snprintf(name, sizeof name, goals == 1 ? "random %u/%u" : "random %u/%u in %zu", n, seed, goals);
    write_list(c, name, 0, all);
}

static void random_clauses(a_case *c, unsigned n, unsigned seed) { random_list(c, n, seed, 1); }

/* Conditions that come in threes: random clauses of three points, 4.26 to a point, in pairs or in threes. */
static void clauses_of_three(a_case *c, unsigned n, unsigned seed, int threes)
{
    char name[32];
    a_chain all = { AND, none, none, threes };
    b_seed = 88172645463325252u + seed * 7919;
    for (unsigned i = 0; i < 20; i++)
        pick(2);
    for (unsigned i = 0; i < n; i++)
        atom(i);
    for (unsigned k = 0; k < n * 426 / 100; k++) {
        unsigned x = pick(n), y = pick(n), z = pick(n);
        while (y == x)
            y = pick(n);
        while (z == x || z == y)
            z = pick(n);
        a_chain some = { OR, none, none, threes };
        more(&some, 2 * x + pick(2));
        more(&some, 2 * y + pick(2));
        more(&some, 2 * z + pick(2));
        more(&all, chained(&some));
    }
    snprintf(name, sizeof name, "random %u/%u %s", n, seed, threes ? "3s" : "2s");
    write_case(c, name, 0, chained(&all));
}

/* The pigeons in pairs or in threes. */
static void pigeons(a_case *c, unsigned n, int threes)
{
    char name[32];
    a_chain all = { AND, none, none, threes };
    for (unsigned i = 0; i <= n; i++)
        for (unsigned j = 0; j < n; j++)
            atom(n * i + j);
    for (unsigned i = 0; i <= n; i++) {
        a_chain some = { OR, none, none, threes };
        for (unsigned j = 0; j < n; j++)
            more(&some, atom(n * i + j));
        more(&all, chained(&some));
    }
    for (unsigned j = 0; j < n; j++)
        for (unsigned i = 0; i <= n; i++)
            for (unsigned k = 0; k < i; k++)
                more(&all, node(OR, no(atom(n * k + j)), no(atom(n * i + j))));
    snprintf(name, sizeof name, "pigeons %u %s", n, threes ? "3s" : "2s");
    write_case(c, name, 0, chained(&all));
}

/* Nine choices that have no part in the clash, each behind a stretch of n points whose clauses are met: what looking for an open clause costs. */
static void stretches(a_case *c, unsigned n)
{
    enum { CHOICES = 9 };
    unsigned p = 0, u = atom(1000), v = atom(1001), all = none;
    for (unsigned i = 0; i < 4; i++)
        all = chain(AND, all, node(OR, u ^ (i & 1), v ^ (i >> 1)));
    for (unsigned k = 0; k < CHOICES; k++) {
        for (unsigned i = 0; i < n; i++)
            all = chain(AND, all, atom(p++));
        unsigned left = atom(p++), right = atom(p++);
        all = chain(AND, all, node(OR, left, right));
    }
    write_case(c, "stretches", n, all);
}

/* A table of so many nodes whose goals are all decided quickly: 96 points, then operations mostly of nodes far back. */
static void easy_nodes(unsigned n, unsigned seed)
{
    b_seed = 88172645463325252u + seed * 104729;
    for (unsigned i = 0; i < 96; i++)
        atom(i);
    while (b_nodes < n) {
        unsigned m = (unsigned)b_nodes, x = pick(m), y = pick(m), kind = 3 + pick(4);
        if (pick(3))
            x = pick(96);
        if (x != y)
            any_signs(kind, x, y);
    }
}

static void easy(a_case *c, unsigned n, unsigned seed)
{
    easy_nodes(n, seed);
    write_case(c, "easy", n, 2 * (n - 1));
}

/* The same with a list of 64 goals that are impossible together: any literals; or 63 points and, among them, that not all are yes, which
 * are all needed. */
static void clashing(a_case *c, unsigned n, unsigned seed)
{
    p_list all = { P_GOALS, { 0 } };
    easy_nodes(n, seed);
    for (size_t i = 0; i < P_GOALS; i++)
        all.goal[i] = (uint16_t)pick(2 * n);
    write_list(c, "any goals", seed, all);
}

static void all_needed(a_case *c, unsigned n)
{
    p_list all = { P_GOALS, { 0 } };
    unsigned both = none;
    for (unsigned i = 0; i < P_GOALS - 1; i++) {
        all.goal[i < 30 ? i : i + 1] = (uint16_t)atom(i);
        both = chain(AND, both, atom(i));
    }
    all.goal[30] = (uint16_t)no(both);
    easy_nodes(n, 1);
    write_list(c, "all needed", n, all);
}

/* TRUE, a point, AND(not TRUE, point), then IMP(not previous, not TRUE): over 2,000 nested splits. */
static void deepest(a_case *c)
{
    unsigned falsity = no(node(IS_TRUE, 0, 0)), l = node(AND, falsity, atom(0));
    while (b_nodes < P_NODES)
        l = node(IMP, no(l), falsity);
    write_case(c, "deepest", 0, l);
}

#endif
