/* What the C tests share: counting of checks, a work area between canaries, records, random tables, truth tables by brute force, the deepest
 * table. */
#ifndef TABLES_H
#define TABLES_H

#include "../include/bevaridhom.h"
#include "oracle.h"
#include <stdio.h>

static unsigned long checks, failed;

#define EXPECT(cond)                                                       \
    do {                                                                   \
        checks++;                                                          \
        if (!(cond)) {                                                     \
            failed++;                                                      \
            printf("%s:%d: %s\n", __FILE__, __LINE__, #cond);              \
        }                                                                  \
    } while (0)

enum { GUARD = 32 };
static uint16_t area[GUARD + BEV_WORK + GUARD], *const work = area + GUARD;
static uint64_t seed = 2463534242u;

static void guard(void)
{
    for (int i = 0; i < GUARD; i++)
        area[i] = area[GUARD + BEV_WORK + i] = 0xBEEF;
}

static int whole(void)
{
    for (int i = 0; i < GUARD; i++)
        if (area[i] != 0xBEEF || area[GUARD + BEV_WORK + i] != 0xBEEF)
            return 0;
    return 1;
}

static unsigned pick(unsigned below)
{
    seed ^= seed << 13;
    seed ^= seed >> 7;
    seed ^= seed << 17;
    return (unsigned)(seed >> 11) % below;
}

static void rec(uint8_t *r, unsigned kind, unsigned a, unsigned b)
{
    memset(r, 0, 8);
    r[0] = (uint8_t)kind;
    r[2] = (uint8_t)a;
    r[3] = (uint8_t)(a >> 8);
    r[4] = (uint8_t)b;
    r[5] = (uint8_t)(b >> 8);
}

static void rec3(uint8_t *r, unsigned kind, unsigned a, unsigned b, unsigned c)
{
    rec(r, kind, a, b);
    r[6] = (uint8_t)c;
    r[7] = (uint8_t)(c >> 8);
}

/* Some points, then operations on random earlier nodes: all kinds, of two and of three operands, both signs, shared nodes. */
static size_t table_of(uint8_t *t, unsigned points, size_t n, unsigned operations)
{
    static uint8_t r[300][8];
    for (size_t i = 0; i < n; i++) {
        int again = 1;
        for (int tries = 0; again; tries++) {
            unsigned kind = i < points ? 2 : pick(12) ? 3 + pick(i < 3 ? 4 : operations) : 1;
            if (kind <= 2)
                rec(r[i], kind, kind == 2 ? (unsigned)i : 0, 0);
            else {
                unsigned p = pick((unsigned)i), q = pick((unsigned)i);
                if (pick(3))
                    p = (unsigned)i - 1 - pick((unsigned)i < 4 ? (unsigned)i : 4);
                while (p == q)
                    q = pick((unsigned)i);
                if (kind != 5 && p > q) {
                    unsigned s = p;
                    p = q;
                    q = s;
                }
                if (kind < 7)
                    rec(r[i], kind, 2 * p + pick(2), 2 * q + pick(2));
                else {
                    unsigned s = pick((unsigned)i);
                    while (s == p || s == q)
                        s = pick((unsigned)i);
                    rec3(r[i], kind, 2 * (s < p ? s : p) + pick(2), 2 * (s < p ? p : s < q ? s : q) + pick(2), 2 * (s < q ? q : s) + pick(2));
                }
            }
            again = 0;
            for (size_t m = 0; m < i; m++)
                again |= memcmp(r[m], r[i], 8) == 0;
        }
    }
    return o_build(t, (const uint8_t (*)[8])r, n);
}

static size_t random_table(uint8_t *t, unsigned points, size_t n) { return table_of(t, points, n, 6); }

/* The same without three operands. */
static size_t pair_table(uint8_t *t, unsigned points, size_t n) { return table_of(t, points, n, 4); }

/* A list of 1 to 64 goals: any literals, or such that one setting makes true, or those with one turned. Most long ones have repeats, and
 * of the first and the last sort many have opposite literals. */
static o_list random_list(const uint8_t *t, unsigned points, size_t nodes)
{
    static uint8_t s[1024];
    o_list g = { 1 + pick(pick(2) ? 5 : 64), { 0 } };
    unsigned sort = pick(3);
    for (unsigned p = 0; p < points; p++)
        s[p] = (uint8_t)pick(2);
    for (size_t i = 0; i < g.count; i++) {
        g.goal[i] = (uint16_t)pick(2 * (unsigned)nodes);
        if (sort && !o_truth(t, s, g.goal[i]))
            g.goal[i] ^= 1;
    }
    if (sort == 2)
        g.goal[pick((unsigned)g.count)] ^= 1;
    return g;
}

/* Any list of up to 65 literals, most of them of the table. */
static o_list any_list(size_t nodes)
{
    o_list g = { pick(4) ? pick(66) : 63 + pick(3), { 0 } };
    unsigned rare = 1 + pick(200);
    for (size_t i = 0; i < 65; i++)
        g.goal[i] = (uint16_t)(pick(rare) ? pick(2 * (unsigned)nodes) : pick(2) ? 2 * (unsigned)nodes + pick(3) : 65535 - pick(3));
    return g;
}

/* Whether some choice of the first points makes every goal true. */
static int by_truth_table(const uint8_t *t, unsigned points, const o_list *g)
{
    static uint8_t s[1024];
    for (unsigned w = 0; w < 1u << points; w++) {
        for (unsigned p = 0; p < points; p++)
            s[p] = w >> p & 1;
        if (o_all_true(t, s, g))
            return 1;
    }
    return 0;
}

/* TRUE, ATOM, AND(¬TRUE, ATOM), then a chain IMP(¬previous, ¬TRUE): over 2,000 nested splits, and every branch closes. */
static size_t deep_table(uint8_t *t)
{
    static uint8_t r[2016][8];
    rec(r[0], 1, 0, 0);
    rec(r[1], 2, 0, 0);
    rec(r[2], 3, 1, 2);
    for (unsigned i = 3; i < 2016; i++)
        rec(r[i], 5, 2 * (i - 1) + 1, 1);
    return o_build(t, (const uint8_t (*)[8])r, 2016);
}

#endif
