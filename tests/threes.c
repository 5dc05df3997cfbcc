/* Conditions of three literals: a hand-made derivation with position 2, the longest clause list, and tables whose threes are written as
 * pairs, which mean the same to every call. */
#include "../include/bevaridhom.h"
#include "rules.h"
#include "tables.h"

enum { STEPS = 8000, ROOM = 512 * (STEPS / 126 + 1) };
static uint8_t taken[STEPS][4], out[ROOM], expected[ROOM];

/* Derive writes the steps that the plain order takes, and check accepts them. How many they are, 0 where the goals are possible. */
static size_t derived(const uint8_t *t, size_t len, const o_list *g)
{
    static uint8_t s[1024];
    o_steps right = { taken, 0, STEPS, 68 };
    if (o_decide(t, g, s, &right)) {
        EXPECT(bev_derive(t, len, g->goal, g->count, 0, work, BEV_WORK, out, ROOM).number == 30);
        return 0;
    }
    size_t size = o_steps_build(expected, 68, (const uint8_t (*)[4])taken, right.count);
    bev_derived v = bev_derive(t, len, g->goal, g->count, 0, work, BEV_WORK, out, ROOM);
    EXPECT(v.number == 0 && v.steps == right.count && memcmp(out, expected, size) == 0 && whole());
    EXPECT(bev_check(t, len, g->goal, g->count, work, BEV_WORK, out, size).number == 0);
    return right.count;
}

/* What check says of the steps taken, where one of them has another position. */
static bev_checked moved(const uint8_t *t, size_t len, const o_list *g, size_t steps, size_t k, unsigned position)
{
    uint8_t old = taken[k][1];
    taken[k][1] = (uint8_t)position;
    size_t size = o_steps_build(expected, 68, (const uint8_t (*)[4])taken, steps);
    taken[k][1] = old;
    o_told right = o_checked(t, 6, g, expected, size);
    bev_checked v = bev_check(t, len, g->goal, g->count, work, BEV_WORK, expected, size);
    EXPECT(v.number == right.number && v.place == right.place);
    return v;
}

/* Three points, OR(0,2,4), AND(1,3,5) and AND(6,8): of the last no setting makes it true. */
static void positions(void)
{
    static uint8_t r[6][8], t[512];
    static const o_list both = { 2, { 8, 6 } };
    for (unsigned i = 0; i < 3; i++)
        rec(r[i], 2, i, 0);
    rec3(r[3], 8, 0, 2, 4);
    rec3(r[4], 7, 1, 3, 5);
    rec(r[5], 3, 6, 8);
    size_t len = o_build(t, (const uint8_t (*)[8])r, 6), steps = derived(t, len, &both), last = steps - 2;
    /* the last clause, {0, 2, 4}, is all false: its removals in position order, then C */
    for (unsigned p = 0; p < 3; p++)
        EXPECT(taken[steps - 4 + p][0] == 82 && taken[steps - 4 + p][1] == p);
    EXPECT(moved(t, len, &both, steps, last, 3).number == 44);
    EXPECT(moved(t, len, &both, steps, last, 1).number == 45);
    EXPECT(moved(t, len, &both, steps, last, 2).number == 0);
    o_list one = o_one(10);
    steps = derived(t, len, &one);
    for (size_t k = 0; k < steps; k++)
        if (taken[k][0] == 82)
            for (unsigned p = 0; p < 4; p++)
                moved(t, len, &one, steps, k, p);
    printf("positions\n");
}

/* 2,012 ANDs of the three nodes before each, and an AND of the last with the first point's negation: held one after another, behind 64
 * goals, they have over 6,000 clauses before the conflict. */
static void longest(void)
{
    static uint8_t r[2016][8], t[16384];
    for (unsigned i = 0; i < 2015; i++)
        if (i < 3)
            rec(r[i], 2, i, 0);
        else
            rec3(r[i], 7, 2 * i - 6, 2 * i - 4, 2 * i - 2);
    rec(r[2015], 3, 1, 2 * 2014);
    size_t len = o_build(t, (const uint8_t (*)[8])r, 2016);
    o_list g = { 64, { 0 } };
    for (size_t i = 0; i < 64; i++)
        g.goal[i] = 2 * 2014;
    EXPECT(derived(t, len, &g) == 0);
    bev_decided v = bev_decide(t, len, g.goal, 64, out, ROOM, work, BEV_WORK);
    EXPECT(v.number == 0 && v.possible == 1 && out[0] == 1 && out[1] == 1 && out[2] == 1 && out[3] == 2 && whole());
    g.goal[0] = 2 * 2015;
    size_t steps = derived(t, len, &g);
    EXPECT(steps > 2010);
    printf("longest: %zu steps\n", steps);
}

/* The same table with each three as two pairs, by the library's own adds; the literals as they are there. 0 where two operands become one
 * node, which add refuses. */
static size_t paired(const uint8_t *t, size_t nodes, uint8_t *u, unsigned *to)
{
    size_t used = 0;
    for (size_t n = 0; n < nodes; n++) {
        o_node x = o_get(o_at(t, n));
        uint8_t r[8];
        int some = o_operands(&x) > 0;
        rec(r, x.kind > 6 ? x.kind - 4u : x.kind, some ? to[x.a] : x.a, some ? to[x.b] : x.b);
        bev_added v = bev_add(u, 16384, used, r);
        if (x.kind > 6 && v.number == 0) {
            rec(r, x.kind - 4u, (unsigned)v.literal, to[x.c]);
            v = bev_add(u, 16384, v.used, r);
        }
        if (v.number) {
            EXPECT(v.number == 16);
            return 0;
        }
        used = v.used;
        to[2 * n] = (unsigned)v.literal;
        to[2 * n + 1] = (unsigned)v.literal + 1;
    }
    return used;
}

static void as_pairs(void)
{
    static uint8_t t[16384], u[16384], s[1024], p[1024];
    static unsigned to[600];
    unsigned long verdicts[2] = { 0, 0 };
    for (int round = 0; round < 1500 && !failed; round++) {
        unsigned points = 3 + pick(5);
        size_t n = points + 1 + pick(24), len = random_table(t, points, n), used = paired(t, n, u, to);
        if (used == 0)
            continue;
        for (unsigned i = 0; i < points; i++)
            s[i] = (uint8_t)pick(3);
        for (size_t l = 0; l < 2 * n; l++)
            EXPECT(bev_evaluate(t, len, l, s, 1024).truth == bev_evaluate(u, used, to[l], s, 1024).truth);
        for (int k = 0; k < 10; k++) {
            o_list g = random_list(t, points, n), h = g;
            for (size_t i = 0; i < g.count; i++)
                h.goal[i] = (uint16_t)to[g.goal[i]];
            bev_decided v = bev_decide(t, len, g.goal, g.count, p, 1024, work, BEV_WORK);
            EXPECT(v.number == 0 && v.possible == bev_decide(u, used, h.goal, h.count, p, 1024, work, BEV_WORK).possible);
            verdicts[v.possible]++;
        }
    }
    printf("as pairs: %lu possible, %lu impossible\n", verdicts[1], verdicts[0]);
    EXPECT(verdicts[0] > 4000 && verdicts[1] > 4000);
}

int main(void)
{
    guard();
    positions();
    longest();
    as_pairs();
    printf("%lu checks, %lu failed\n", checks, failed);
    return failed ? 1 : 0;
}
