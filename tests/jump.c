/* bev_decide's search: verdict, settings and the splits made against a search that jumps and against the plain order, both in plain C:
 * random tables of all kinds, clauses with early splits that have no part in the clash, more than 128 nested splits, and the deepest
 * table in a thread of 1 MiB. */
#include "jump.h"
#include "tables.h"
#include <pthread.h>

static unsigned long asked[2], jumped, skipped;

/* Decide of a list beside the search that jumps. */
static bev_decided as_jumping(const uint8_t *t, size_t len, const o_list *g)
{
    static uint8_t s[1024], right[1024], old[1024];
    memset(s, 7, 1024);
    memset(old, 7, 1024);
    int possible = j_decide(t, g, right, 128);
    bev_decided v = bev_decide(t, len, g->goal, g->count, s, 1024, work, BEV_WORK);
    EXPECT(v.number == 0 && v.place == 0 && v.possible == possible && v.splits == j_run.splits);
    EXPECT(memcmp(s, possible ? right : old, 1024) == 0 && whole());
    asked[possible]++;
    jumped += j_run.skipped != 0;
    skipped += j_run.skipped;
    return v;
}

/* The same, and the plain order, which makes no fewer splits. */
static void as_plain(const uint8_t *t, size_t len, const o_list *g)
{
    static uint8_t right[1024], s[1024];
    bev_decided v = as_jumping(t, len, g);
    unsigned long jumps = j_run.skipped;
    int possible = j_decide(t, g, right, 0);
    EXPECT(v.possible == possible && v.possible == o_decide(t, g, s, NULL) && v.splits <= j_run.splits);
    EXPECT((jumps == 0) <= (v.splits == j_run.splits) && (!possible || memcmp(s, right, 1024) == 0));
}

static void told(const char *what)
{
    printf("%s: %lu possible, %lu impossible, %lu that jump, %lu splits skipped\n", what, asked[1], asked[0], jumped, skipped);
    asked[0] = asked[1] = jumped = skipped = 0;
}

static void random_tables(void)
{
    static uint8_t t[16384];
    for (int round = 0; round < 4000 && !failed; round++) {
        unsigned points = 2 + pick(12);
        size_t n = points + 1 + pick(60), len = random_table(t, points, n);
        for (int i = 0; i < 4; i++) {
            o_list g = random_list(t, points, n);
            as_plain(t, len, &g);
        }
        o_list last = o_one(2 * n - 1 - pick(2));
        as_plain(t, len, &last);
    }
    EXPECT(asked[0] > 3000 && asked[1] > 3000 && jumped > 10);
    told("random tables");
}

/* ---- clauses */

static uint8_t built[2016][8];
static size_t nodes;

static unsigned node(unsigned kind, unsigned a, unsigned b)
{
    if ((kind == 3 || kind == 4 || kind == 6) && a / 2 > b / 2) {
        unsigned s = a;
        a = b;
        b = s;
    }
    uint8_t r[8];
    rec(r, kind, a, b);
    for (size_t m = 0; m < nodes; m++)
        if (memcmp(built[m], r, 8) == 0)
            return 2 * (unsigned)m;
    memcpy(built[nodes], r, 8);
    return 2 * (unsigned)nodes++;
}

static unsigned joined(unsigned kind, unsigned so_far, unsigned l)
{
    return so_far == 65535 || so_far / 2 == l / 2 ? l : node(kind, so_far, l);
}

/* A clause of literals of three neighbours of a ring of points from `low` on: ORs, seldom an IFF. */
static unsigned clause(unsigned low, unsigned points)
{
    unsigned c = 65535, at = pick(points), step = 1 + pick((points - 1) / 2);
    for (unsigned i = 0; i < 3; i++)
        c = joined(pick(20) ? 4 : 6, c, node(2, low + (at + i * step) % points, 0) + pick(2));
    return c;
}

/* Clauses over few points, then free pairs of points, each an OR, which split first: they have no part in the clash. */
static o_list free_in_front(uint8_t *t, size_t *len, unsigned pairs, unsigned points, unsigned clauses)
{
    unsigned all = 65535;
    nodes = 0;
    for (unsigned k = 0; k < clauses; k++)
        all = joined(3, all, clause(2 * pairs - (pairs && pick(40) == 0), points));
    for (unsigned i = 0; i < pairs; i++)
        all = joined(3, all, node(4, node(2, 2 * i, 0) + pick(2), node(2, 2 * i + 1, 0) + pick(2)));
    *len = o_build(t, (const uint8_t (*)[8])built, nodes);
    return o_one(all);
}

static void clauses(void)
{
    static uint8_t t[16384];
    size_t len;
    for (int round = 0; round < 2500 && !failed; round++) {
        unsigned points = 4 + pick(5);
        o_list g = free_in_front(t, &len, pick(6), points, 4 * points + pick(3 * points));
        as_plain(t, len, &g);
    }
    EXPECT(asked[0] > 500 && asked[1] > 300 && jumped > 300);
    told("clauses behind free points");
}

/* Two problems with no point in common under one goal. */
static void two_problems(void)
{
    static uint8_t t[16384];
    for (int round = 0; round < 1500 && !failed; round++) {
        unsigned all = 65535, points = 3 + pick(5);
        nodes = 0;
        for (unsigned problem = 0; problem < 2; problem++)
            for (unsigned k = (problem ? 2 : 6) * points; k > 0; k--)
                all = joined(3, all, clause(problem * points, points));
        o_list g = o_one(all);
        size_t len = o_build(t, (const uint8_t (*)[8])built, nodes);
        as_plain(t, len, &g);
    }
    EXPECT(asked[0] > 300 && jumped > 100);
    told("two problems under one goal");
}

/* ---- more than 128 nested splits */

static void past_128(void)
{
    static uint8_t t[16384];
    size_t len;
    unsigned long past = 0;
    for (int round = 0; round < 60 && !failed; round++) {
        unsigned points = 4 + pick(4);
        o_list g = free_in_front(t, &len, 122 + pick(12), points, 4 * points + pick(4 * points));
        as_jumping(t, len, &g);
        past += j_run.deepest > 129;
    }
    EXPECT(past > 20 && asked[0] > 10 && asked[1] > 10);
    told("more than 128 nested splits");
}

static uint8_t deep[16384], deep_settings[1024];
static bev_decided deep_answer;
static const o_list deep_goal = { 1, { 2 * 2015 } };

static void *decide_deep(void *unused)
{
    deep_answer = bev_decide(deep, 16384, deep_goal.goal, 1, deep_settings, 1024, work, BEV_WORK);
    return unused;
}

static void deepest(void)
{
    pthread_attr_t stack;
    pthread_t thread;
    static uint8_t s[1024];
    deep_table(deep);
    pthread_attr_init(&stack);
    EXPECT(pthread_attr_setstacksize(&stack, 1 << 20) == 0);
    EXPECT(pthread_create(&thread, &stack, decide_deep, NULL) == 0);
    pthread_join(thread, NULL);
    EXPECT(deep_answer.number == 0 && deep_answer.possible == j_decide(deep, &deep_goal, s, 128));
    EXPECT(deep_answer.splits == j_run.splits && j_run.deepest > 2000);
    printf("deepest: %u splits, %lu nested\n", deep_answer.splits, (unsigned long)j_run.deepest);
}

/* A refusal has no splits. */
static void refusals(void)
{
    static const uint16_t goal = 2 * 2016;
    bev_decided v = bev_decide(deep, 16384, &goal, 1, deep_settings, 1024, work, BEV_WORK);
    EXPECT(v.number == 20 && v.splits == 0);
}

int main(void)
{
    guard();
    random_tables();
    clauses();
    two_problems();
    past_128();
    deepest();
    refusals();
    EXPECT(whole());
    printf("%lu checks, %lu failed\n", checks, failed);
    return failed ? 1 : 0;
}
