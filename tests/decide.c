/* bev_decide, and bev_evaluate where points may go either way, as a host calls them: single goals and lists against truth tables by
 * brute force and against the solver's order in plain C (verdict and every settings byte), every refusal with its place, canaries round
 * each buffer, and the deepest table in a thread of 1 MiB. */
#include "../include/bevaridhom.h"
#include "order.h"
#include "tables.h"
#include <pthread.h>

/* Whether every way of filling the 2s of the first points makes every goal true. */
static int filled(const uint8_t *t, const uint8_t *s, unsigned points, const o_list *g)
{
    static uint8_t f[1024];
    memcpy(f, s, 1024);
    for (unsigned w = 0; w < 1u << points; w++) {
        for (unsigned p = 0; p < points; p++)
            f[p] = s[p] == 2 ? w >> p & 1 : s[p];
        if (!o_all_true(t, f, g))
            return 0;
    }
    return 1;
}

/* Decide of a list, which one setting must make true as a whole. The verdict. */
static int goals_are(const uint8_t *t, size_t len, const o_list *g, unsigned points)
{
    static uint8_t s[1100], old[1100], right[1024];
    o_list lent = *g;
    for (int i = 0; i < 1100; i++)
        old[i] = s[i] = (uint8_t)pick(256);
    int possible = o_decide(t, g, right, NULL);
    bev_decided v = bev_decide(t, len, lent.goal, lent.count, s, 1100, work, BEV_WORK);
    EXPECT(v.number == 0 && v.place == 0 && v.possible == possible && memcmp(lent.goal, g->goal, sizeof lent.goal) == 0);
    EXPECT(memcmp(s, possible ? right : old, 1024) == 0 && memcmp(s + 1024, old + 1024, 76) == 0 && whole());
    EXPECT(possible == by_truth_table(t, points, g));
    if (possible) {
        EXPECT(filled(t, s, points, g));
        for (size_t i = 0; i < g->count; i++)
            EXPECT(bev_evaluate(t, len, g->goal[i], s, 1024).truth == 1);
    }
    return possible;
}

/* Each literal of random tables by itself. */
static void single_goals(void)
{
    static uint8_t t[16384];
    unsigned long verdicts[2] = { 0, 0 };
    for (int round = 0; round < 1500 && !failed; round++) {
        unsigned points = 2 + pick(6);
        size_t n = points + 1 + pick(24), len = random_table(t, points, n);
        for (size_t l = 0; l < 2 * n && !failed; l++) {
            o_list g = o_one(l);
            verdicts[goals_are(t, len, &g, points)]++;
        }
    }
    printf("single goals: %lu possible, %lu impossible\n", verdicts[1], verdicts[0]);
    EXPECT(verdicts[0] > 3000 && verdicts[1] > 3000);
}

/* Whether a list has a goal twice, or a goal and its negation. */
static int has_pair(const o_list *g, unsigned apart)
{
    for (size_t i = 0; i < g->count; i++)
        for (size_t j = 0; j < i; j++)
            if ((g->goal[i] ^ g->goal[j]) == apart)
                return 1;
    return 0;
}

/* Lists of 1 to 64 goals. */
static void random_lists(void)
{
    static uint8_t t[16384];
    unsigned long verdicts[2] = { 0, 0 }, repeats = 0, opposites = 0, longest = 0;
    for (int round = 0; round < 12000 && !failed; round++) {
        unsigned points = 2 + pick(6);
        size_t n = points + 1 + pick(24), len = random_table(t, points, n);
        o_list g = random_list(t, points, n);
        verdicts[goals_are(t, len, &g, points)]++;
        repeats += (unsigned)has_pair(&g, 0);
        opposites += (unsigned)has_pair(&g, 1);
        longest += g.count == 64;
    }
    printf("random lists: %lu possible, %lu impossible, %lu with repeats, %lu with opposite literals\n", verdicts[1], verdicts[0], repeats, opposites);
    EXPECT(verdicts[0] > 3000 && verdicts[1] > 3000 && repeats > 3000 && opposites > 1000 && longest > 20);
}

/* Points that may go either way: strong Kleene tables, and a yes or no holds for every way of filling the 2s. */
static void unknowns(void)
{
    static uint8_t t[16896], s[1024];
    unsigned long seen[3] = { 0, 0, 0 };
    for (int round = 0; round < 600; round++) {
        unsigned points = 2 + pick(5);
        size_t n = points + 1 + pick(24), len = random_table(t, points, n);
        memset(s, 2, 1024);
        for (unsigned p = 0; p < points; p++)
            s[p] = (uint8_t)pick(3);
        for (size_t l = 0; l < 2 * n; l++) {
            bev_truth v = bev_evaluate(t, len, l, s, 1024);
            o_list told = o_one(v.truth ? l : l ^ 1);
            EXPECT(v.number == 0 && v.truth == o_kleene(t, s, l));
            EXPECT(v.truth == 2 || filled(t, s, points, &told));
            seen[v.truth]++;
        }
    }
    printf("unknowns: %lu no, %lu yes, %lu unknown\n", seen[0], seen[1], seen[2]);
    EXPECT(seen[0] > 3000 && seen[1] > 3000 && seen[2] > 3000);
}

static uint8_t small[512], kept[1024];

/* TRUE and a point: literals 0 to 3. */
static size_t small_table(void)
{
    static uint8_t r[2][8];
    rec(r[0], 1, 0, 0);
    rec(r[1], 2, 5, 0);
    return o_build(small, (const uint8_t (*)[8])r, 2);
}

static int refused(bev_decided v, unsigned number, size_t place) { return v.number == number && v.place == place && v.possible == 0; }

/* The order of the rows, by calls that several apply to. */
static void rows(size_t len)
{
    static const uint16_t good = 3, bad = 4;
    EXPECT(refused(bev_decide(small, 511, NULL, 0, kept, 0, work, 0), 10, 0));
    EXPECT(refused(bev_decide(NULL, 0, NULL, 0, NULL, 0, NULL, 0), 10, 0));
    EXPECT(refused(bev_decide(small, len, NULL, 0, kept, 0, work, 0), 62, 0));
    EXPECT(refused(bev_decide(small, len, &bad, 1, kept, 0, work, 0), 20, 0));
    EXPECT(refused(bev_decide(small, len, &good, 1, kept, 1023, work, 0), 21, 0));
    EXPECT(refused(bev_decide(small, len, &good, 1, NULL, 0, work, BEV_WORK), 21, 0));
    EXPECT(refused(bev_decide(small, len, &good, 1, kept, 1024, work, BEV_WORK - 1), 23, 0));
    EXPECT(refused(bev_decide(small, len, &good, 1, kept, 1024, NULL, 0), 23, 0));
    small[3] = 1;
    EXPECT(refused(bev_decide(small, len, &good, 1, kept, 1024, work, BEV_WORK), 11, 0));
    EXPECT(refused(bev_decide(small, len, NULL, 0, kept, 1024, work, BEV_WORK), 11, 0));
    small[3] = 0;
}

/* Rows 62 and 20 of lists: the length first, then the first goal that is none. */
static void list_rows(size_t len)
{
    uint16_t g[65];
    for (int i = 0; i < 65; i++)
        g[i] = 65535;
    EXPECT(refused(bev_decide(small, len, g, 0, kept, 1024, work, BEV_WORK), 62, 0));
    EXPECT(refused(bev_decide(small, len, g, 65, kept, 1024, work, BEV_WORK), 62, 0));
    EXPECT(refused(bev_decide(small, len, g, 64, kept, 1024, work, BEV_WORK), 20, 0));
    for (uint16_t bad = 4; bad != 0; bad = bad < 5 ? 5 : bad < 4032 ? 4032 : bad < 65535 ? 65535 : 0)
        for (size_t at = 0; at < 64; at++) {
            for (size_t i = 0; i < 65; i++)
                g[i] = (uint16_t)(i < at ? pick(4) : i == at ? bad : pick(6));
            EXPECT(refused(bev_decide(small, len, g, 64, kept, 0, work, 0), 20, at));
            EXPECT(refused(bev_decide(small, len, g, at + 1, kept, 1024, work, BEV_WORK), 20, at));
            EXPECT(refused(bev_decide(small, len, g, at, kept, 0, work, 0), at ? 21 : 62, 0));
        }
    for (int round = 0; round < 2000; round++) {
        o_list any = any_list(2);
        o_told v = o_goals(&any, 2);
        EXPECT(refused(bev_decide(small, len, any.goal, any.count, kept, 1023, work, BEV_WORK), v.number ? v.number : 21, v.place));
    }
}

static void refusals(void)
{
    size_t len = small_table();
    memset(kept, 9, 1024);
    for (int i = 0; i < BEV_WORK; i++)
        work[i] = (uint16_t)i;
    rows(len);
    list_rows(len);
    for (int i = 0; i < BEV_WORK; i++)
        if (work[i] != (uint16_t)i) {
            EXPECT(!"the work area changed before row 23 passed");
            break;
        }
    for (int i = 0; i < 1024; i++)
        if (kept[i] != 9) {
            EXPECT(!"the settings changed on a refusal");
            break;
        }
    EXPECT(whole());
    printf("refusals\n");
}

static uint8_t deep[16384], deep_settings[1024];
static bev_decided deep_answer[2];

static const o_list deep_goals[2] = { { 1, { 2 * 2015 } }, { 2, { 2 * 2015 + 1, 2 } } };

static void *decide_deep(void *unused)
{
    for (int i = 0; i < 2; i++)
        deep_answer[i] = bev_decide(deep, 16384, deep_goals[i].goal, deep_goals[i].count, deep_settings, 1024, work, BEV_WORK);
    return unused;
}

static void deepest(void)
{
    pthread_attr_t stack;
    pthread_t thread;
    deep_table(deep);
    EXPECT(bev_count(deep, 16384).nodes == 2016);
    pthread_attr_init(&stack);
    EXPECT(pthread_attr_setstacksize(&stack, 1 << 20) == 0);
    EXPECT(pthread_create(&thread, &stack, decide_deep, NULL) == 0);
    pthread_join(thread, NULL);
    static uint8_t s[1024];
    EXPECT(deep_answer[0].possible == 0);
    for (int i = 0; i < 2; i++)
        EXPECT(deep_answer[i].number == 0 && deep_answer[i].possible == o_decide(deep, &deep_goals[i], s, NULL));
    printf("deepest: %d %d\n", deep_answer[0].possible, deep_answer[1].possible);
}

int main(void)
{
    guard();
    refusals();
    single_goals();
    random_lists();
    unknowns();
    deepest();
    EXPECT(whole());
    printf("%lu checks, %lu failed\n", checks, failed);
    return failed ? 1 : 0;
}
