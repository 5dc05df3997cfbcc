/* bev_clash as a host calls it: lists of goals against the walk of the request in plain C, whose questions go to truth tables by brute
 * force; leaving each goal kept out; lists that need all 64; every refusal with its place; canaries round the work area; damaged tables;
 * and the deepest table in a thread of 1 MiB. */
#include "../include/bevaridhom.h"
#include "order.h"
#include "tables.h"
#include <pthread.h>

/* The goals at some indices, as a list. */
static o_list chosen(const o_list *g, const uint8_t *index, size_t count)
{
    o_list few = { count, { 0 } };
    for (size_t i = 0; i < count; i++)
        few.goal[i] = g->goal[index[i]];
    return few;
}

/* The indices without the one at a place. */
static size_t without(uint8_t *to, const uint8_t *index, size_t count, size_t place)
{
    size_t left = 0;
    for (size_t i = 0; i < count; i++)
        if (i != place)
            to[left++] = index[i];
    return left;
}

/* 'Walk the list from last to first, dropping a goal if the remaining ones are still impossible together': how many are kept; 0 where the
 * goals are possible together. */
static size_t o_clash(const uint8_t *t, unsigned points, const o_list *g, uint8_t *kept)
{
    size_t count = g->count;
    if (by_truth_table(t, points, g))
        return 0;
    for (size_t i = 0; i < count; i++)
        kept[i] = (uint8_t)i;
    for (size_t at = count; at-- > 0;) {
        uint8_t rest[64];
        size_t left = without(rest, kept, count, at);
        o_list remaining = chosen(g, rest, left);
        if (!by_truth_table(t, points, &remaining)) {
            memcpy(kept, rest, left);
            count = left;
        }
    }
    return count;
}

/* The entries past the count are 0. */
static int rest_is_zero(const bev_clashed *v)
{
    for (size_t i = v->count; i < 64; i++)
        if (v->kept[i])
            return 0;
    return 1;
}

static int refused(bev_clashed v, unsigned number, size_t place) { return v.number == number && v.place == place && v.count == 0 && rest_is_zero(&v); }

/* What the answer says, by truth tables: impossible together, and possible without any single one. */
static void are_few(const uint8_t *t, unsigned points, const o_list *g, const bev_clashed *v)
{
    o_list all = chosen(g, v->kept, v->count);
    EXPECT(!by_truth_table(t, points, &all));
    for (size_t i = 0; i < v->count; i++) {
        uint8_t rest[64];
        o_list others = chosen(g, rest, without(rest, v->kept, v->count, i));
        EXPECT(by_truth_table(t, points, &others));
        EXPECT(i == 0 || v->kept[i - 1] < v->kept[i]);
    }
}

/* Clash of a list; how many are kept, 0 where the goals are possible together. */
static size_t clash_of(const uint8_t *t, size_t len, const o_list *g, unsigned points)
{
    static uint8_t lent[16384];
    uint8_t right[64];
    o_list goals = *g;
    size_t count = o_clash(t, points, g, right);
    memcpy(lent, t, len);
    bev_clashed v = bev_clash(lent, len, goals.goal, goals.count, work, BEV_WORK);
    EXPECT(memcmp(lent, t, len) == 0 && memcmp(goals.goal, g->goal, sizeof goals.goal) == 0 && whole());
    if (count == 0) {
        EXPECT(refused(v, 63, 0));
        return 0;
    }
    EXPECT(v.number == 0 && v.place == 0 && v.count == count && memcmp(v.kept, right, count) == 0 && rest_is_zero(&v));
    are_few(t, points, g, &v);
    return count;
}

/* 'point 0 or point 1', point 0, not point 0, point 1; a goal that clashes alone; repeats; goals that do not clash. */
static void samples(void)
{
    static const uint8_t records[10][3] = { { 2, 0, 0 }, { 2, 1, 0 }, { 3, 0, 2 }, { 4, 0, 2 }, { 5, 0, 2 }, { 6, 0, 2 }, { 1, 0, 0 }, { 3, 4, 7 }, { 6, 0, 3 }, { 3, 10, 16 } };
    static const o_list lists[] = { { 4, { 6, 0, 1, 2 } }, { 2, { 0, 14 } }, { 4, { 0, 1, 0, 1 } }, { 1, { 13 } }, { 3, { 13, 13, 13 } }, { 3, { 18, 10, 16 } }, { 2, { 6, 2 } } };
    static const bev_clashed told[] = { { 0, 0, 2, { 1, 2 } }, { 0, 0, 1, { 1 } }, { 0, 0, 2, { 0, 1 } }, { 0, 0, 1, { 0 } }, { 0, 0, 1, { 0 } }, { 0, 0, 1, { 0 } }, { 63, 0, 0, { 0 } } };
    static uint8_t r[10][8], t[512];
    for (int i = 0; i < 10; i++)
        rec(r[i], records[i][0], records[i][1], records[i][2]);
    size_t len = o_build(t, (const uint8_t (*)[8])r, 10);
    for (size_t i = 0; i < sizeof lists / sizeof *lists; i++) {
        bev_clashed v = bev_clash(t, len, lists[i].goal, lists[i].count, work, BEV_WORK);
        EXPECT(v.number == told[i].number && v.place == 0 && v.count == told[i].count && memcmp(v.kept, told[i].kept, 64) == 0);
        clash_of(t, len, &lists[i], 2);
    }
}

static void random_lists(void)
{
    static uint8_t t[16384];
    unsigned long kept[65] = { 0 }, several = 0;
    for (int round = 0; round < 8000 && !failed; round++) {
        unsigned points = 2 + pick(6);
        size_t n = points + 1 + pick(24), len = random_table(t, points, n);
        o_list g = random_list(t, points, n);
        kept[clash_of(t, len, &g, points)]++;
    }
    for (int i = 3; i <= 64; i++)
        several += kept[i];
    printf("random lists: %lu possible, %lu keep one goal, %lu two, %lu more\n", kept[0], kept[1], kept[2], several);
    EXPECT(kept[0] > 1000 && kept[1] > 500 && kept[2] > 500 && several > 200);
}

/* Points 0 to m - 1, and that not all of them are yes: of the m + 1 goals all are needed. Behind them others that clash with none. */
static void all_needed(void)
{
    static uint8_t r[200][8], t[2048];
    for (unsigned m = 1; m <= 63; m++) {
        unsigned n = 0, all = 0;
        o_list g = { 0, { 0 } };
        for (; n < m; n++)
            rec(r[n], 2, n, 0);
        for (unsigned i = 1; i < m; i++, n++) {
            rec(r[n], 3, i == 1 ? 0 : 2 * i, i == 1 ? 2 : 2 * (n - 1));
            all = 2 * n;
        }
        size_t len = o_build(t, (const uint8_t (*)[8])r, n);
        for (unsigned i = 0; i < m; i++)
            g.goal[g.count++] = (uint16_t)(2 * i);
        unsigned at = pick(m + 1);
        memmove(g.goal + at + 1, g.goal + at, 2 * (m - at));
        g.goal[at] = (uint16_t)(all + 1);
        g.count = m + 1;
        bev_clashed v = bev_clash(t, len, g.goal, g.count, work, BEV_WORK);
        EXPECT(v.number == 0 && v.count == m + 1 && rest_is_zero(&v));
        for (unsigned i = 0; i <= m; i++)
            EXPECT(v.kept[i] == i);
        for (; g.count < 64; g.count++)
            g.goal[g.count] = (uint16_t)(2 * pick(m));
        v = bev_clash(t, len, g.goal, 64, work, BEV_WORK);
        EXPECT(v.number == 0 && v.count == m + 1 && rest_is_zero(&v));
        for (unsigned i = 0; i <= m; i++)
            EXPECT(v.kept[i] == i);
    }
    printf("all needed\n");
}

static uint8_t small[512];

static size_t small_table(void)
{
    static uint8_t r[2][8];
    rec(r[0], 1, 0, 0);
    rec(r[1], 2, 5, 0);
    return o_build(small, (const uint8_t (*)[8])r, 2);
}

/* The order of the rows, by calls that several apply to; 63 is behind all others. */
static void refusals(void)
{
    static const uint16_t can[2] = { 0, 3 }, bad[2] = { 3, 4 };
    uint16_t g[65] = { 0 };
    size_t len = small_table();
    for (int i = 0; i < BEV_WORK; i++)
        work[i] = (uint16_t)i;
    EXPECT(refused(bev_clash(NULL, 0, NULL, 0, NULL, 0), 10, 0));
    EXPECT(refused(bev_clash(small, 511, NULL, 0, work, 0), 10, 0));
    EXPECT(refused(bev_clash(small, len, NULL, 0, work, 0), 62, 0));
    EXPECT(refused(bev_clash(small, len, g, 0, work, BEV_WORK), 62, 0));
    EXPECT(refused(bev_clash(small, len, g, 65, work, BEV_WORK), 62, 0));
    EXPECT(refused(bev_clash(small, len, bad, 2, work, 0), 20, 1));
    EXPECT(refused(bev_clash(small, len, can, 2, work, BEV_WORK - 1), 23, 0));
    EXPECT(refused(bev_clash(small, len, can, 2, NULL, 0), 23, 0));
    for (int round = 0; round < 3000; round++) {
        o_list any = any_list(2);
        o_told v = o_goals(&any, 2);
        EXPECT(refused(bev_clash(small, len, any.goal, any.count, work, BEV_WORK - 1), v.number ? v.number : 23, v.place));
    }
    small[3] = 1;
    EXPECT(refused(bev_clash(small, len, NULL, 0, work, 0), 11, 0));
    small[3] = 0;
    for (int i = 0; i < BEV_WORK; i++)
        if (work[i] != (uint16_t)i) {
            EXPECT(!"the work area changed before row 23 passed");
            break;
        }
    EXPECT(refused(bev_clash(small, len, can, 2, work, BEV_WORK), 63, 0));
    EXPECT(whole());
    printf("refusals\n");
}

/* One byte changed, and sealed again or not: the rows of the table, as the oracle reads it. */
static void damaged(void)
{
    static uint8_t t[16384];
    unsigned long turned = 0;
    for (int round = 0; round < 4000; round++) {
        size_t n = 3 + pick(200), len = random_table(t, 3, n), at = pick((unsigned)len);
        t[at] ^= (uint8_t)(1 + pick(255));
        if (pick(3))
            o_seal(t + 512 * (at / 512));
        o_read r = o_table(t, len);
        o_list g = { 2, { 0, 1 } };
        bev_clashed v = bev_clash(t, len, g.goal, 2, work, BEV_WORK);
        EXPECT(r.number ? refused(v, r.number, r.place) : v.number == 0 && v.count >= 1);
        turned += r.number != 0;
    }
    printf("damaged: %lu of 4000 refused\n", turned);
    EXPECT(turned > 2000 && turned < 4000);
}

static uint8_t deep[16384];
static bev_clashed deep_answer;

static void *clash_deep(void *unused)
{
    uint16_t g[64];
    for (int i = 0; i < 64; i++)
        g[i] = i == 40 ? 2 * 2015 : 2;
    deep_answer = bev_clash(deep, 16384, g, 64, work, BEV_WORK);
    return unused;
}

static void deepest(void)
{
    pthread_attr_t stack;
    pthread_t thread;
    deep_table(deep);
    pthread_attr_init(&stack);
    EXPECT(pthread_attr_setstacksize(&stack, 1 << 20) == 0);
    EXPECT(pthread_create(&thread, &stack, clash_deep, NULL) == 0);
    pthread_join(thread, NULL);
    EXPECT(deep_answer.number == 0 && deep_answer.count == 1 && deep_answer.kept[0] == 40 && rest_is_zero(&deep_answer));
    printf("deepest: %zu kept\n", deep_answer.count);
}

int main(void)
{
    guard();
    refusals();
    samples();
    random_lists();
    all_needed();
    damaged();
    deepest();
    EXPECT(whole());
    printf("%lu checks, %lu failed\n", checks, failed);
    return failed ? 1 : 0;
}
