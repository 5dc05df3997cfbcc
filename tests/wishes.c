/* bev_wishes as a host calls it, against an independent reading in plain C: the subsets sorted, each put to a truth table by brute force,
 * for every allowance from none to one more than there are questions; the settings against the solver's order; the promises over all
 * settings; 65,535 questions; every refusal with its place, and canaries round the work area. */
#include "../include/bevaridhom.h"
#include "order.h"
#include "tables.h"

enum { POINTS = 6, WISHES = 6, SETTINGS = 1 << POINTS };

/* A table with goals and wishes, and of each setting of its points whether it meets the goals, and which wishes it meets. */
static struct {
    uint8_t t[16384];
    size_t len, nodes;
    unsigned points;
    o_list goals, wishes;
    int meets[SETTINGS];
    unsigned met[SETTINGS];
} at;

static unsigned size_of(unsigned subset)
{
    unsigned n = 0;
    for (; subset; subset &= subset - 1)
        n++;
    return n;
}

/* Falling size, then the dictionary order of the rising index lists: of two lists of a size, the one with the lowest index that only one
 * of them has. */
static int compare(const void *x, const void *y)
{
    unsigned a = *(const unsigned *)x, b = *(const unsigned *)y, apart = a ^ b;
    if (size_of(a) != size_of(b))
        return size_of(a) < size_of(b) ? 1 : -1;
    return a & (apart & -apart) ? -1 : 1;
}

static size_t all_questions(unsigned *subset, size_t wishes)
{
    size_t n = 0;
    for (unsigned s = 1; s < 1u << wishes; s++)
        subset[n++] = s;
    qsort(subset, n, sizeof *subset, compare);
    return n;
}

static void look_through_settings(void)
{
    static uint8_t s[1024];
    for (unsigned w = 0; w < 1u << at.points; w++) {
        for (unsigned p = 0; p < at.points; p++)
            s[p] = w >> p & 1;
        at.meets[w] = o_all_true(at.t, s, &at.goals);
        at.met[w] = 0;
        for (size_t i = 0; i < at.wishes.count; i++)
            at.met[w] |= (unsigned)o_truth(at.t, s, at.wishes.goal[i]) << i;
    }
}

static int is_met(unsigned subset)
{
    for (unsigned w = 0; w < 1u << at.points; w++)
        if (at.meets[w] && (at.met[w] & subset) == subset)
            return 1;
    return 0;
}

/* What is to be answered, and the question whose setting stands. */
typedef struct { size_t met, bound, questions; unsigned stands; } wanted;

static wanted by_brute_force(const unsigned *subset, size_t count, size_t allowance)
{
    wanted v = { 0, count ? at.wishes.count : 0, 0, 0 };
    while (v.met < v.bound && v.questions < allowance) {
        unsigned q = subset[v.questions++];
        if (is_met(q)) {
            v.met = v.bound = size_of(q);
            v.stands = q;
        } else
            v.bound = v.questions < count ? size_of(subset[v.questions]) : 0;
    }
    return v;
}

static void right_setting(unsigned question, uint8_t settings[1024])
{
    o_list g = at.goals;
    for (size_t i = 0; i < at.wishes.count; i++)
        if (question >> i & 1)
            g.goal[g.count++] = at.wishes.goal[i];
    EXPECT(o_decide(at.t, &g, settings, NULL) == 1);
}

/* The promises over all settings: what is met for certain, and that nothing more is to be had than the bound. */
static void promises(bev_wished v, const uint8_t *s)
{
    for (unsigned w = 0; w < 1u << at.points; w++) {
        int fills = 1;
        for (unsigned p = 0; p < at.points; p++)
            fills &= s[p] == 2 || s[p] == (w >> p & 1);
        EXPECT(!fills || (at.meets[w] && size_of(at.met[w]) >= v.met));
        EXPECT(!at.meets[w] || size_of(at.met[w]) <= v.bound);
    }
}

static unsigned long runs, by_end[3]; /* 67, some wishes refused in the end, all met */

/* Every allowance from none to one more than there are questions. */
static void every_allowance(void)
{
    static uint8_t s[1100], old[1100], right[1024];
    unsigned subset[1 << WISHES];
    size_t count = all_questions(subset, at.wishes.count);
    bev_wished before = { 0, 0, 0, at.wishes.count, 0 };
    look_through_settings();
    for (size_t allowance = 0; allowance <= count + 1 && !failed; allowance++) {
        for (int i = 0; i < 1100; i++)
            old[i] = s[i] = (uint8_t)pick(256);
        bev_wished v = bev_wishes(at.t, at.len, at.goals.goal, at.goals.count, at.wishes.goal, at.wishes.count, allowance, s, 1100, work, BEV_WORK);
        runs++;
        if (!is_met(0)) {
            EXPECT(v.number == 67 && v.place == 0 && v.met == 0 && v.bound == 0 && v.questions == 0 && memcmp(s, old, 1100) == 0 && whole());
            by_end[0]++;
            continue;
        }
        wanted x = by_brute_force(subset, count, allowance);
        EXPECT(v.number == 0 && v.place == 0 && v.met == x.met && v.bound == x.bound && v.questions == x.questions);
        right_setting(x.stands, right);
        EXPECT(memcmp(s, right, 1024) == 0 && memcmp(s + 1024, old + 1024, 76) == 0 && whole());
        EXPECT(v.questions <= allowance && (v.met == v.bound || v.questions == allowance));
        EXPECT(v.met >= before.met && v.bound <= before.bound && (allowance < count || v.met == v.bound));
        promises(v, s);
        before = v;
        by_end[v.met == at.wishes.count ? 2 : 1]++;
    }
}

static void random_wishes(void)
{
    for (int round = 0; round < 2500 && !failed; round++) {
        at.points = 2 + pick(POINTS - 1);
        at.nodes = at.points + 1 + pick(20);
        at.len = random_table(at.t, at.points, at.nodes);
        at.goals = random_list(at.t, at.points, at.nodes);
        at.wishes.count = pick(WISHES + 1);
        if (pick(3))
            at.goals.count = 1;
        for (size_t i = 0; i < at.wishes.count; i++)
            at.wishes.goal[i] = i && pick(6) == 0 ? at.wishes.goal[pick((unsigned)i)] ^ (uint16_t)pick(2) : (uint16_t)pick(2 * (unsigned)at.nodes);
        every_allowance();
    }
    printf("random wishes: %lu runs, %lu without goals met, %lu short of all wishes, %lu with all\n", runs, by_end[0], by_end[1], by_end[2]);
    EXPECT(by_end[0] > 1000 && by_end[1] > 10000 && by_end[2] > 1000);
}

static uint8_t small[512], kept[1024];
static uint16_t wish[17];

/* TRUE and a point: literals 0 to 3. */
static size_t small_table(void)
{
    static uint8_t r[2][8];
    rec(r[0], 1, 0, 0);
    rec(r[1], 2, 5, 0);
    return o_build(small, (const uint8_t (*)[8])r, 2);
}

/* 16 wishes of which none can be met, or only the last: as many questions as there can be. */
static void most_questions(void)
{
    size_t len = small_table();
    static const uint16_t goals[64] = { 0 };
    for (int i = 0; i < 16; i++)
        wish[i] = 1;
    for (size_t i = 0; i < 6; i++) {
        size_t allowance = i < 3 ? 65534 + i : i == 3 ? SIZE_MAX : i == 4 ? 65519 : 65518;
        bev_wished v = bev_wishes(small, len, goals, 64, wish, 16, allowance, kept, 1024, work, BEV_WORK);
        EXPECT(v.number == 0 && v.met == 0 && v.bound == (allowance < 65519 ? 2 : allowance < 65535) && v.questions == (allowance < 65535 ? allowance : 65535));
    }
    wish[15] = 3;
    bev_wished v = bev_wishes(small, len, goals, 64, wish, 16, SIZE_MAX, kept, 1024, work, BEV_WORK);
    EXPECT(v.met == 1 && v.bound == 1 && v.questions == 65535 && kept[5] == 0);
    wish[0] = 2;
    v = bev_wishes(small, len, goals, 64, wish, 16, SIZE_MAX, kept, 1024, work, BEV_WORK);
    EXPECT(v.met == 1 && v.bound == 1 && v.questions == 65520 && kept[5] == 1);
    for (int i = 0; i < 16; i++)
        wish[i] = 3;
    v = bev_wishes(small, len, goals, 64, wish, 16, 1, kept, 1024, work, BEV_WORK);
    EXPECT(v.met == 16 && v.bound == 16 && v.questions == 1 && kept[5] == 0 && kept[4] == 2);
    v = bev_wishes(small, len, goals, 64, NULL, 0, 7, kept, 1024, work, BEV_WORK);
    EXPECT(v.number == 0 && v.met == 0 && v.bound == 0 && v.questions == 0 && kept[5] == 2 && whole());
    printf("most questions\n");
}

static int refused(bev_wished v, unsigned number, size_t place) { return v.number == number && v.place == place && v.met == 0 && v.bound == 0 && v.questions == 0; }

static bev_wished ask(size_t len, const uint16_t *goals, size_t count, size_t wishes, size_t points, size_t numbers)
{
    return bev_wishes(small, len, goals, count, wish, wishes, 99, kept, points, work, numbers);
}

/* The order of the rows, by calls that several apply to: 10 to 17, 62, 66, 20, 21, 23, 67. */
static void rows(size_t len)
{
    uint16_t g[65];
    for (int i = 0; i < 65; i++)
        g[i] = 65535;
    for (int i = 0; i < 17; i++)
        wish[i] = 65535;
    EXPECT(refused(bev_wishes(NULL, 0, NULL, 0, NULL, 0, 0, NULL, 0, NULL, 0), 10, 0));
    EXPECT(refused(ask(511, g, 65, 17, 0, 0), 10, 0));
    EXPECT(refused(ask(len, g, 0, 17, 0, 0), 62, 0) && refused(ask(len, g, 65, 17, 0, 0), 62, 0));
    EXPECT(refused(ask(len, g, 64, 17, 0, 0), 66, 0) && refused(ask(len, g, 1, 17, 0, 0), 66, 0));
    EXPECT(refused(bev_wishes(small, len, g, 1, wish, SIZE_MAX / 2, 0, kept, 0, work, 0), 66, 0));
    EXPECT(refused(ask(len, g, 64, 16, 0, 0), 20, 0));
    for (size_t bad = 0; bad < 80; bad++) {
        for (size_t i = 0; i < 64; i++)
            g[i] = (uint16_t)(i < bad ? 0 : i == bad ? 4 : pick(6));
        for (size_t i = 0; i < 16; i++)
            wish[i] = (uint16_t)(64 + i < bad ? 3 : 64 + i == bad ? 4032 : pick(6));
        EXPECT(refused(ask(len, g, 64, 16, 0, 0), 20, bad) && refused(ask(len, g, 64, 16, 1024, BEV_WORK), 20, bad));
    }
    for (int i = 0; i < 64; i++)
        g[i] = 0;
    for (size_t bad = 0; bad < 16; bad++) {
        for (size_t i = 0; i < 16; i++)
            wish[i] = (uint16_t)(i == bad ? 65535 : 1);
        EXPECT(refused(ask(len, g, 3, 16, 0, 0), 20, 3 + bad) && refused(ask(len, g, 3, bad, 0, 0), 21, 0));
    }
    wish[0] = 1;
    g[0] = 1;
    EXPECT(refused(ask(len, g, 1, 1, 1023, 0), 21, 0) && refused(ask(len, g, 1, 1, 1024, BEV_WORK - 1), 23, 0));
    small[3] = 1;
    EXPECT(refused(ask(len, g, 0, 17, 1024, BEV_WORK), 11, 0));
    small[3] = 0;
    for (int i = 0; i < BEV_WORK; i++)
        if (work[i] != (uint16_t)i) {
            EXPECT(!"the work area changed before row 23 passed");
            break;
        }
    EXPECT(refused(ask(len, g, 1, 0, 1024, BEV_WORK), 67, 0) && refused(ask(len, g, 64, 1, 1024, BEV_WORK), 67, 0));
}

static void refusals(void)
{
    size_t len = small_table();
    memset(kept, 9, 1024);
    for (int i = 0; i < BEV_WORK; i++)
        work[i] = (uint16_t)i;
    rows(len);
    for (int i = 0; i < 1024; i++)
        if (kept[i] != 9) {
            EXPECT(!"the settings changed on a refusal");
            break;
        }
    EXPECT(whole());
    printf("refusals\n");
}

/* Any byte of the table changed: what table reading says, or an answer. */
static void damaged(void)
{
    static uint8_t t[16384], s[1024];
    uint16_t goal = 0, wishes[2] = { 1, 2 };
    for (int round = 0; round < 400; round++) {
        size_t len = random_table(t, 3, 8);
        size_t byte = pick(512);
        t[byte] ^= (uint8_t)(1 + pick(255));
        if (pick(2))
            o_seal(t);
        o_read r = o_table(t, len);
        bev_wished v = bev_wishes(t, len, &goal, 1, wishes, 2, 3, s, 1024, work, BEV_WORK);
        if (r.number)
            EXPECT(refused(v, r.number, r.place));
        else
            EXPECT(v.number == 0 || v.number == 67 || v.number == 20);
    }
    printf("damaged tables\n");
}

int main(void)
{
    guard();
    refusals();
    random_wishes();
    most_questions();
    damaged();
    EXPECT(whole());
    printf("%lu checks, %lu failed\n", checks, failed);
    return failed ? 1 : 0;
}
