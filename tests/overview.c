/* bev_overview as a host calls it: each byte against truth tables by brute force and against bev_decide of the goal by itself, repeats
 * included; every byte that is not a goal's stays; every refusal with its place, in its order; and lists of 1 to 256 on full tables. */
#include "../include/bevaridhom.h"
#include "order.h"
#include "tables.h"

enum { LENT = 300, OLD = 170 };
static uint8_t answers[LENT + 2 * GUARD], *const bytes = answers + GUARD;
static uint16_t asked[BEV_ASKED + 1];

static void fresh(void) { memset(answers, OLD, sizeof answers); }

/* All answer bytes from an index on, and those round them, are as they were. */
static int stays(size_t from)
{
    for (size_t i = 0; i < sizeof answers; i++)
        if (answers[i] != OLD && (i < GUARD || i >= GUARD + from))
            return 0;
    return 1;
}

static int refused(bev_answered v, unsigned number, size_t place) { return v.number == number && v.place == place && stays(0); }

/* What decide says of a goal by itself. */
static int decided(const uint8_t *t, size_t len, uint16_t goal)
{
    static uint8_t s[BEV_POINTS];
    bev_decided v = bev_decide(t, len, &goal, 1, s, BEV_POINTS, work, BEV_WORK);
    EXPECT(v.number == 0);
    return v.possible;
}

/* Lists of random tables, with as many answer bytes as goals or more. */
static void random_lists(void)
{
    static uint8_t t[16384], lent[16384], right[2 * 300];
    unsigned long seen[2] = { 0, 0 }, longest = 0;
    for (int round = 0; round < 2500 && !failed; round++) {
        unsigned points = 2 + pick(6);
        size_t n = points + 1 + pick(24), len = random_table(t, points, n), count = pick(8) ? 1 + pick(40) : 250 + pick(7);
        for (size_t l = 0; l < 2 * n; l++) {
            o_list g = o_one(l);
            right[l] = (uint8_t)by_truth_table(t, points, &g);
        }
        for (size_t i = 0; i < count; i++)
            asked[i] = (uint16_t)pick(2 * (unsigned)n);
        memcpy(lent, t, len);
        fresh();
        bev_answered v = bev_overview(lent, len, asked, count, bytes, pick(2) ? count : count + pick((unsigned)(LENT - count)), work, BEV_WORK);
        EXPECT(v.number == 0 && v.place == 0 && stays(count) && memcmp(lent, t, len) == 0 && whole());
        for (size_t i = 0; i < count; i++) {
            EXPECT(bytes[i] == right[asked[i]]);
            seen[right[asked[i]]]++;
        }
        size_t i = pick((unsigned)count);
        EXPECT(bytes[i] == decided(t, len, asked[i]));
        longest += count == 256;
    }
    printf("random lists: %lu possible, %lu impossible\n", seen[1], seen[0]);
    EXPECT(seen[0] > 3000 && seen[1] > 3000 && longest > 20);
}

/* Literals of the deepest table, 256 at a time, beside decide; every length of list. */
static void full_table(void)
{
    static uint8_t t[16384];
    size_t len = deep_table(t);
    for (size_t from = 0; from < 4032; from += 1260) {
        size_t count = 4032 - from < 256 ? 4032 - from : 256;
        for (size_t i = 0; i < count; i++)
            asked[i] = (uint16_t)(from + i);
        fresh();
        EXPECT(bev_overview(t, len, asked, count, bytes, LENT, work, BEV_WORK).number == 0 && stays(count));
        for (size_t i = 0; i < count; i += 5)
            EXPECT(bytes[i] == decided(t, len, asked[i]));
    }
    for (size_t count = 1; count <= 256; count++) {
        for (size_t i = 0; i < count; i++)
            asked[i] = (uint16_t)((i + count) % 3 ? 2 : 1);
        fresh();
        EXPECT(bev_overview(t, len, asked, count, bytes, count, work, BEV_WORK).number == 0 && stays(count));
        for (size_t i = 0; i < count; i++)
            EXPECT(bytes[i] == ((i + count) % 3 != 0));
    }
    printf("full table\n");
}

static uint8_t small[512];

static size_t small_table(void)
{
    static uint8_t r[2][8];
    rec(r[0], 1, 0, 0);
    rec(r[1], 2, 5, 0);
    return o_build(small, (const uint8_t (*)[8])r, 2);
}

/* The order of the rows, by calls that several apply to. */
static void rows(size_t len)
{
    for (int i = 0; i <= BEV_ASKED; i++)
        asked[i] = 4;
    EXPECT(refused(bev_overview(NULL, 0, NULL, 0, NULL, 0, NULL, 0), 10, 0));
    EXPECT(refused(bev_overview(small, 511, asked, 257, bytes, 0, work, 0), 10, 0));
    EXPECT(refused(bev_overview(small, len, NULL, 0, bytes, LENT, work, BEV_WORK), 68, 0));
    EXPECT(refused(bev_overview(small, len, NULL, 0, NULL, 0, NULL, 0), 68, 0));
    EXPECT(refused(bev_overview(small, len, asked, 257, bytes, LENT, work, BEV_WORK), 68, 0));
    EXPECT(refused(bev_overview(small, len, asked, 257, bytes, LENT, work, 0), 68, 0));
    EXPECT(refused(bev_overview(small, len, asked, 256, bytes, 255, work, BEV_WORK), 68, 0));
    EXPECT(refused(bev_overview(small, len, asked, 1, NULL, 0, work, BEV_WORK), 68, 0));
    EXPECT(refused(bev_overview(small, len, asked, 1, bytes, 1, work, 0), 20, 0));
    EXPECT(refused(bev_overview(small, len, asked, 256, bytes, 256, work, BEV_WORK), 20, 0));
    for (size_t at = 0; at < 256; at++) {
        asked[at] = 5;
        EXPECT(refused(bev_overview(small, len, asked, 256, bytes, 256, work, 0), 20, at));
        EXPECT(refused(bev_overview(small, len, asked, at + 1, bytes, 256, work, BEV_WORK), 20, at));
        asked[at] = (uint16_t)pick(4);
        EXPECT(refused(bev_overview(small, len, asked, at + 1, bytes, 256, work, BEV_WORK - 1), 23, 0));
    }
    EXPECT(refused(bev_overview(small, len, asked, 256, bytes, 256, NULL, 0), 23, 0));
    small[3] = 1;
    EXPECT(refused(bev_overview(small, len, NULL, 0, bytes, 0, work, 0), 11, 0));
    EXPECT(refused(bev_overview(small, len, asked, 256, bytes, 256, work, BEV_WORK), 11, 0));
    small[3] = 0;
}

static void refusals(void)
{
    size_t len = small_table();
    fresh();
    for (int i = 0; i < BEV_WORK; i++)
        work[i] = (uint16_t)i;
    rows(len);
    for (int i = 0; i < BEV_WORK; i++)
        if (work[i] != (uint16_t)i) {
            EXPECT(!"the work area changed on a refusal");
            break;
        }
    EXPECT(whole());
    printf("refusals\n");
}

/* One byte changed, and sealed again or not: the rows of the table, as the oracle reads it. */
static void damaged(void)
{
    static uint8_t t[16384];
    unsigned long turned = 0;
    for (int round = 0; round < 3000; round++) {
        size_t n = 3 + pick(200), len = random_table(t, 3, n), at = pick((unsigned)len);
        uint16_t g[2] = { 0, 1 };
        t[at] ^= (uint8_t)(1 + pick(255));
        if (pick(3))
            o_seal(t + 512 * (at / 512));
        o_read r = o_table(t, len);
        fresh();
        bev_answered v = bev_overview(t, len, g, 2, bytes, 2, work, BEV_WORK);
        EXPECT(r.number ? refused(v, r.number, r.place) : v.number == 0 && stays(2));
        turned += r.number != 0;
    }
    printf("damaged: %lu of 3000 refused\n", turned);
    EXPECT(turned > 1500 && turned < 3000);
}

int main(void)
{
    guard();
    refusals();
    random_lists();
    full_table();
    damaged();
    EXPECT(whole());
    printf("%lu checks, %lu failed\n", checks, failed);
    return failed ? 1 : 0;
}
