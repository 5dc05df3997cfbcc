/* Calls every entry of the library as a host does: results, every refusal with its place, edges, and canaries round each buffer.
 * Prints one line for each group and a last line with the counts; ends with 1 if a check failed. */
#include "../include/bevaridhom.h"
#include "oracle.h"
#include <stdio.h>
#include <stdlib.h>

static unsigned long checks, failed;

#define EXPECT(cond)                                                       \
    do {                                                                   \
        checks++;                                                          \
        if (!(cond)) {                                                     \
            failed++;                                                      \
            printf("%s:%d: %s\n", __FILE__, __LINE__, #cond);              \
        }                                                                  \
    } while (0)

/* A buffer of exactly the length lent, with canaries on both sides and a copy of what it held. */
enum { GUARD = 64 };
typedef struct { uint8_t *all, *p, *old; size_t len; } lent;

static lent lend(const uint8_t *bytes, size_t len)
{
    lent b;
    b.len = len;
    b.all = malloc(len + 2 * GUARD);
    b.old = malloc(len + 1);
    if (!b.all || !b.old)
        exit(2);
    memset(b.all, 0xA5, len + 2 * GUARD);
    b.p = b.all + GUARD;
    if (bytes && len) {
        memcpy(b.p, bytes, len);
        memcpy(b.old, bytes, len);
    } else
        memset(b.old, 0xA5, len);
    return b;
}

static int guarded(lent b)
{
    for (int i = 0; i < GUARD; i++)
        if (b.all[i] != 0xA5 || b.p[b.len + (size_t)i] != 0xA5)
            return 0;
    return 1;
}

static int unchanged(lent b) { return guarded(b) && memcmp(b.p, b.old, b.len) == 0; }

static void back(lent b)
{
    free(b.all);
    free(b.old);
}

static uint64_t seed = 88172645463325252u;

static unsigned pick(unsigned below)
{
    seed ^= seed << 13;
    seed ^= seed >> 7;
    seed ^= seed << 17;
    return (unsigned)(seed >> 11) % below;
}

static void rec(uint8_t *r, unsigned kind, unsigned a, unsigned b)
{
    memset(r, 0, 8);
    r[0] = (uint8_t)kind;
    r[2] = (uint8_t)a;
    r[3] = (uint8_t)(a >> 8);
    r[4] = (uint8_t)b;
    r[5] = (uint8_t)(b >> 8);
}

static void rec3(uint8_t *r, unsigned kind, unsigned a, unsigned b, unsigned c)
{
    rec(r, kind, a, b);
    r[6] = (uint8_t)c;
    r[7] = (uint8_t)(c >> 8);
}

/* Count, in a buffer of exactly the length, against the number and place expected. */
static void count_is(const uint8_t *t, size_t len, unsigned number, size_t place, size_t nodes)
{
    lent b = lend(t, len);
    bev_counted c = bev_count(b.p, len);
    EXPECT(c.number == number && c.place == place && c.nodes == nodes);
    EXPECT(unchanged(b));
    o_read o = o_table(t, len);
    EXPECT(o.number == number && (number == 0 || o.place == place) && o.nodes * (number == 0) == nodes);
    back(b);
}

/* Table A of the paper. */
static const uint16_t A[10][3] = { { 2, 0, 0 }, { 2, 1, 0 }, { 3, 0, 2 }, { 4, 0, 2 }, { 5, 0, 2 },
                                   { 6, 0, 2 }, { 1, 0, 0 }, { 3, 4, 7 }, { 6, 0, 3 }, { 3, 10, 16 } };

static size_t table_a(uint8_t *t)
{
    uint8_t r[10][8];
    for (int i = 0; i < 10; i++)
        rec(r[i], A[i][0], A[i][1], A[i][2]);
    return o_build(t, (const uint8_t (*)[8])r, 10);
}

/* n distinct valid records: TRUE, ATOMs, then operations on random earlier nodes, with or without IMP. */
static void make_records(uint8_t (*r)[8], size_t n, int imp)
{
    for (size_t i = 0; i < n; i++) {
        int again = 1;
        while (again) {
            unsigned kind = i < 3 ? 2 : 1 + pick(8);
            if (kind == 5 && !imp)
                kind = 4;
            if (kind == 1)
                rec(r[i], 1, 0, 0);
            else if (kind == 2)
                rec(r[i], 2, i < 3 ? (unsigned)i : pick(1024), 0);
            else {
                unsigned p = pick((unsigned)i), q = pick((unsigned)i);
                while (p == q)
                    q = pick((unsigned)i);
                if (kind != 5 && p > q) {
                    unsigned s = p;
                    p = q;
                    q = s;
                }
                rec(r[i], kind, 2 * p + pick(2), 2 * q + pick(2));
                if (kind > 6) {
                    unsigned s = pick((unsigned)i);
                    while (s == p || s == q)
                        s = pick((unsigned)i);
                    rec3(r[i], kind, 2 * (s < p ? s : p) + pick(2), 2 * (s < p ? p : s < q ? s : q) + pick(2), 2 * (s < q ? q : s) + pick(2));
                }
            }
            again = 0;
            for (size_t m = 0; m < i; m++)
                again |= memcmp(r[m], r[i], 8) == 0;
        }
    }
}

static void valid_records(uint8_t (*r)[8], size_t n) { make_records(r, n, 1); }

static void lengths(void)
{
    static uint8_t t[17000], r[2016][8];
    EXPECT(bev_count(NULL, 0).number == 10 && bev_count(NULL, 0).place == 0);
    EXPECT(bev_record(NULL, 0, 0).number == 10);
    EXPECT(bev_evaluate(NULL, 0, 0, NULL, 0).number == 10);
    valid_records(r, 2016);
    size_t len = o_build(t, (const uint8_t (*)[8])r, 2016);
    EXPECT(len == 16384);
    count_is(t, len, 0, 0, 2016);
    for (size_t k = 1; k < 1030; k++)
        if (k % 512)
            count_is(t, k, 10, 0, 0);
    count_is(t, 512, 0, 0, 63);
    count_is(t, 16383, 10, 0, 0);
    count_is(t, 16385, 10, 0, 0);
    count_is(t, 16896, 10, 0, 0);
    len = table_a(t);
    count_is(t, len, 0, 0, 10);
    printf("lengths\n");
}

/* One field of a one-block table changed and the check made anew. */
static void edit(const uint8_t *t, size_t len, size_t at, unsigned value, unsigned number, size_t place)
{
    static uint8_t u[16896];
    memcpy(u, t, len);
    u[at] = (uint8_t)value;
    o_seal(u + at / 512 * 512);
    count_is(u, len, number, place, number ? 0 : o_table(u, len).nodes);
}

static void refusals(void)
{
    static uint8_t t[1024], r[70][8];
    size_t len = table_a(t);
    edit(t, len, 0, 71, 12, 0);
    edit(t, len, 0, 68, 12, 0);
    edit(t, len, 2, 1, 12, 0);
    edit(t, len, 3, 1, 12, 0);
    edit(t, len, 1, 0, 12, 0);
    edit(t, len, 1, 64, 12, 0);
    edit(t, len, 1, 9, 13, 0);
    edit(t, len, 84, 1, 13, 0);
    edit(t, len, 509, 255, 13, 0);
    edit(t, len, 4, 0, 14, 0);
    edit(t, len, 4, 9, 14, 0);
    edit(t, len, 5, 1, 14, 0);
    edit(t, len, 10, 1, 14, 0);
    edit(t, len, 11, 1, 14, 0);
    edit(t, len, 8, 1, 14, 0);
    edit(t, len, 4 + 48 + 2, 1, 14, 6);
    edit(t, len, 4 + 48 + 4, 1, 14, 6);
    edit(t, len, 7, 4, 15, 0);          /* point 1,024 */
    edit(t, len, 4 + 16 + 2, 4, 15, 2); /* an operand that is the node itself */
    edit(t, len, 4 + 16 + 4, 6, 15, 2); /* a later one */
    edit(t, len, 4 + 16 + 4, 1, 16, 2); /* one node twice */
    edit(t, len, 4 + 72, 4, 0, 0);      /* OR(10, 16) is no repeat */
    edit(t, len, 4 + 8 + 2, 0, 17, 1);  /* ATOM 0 again */
    edit(t, len, 6, 255, 0, 0);         /* point 255 */

    uint8_t u[512];
    memcpy(u, t, 512);
    rec(u + 4, 2, 1023, 0); /* point 1,023 reads */
    o_seal(u);
    count_is(u, 512, 0, 0, 10);
    for (unsigned kind = 3; kind <= 6; kind++) {
        memcpy(u, t, 512);
        rec(u + 4 + 72, kind, 16, 10); /* the higher node first: only IMP may */
        o_seal(u);
        count_is(u, 512, kind == 5 ? 0 : 16, kind == 5 ? 0 : 9, kind == 5 ? 10 : 0);
    }

    /* two blocks: short but not last; a repeat in block 0 comes before the check of block 1 */
    valid_records(r, 70);
    len = o_build(t, (const uint8_t (*)[8])r, 70);
    count_is(t, len, 0, 0, 70);
    memcpy(t + 508, t + 500, 8);
    edit(t, len, 1, 62, 12, 0);
    len = o_build(t, (const uint8_t (*)[8])r, 70);
    memcpy(t + 4 + 8 * 40, t + 4 + 8 * 7, 8);
    o_seal(t);
    t[512 + 510] ^= 1;
    o_read o = o_table(t, len);
    EXPECT(o.number == 17 || o.number == 15 || o.number == 16);
    count_is(t, len, o.number, o.place, 0);
    printf("refusals\n");
}

/* Each byte of a two-block table changed: 11 at its block. */
static void damage(void)
{
    static uint8_t t[1024], r[70][8];
    valid_records(r, 70);
    size_t len = o_build(t, (const uint8_t (*)[8])r, 70);
    for (size_t i = 0; i < len; i++) {
        uint8_t old = t[i];
        t[i] = (uint8_t)(old ^ (1u << pick(8)));
        count_is(t, len, 11, i / 512, 0);
        t[i] = old;
    }
    printf("damage\n");
}

/* Random damage with the checks made anew: the reader of the library and that of the tests say the same. */
static void random_damage(void)
{
    static uint8_t t[16896], r[2016][8];
    for (int round = 0; round < 3000; round++) {
        size_t n = 1 + pick(round % 50 ? 200 : 2016);
        valid_records(r, n);
        size_t len = o_build(t, (const uint8_t (*)[8])r, n);
        for (unsigned k = pick(4); k > 0; k--) {
            size_t at = pick((unsigned)len);
            t[at] = (uint8_t)pick(pick(2) ? 10 : 256);
            if (pick(8))
                o_seal(t + at / 512 * 512);
        }
        o_read o = o_table(t, len);
        count_is(t, len, o.number, o.number ? o.place : 0, o.nodes * (o.number == 0));
    }
    printf("random damage\n");
}

static void records(void)
{
    static uint8_t t[512];
    size_t len = table_a(t);
    lent b = lend(t, len);
    for (size_t l = 0; l < 20; l++) {
        bev_node x = bev_record(b.p, len, l);
        EXPECT(x.number == 0 && x.place == 0 && x.kind == A[l / 2][0] && x.a == A[l / 2][1] && x.b == A[l / 2][2] && x.c == 0);
    }
    EXPECT(bev_record(b.p, len, 20).number == 20 && bev_record(b.p, len, 20).place == 0);
    EXPECT(bev_record(b.p, len, SIZE_MAX).number == 20);
    EXPECT(bev_record(b.p, 511, 0).number == 10);
    EXPECT(unchanged(b));
    back(b);
    printf("records\n");
}

static void truths(void)
{
    static uint8_t t[16896], r[300][8], s[1025];
    size_t len = table_a(t);
    for (unsigned w = 0; w < 4; w++) {
        memset(s, 0, 1024);
        s[0] = w & 1;
        s[1] = (uint8_t)(w >> 1);
        s[1024] = 7; /* not read */
        lent b = lend(t, len), c = lend(s, 1025);
        for (size_t l = 0; l < 20; l++) {
            bev_truth v = bev_evaluate(b.p, len, l, c.p, 1025);
            EXPECT(v.number == 0 && v.place == 0 && v.truth == o_truth(t, s, l));
        }
        EXPECT(unchanged(b) && unchanged(c));
        back(b);
        back(c);
    }
    lent c = lend(s, 1024);
    memset(c.p, 1, 1024);
    EXPECT(bev_evaluate(t, len, 20, c.p, 0).number == 20);
    EXPECT(bev_evaluate(t, len, 0, c.p, 1023).number == 21 && bev_evaluate(t, len, 0, c.p, 1023).place == 0);
    EXPECT(bev_evaluate(t, len, 0, NULL, 0).number == 21);
    EXPECT(bev_evaluate(t, len, 0, c.p, 1024).number == 0);
    c.p[1023] = 2;
    EXPECT(bev_evaluate(t, len, 0, c.p, 1024).number == 0);
    c.p[1023] = 3;
    EXPECT(bev_evaluate(t, len, 0, c.p, 1024).number == 22 && bev_evaluate(t, len, 0, c.p, 1024).place == 1023);
    c.p[700] = 255;
    EXPECT(bev_evaluate(t, len, 0, c.p, 1024).place == 700);
    c.p[0] = 3;
    EXPECT(bev_evaluate(t, len, 0, c.p, 1024).place == 0);
    EXPECT(guarded(c));
    back(c);
    for (int round = 0; round < 200; round++) {
        size_t n = 1 + pick(30);
        valid_records(r, n);
        len = o_build(t, (const uint8_t (*)[8])r, n);
        for (int i = 0; i < 1024; i++)
            s[i] = (uint8_t)pick(2);
        for (size_t l = 0; l < 2 * n; l++) {
            bev_truth v = bev_evaluate(t, len, l, s, 1024);
            EXPECT(v.number == 0 && v.truth == o_truth(t, s, l));
        }
    }
    printf("truths\n");
}

/* Add: the answer, every byte and the canaries are those of the paper; then the answer is also the one written here. */
static bev_added add_is(lent b, size_t used, const uint8_t *r, unsigned number, size_t place, size_t literal, size_t after)
{
    o_added o = o_add(b.old, b.len, used, r);
    bev_added v = bev_add(b.p, b.len, used, r);
    EXPECT(v.number == o.number && v.place == o.place && v.literal == o.literal && v.used == o.used);
    EXPECT(v.number == number && v.place == place && v.literal == literal && v.used == after);
    EXPECT(unchanged(b));
    return v;
}

static void adds(void)
{
    static uint8_t t[16896], whole[2016][8];
    uint8_t r[8];
    /* table A into a dirty buffer, twice; operands exchanged */
    lent b = lend(NULL, 700);
    memset(b.p, 0xEE, 700);
    memcpy(b.old, b.p, 700);
    size_t used = 0;
    for (int pass = 0; pass < 2; pass++)
        for (int i = 0; i < 10; i++) {
            unsigned kind = A[i][0], x = A[i][1], y = A[i][2];
            if (pass == 1 && (kind == 3 || kind == 4 || kind == 6))
                rec(r, kind, y, x);
            else
                rec(r, kind, x, y);
            used = add_is(b, used, r, 0, 0, 2 * (size_t)i, 512).used;
        }
    /* the IMP became an OR */
    table_a(t);
    rec(t + 4 + 8 * 4, 4, 1, 2);
    o_seal(t);
    EXPECT(memcmp(b.p, t, 512) == 0);
    for (int i = 512; i < 700; i++)
        EXPECT(b.p[i] == 0xEE);
    /* rows of the used part and of the record */
    rec(r, 2, 5, 0);
    add_is(b, 701, r, 9, 0, 0, 0);
    add_is(b, SIZE_MAX, r, 9, 0, 0, 0);
    add_is(b, 700, r, 10, 0, 0, 0);
    add_is(b, 511, r, 10, 0, 0, 0);
    rec(r, 9, 0, 0);
    add_is(b, 512, r, 14, 10, 0, 0);
    rec(r, 2, 0, 0);
    r[7] = 1;
    add_is(b, 512, r, 14, 10, 0, 0);
    rec(r, 2, 1024, 0);
    add_is(b, 512, r, 15, 10, 0, 0);
    rec(r, 3, 20, 0);
    add_is(b, 512, r, 15, 10, 0, 0);
    rec(r, 5, 0, 20);
    add_is(b, 512, r, 15, 10, 0, 0);
    rec(r, 5, 65535, 0);
    add_is(b, 512, r, 15, 10, 0, 0);
    r[6] = 1;
    add_is(b, 512, r, 14, 10, 0, 0);
    rec(r, 6, 4, 5);
    add_is(b, 512, r, 16, 10, 0, 0);
    rec(r, 5, 4, 5);
    add_is(b, 512, r, 16, 10, 0, 0);
    rec(r, 5, 5, 5);
    add_is(b, 512, r, 16, 10, 0, 0);
    r[1] = 1;
    add_is(b, 512, r, 14, 10, 0, 0);
    /* the OR that an IMP means is found, in either order */
    rec(r, 4, 2, 1);
    add_is(b, 512, r, 0, 0, 8, 512);
    rec(r, 5, 3, 1);
    add_is(b, 512, r, 0, 0, 8, 512);
    b.p[100] ^= 1;
    memcpy(b.old, b.p, 700);
    rec(r, 1, 0, 0);
    add_is(b, 512, r, 11, 0, 0, 0);
    back(b);
    /* a table with an IMP: that record is not found again, its OR is added, and then found */
    table_a(t);
    b = lend(t, 512);
    rec(r, 5, 0, 2);
    add_is(b, 512, r, 0, 0, 20, 512);
    add_is(b, 512, r, 0, 0, 20, 512);
    rec(r, 5, 2, 0);
    add_is(b, 512, r, 0, 0, 22, 512);
    EXPECT(bev_record(b.p, 512, 8).kind == 5 && bev_record(b.p, 512, 20).kind == 4 && bev_record(b.p, 512, 22).a == 0 && bev_record(b.p, 512, 22).b == 3);
    back(b);
    /* nothing lent: the new block has no room */
    rec(r, 1, 0, 0);
    EXPECT(bev_add(NULL, 0, 0, r).number == 52 && bev_add(NULL, 0, 0, r).place == 0);
    EXPECT(bev_add(NULL, 0, 1, r).number == 9);
    b = lend(NULL, 511);
    add_is(b, 0, r, 52, 0, 0, 0);
    back(b);
    /* 63 nodes and no room for a second block: a new one is 52, an old one is found */
    make_records(whole, 2016, 0);
    size_t len = o_build(t, (const uint8_t (*)[8])whole, 63);
    b = lend(t, 1023);
    memset(b.p + 512, 9, 511);
    memcpy(b.old, b.p, 1023);
    add_is(b, len, whole[63], 52, 63, 0, 0);
    (void)add_is(b, len, whole[17], 0, 0, 34, 512);
    back(b);
    /* 2,016 nodes: a new one is 51, an old one is found */
    len = o_build(t, (const uint8_t (*)[8])whole, 2016);
    b = lend(t, 16896);
    memcpy(b.old, b.p, 16896);
    for (unsigned y = 2; ; y++) {
        rec(r, 4, 1, y);
        int there = 0;
        for (int i = 0; i < 2016; i++)
            there |= memcmp(whole[i], r, 8) == 0;
        if (!there)
            break;
    }
    add_is(b, len, r, 51, 2016, 0, 0);
    rec(r, 5, 0, o_word(r + 4)); /* the IMP that means the same */
    add_is(b, len, r, 51, 2016, 0, 0);
    for (size_t i = 0; i < 2016; i += 5)
        (void)add_is(b, len, whole[i], 0, 0, 2 * i, 16384);
    back(b);
    printf("adds\n");
}

/* Three operands: read in rising order alone, added in any; c is zero for the other kinds. */
static void threes(void)
{
    static const unsigned orders[6][3] = { { 0, 3, 4 }, { 0, 4, 3 }, { 3, 0, 4 }, { 3, 4, 0 }, { 4, 0, 3 }, { 4, 3, 0 } };
    static const unsigned twice[6][3] = { { 0, 1, 4 }, { 0, 4, 5 }, { 4, 0, 1 }, { 1, 4, 0 }, { 4, 5, 0 }, { 2, 3, 3 } };
    uint8_t r[6][8], t[512];
    for (unsigned i = 0; i < 3; i++)
        rec(r[i], 2, i, 0);
    for (unsigned kind = 7; kind <= 8; kind++) {
        rec3(r[3], kind, 0, 3, 4);
        rec3(r[4], 15 - kind, 0, 3, 4);
        count_is(t, o_build(t, (const uint8_t (*)[8])r, 5), 0, 0, 5);
        lent b = lend(t, 512);
        bev_node x = bev_record(b.p, 512, 7);
        EXPECT(x.number == 0 && x.kind == kind && x.a == 0 && x.b == 3 && x.c == 4);
        for (int i = 0; i < 6; i++) {
            rec3(r[5], kind, orders[i][0], orders[i][1], orders[i][2]);
            add_is(b, 512, r[5], 0, 0, 6, 512);
            rec3(r[5], kind, orders[i][0], orders[i][1], 10 + (unsigned)i);
            add_is(b, 512, r[5], 15, 5, 0, 0);
            rec3(r[5], kind, twice[i][0], twice[i][1], twice[i][2]);
            add_is(b, 512, r[5], 16, 5, 0, 0);
            count_is(t, o_build(t, (const uint8_t (*)[8])r, 6), 16, 5, 0);
            rec3(r[5], kind, orders[i][0] ^ 1, orders[i][1], orders[i][2]);
            count_is(t, o_build(t, (const uint8_t (*)[8])r, 6), i ? 16 : 0, i ? 5 : 0, i ? 0 : 6);
            rec3(r[5], 1 + (unsigned)i, 0, i > 1 ? 2 : 0, 4);
            add_is(b, 512, r[5], 14, 5, 0, 0);
            rec3(r[5], kind, orders[i][0], 12, orders[i][2]);
            count_is(t, o_build(t, (const uint8_t (*)[8])r, 6), 15, 5, 0);
        }
        /* a new one in the wrong order is sorted as it is written */
        rec3(r[5], kind, 4, 2, 1);
        add_is(b, 512, r[5], 0, 0, 10, 512);
        EXPECT(bev_record(b.p, 512, 10).a == 1 && bev_record(b.p, 512, 10).b == 2 && bev_record(b.p, 512, 10).c == 4);
        back(b);
    }
    printf("threes\n");
}

/* Adds of random records, good and bad, to random tables in dirty buffers of random lengths. */
static void random_adds(void)
{
    static uint8_t t[16896], r[200][8], x[8];
    for (int round = 0; round < 20000; round++) {
        size_t n = pick(140), used = 0;
        valid_records(r, n);
        if (n)
            used = o_build(t, (const uint8_t (*)[8])r, n);
        lent b = lend(NULL, used + pick(1100));
        for (size_t i = 0; i < b.len; i++)
            b.p[i] = (uint8_t)(i < used ? t[i] : pick(256));
        memcpy(b.old, b.p, b.len);
        rec3(x, 1 + pick(9), pick(2 * (unsigned)n + 3), pick(2 * (unsigned)n + 3), pick(2) ? pick(2 * (unsigned)n + 3) : 0);
        if (n && pick(4) == 0)
            memcpy(x, r[pick((unsigned)n)], 8);
        if (pick(20) == 0)
            x[pick(8)] = (uint8_t)pick(256);
        if (pick(20) == 0)
            used = pick(2000);
        o_added o = o_add(b.old, b.len, used, x);
        bev_added v = bev_add(b.p, b.len, used, x);
        EXPECT(v.number == o.number && v.place == o.place && v.literal == o.literal && v.used == o.used);
        EXPECT(unchanged(b));
        back(b);
    }
    printf("random adds\n");
}

/* The two checks that the paper gives. */
static void samples(void)
{
    uint8_t b[512], r[8];
    memset(b, 0x5A, 512);
    rec(r, 1, 0, 0);
    EXPECT(bev_add(b, 512, 0, r).used == 512 && o_word(b + 510) == 154);
    memset(b, 0x5A, 512);
    rec(r, 2, 0, 0);
    EXPECT(bev_add(b, 512, 0, r).used == 512 && o_word(b + 510) == 235);
    printf("samples\n");
}

int main(void)
{
    samples();
    lengths();
    refusals();
    damage();
    random_damage();
    records();
    truths();
    adds();
    threes();
    random_adds();
    printf("%lu checks, %lu failed\n", checks, failed);
    return failed ? 1 : 0;
}
