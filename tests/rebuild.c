/* Rebuilding a table by adding its records in turn, each with its operands replaced by the literals that add answered for them: every add
 * beside an independent reading; each rebuilt literal has its record's truth under all settings of small tables, also where points may go
 * either way; without IMP the table comes back byte for byte; where two operands have become one node, 16 and the end. */
#include "tables.h"

/* What a rebuild left: the refusal that ended it, or 0; the records that are in; their literals; the table. */
typedef struct { unsigned number; size_t place, records, used; size_t literal[2016]; uint8_t bytes[16384]; } o_rebuilt;

static size_t rebuilt_literal(const o_rebuilt *o, size_t old)
{
    return old % 2 ? o->literal[old / 2] + 1 : o->literal[old / 2]; /* add answers even literals */
}

/* Adds the n records of a table; both sides start from the same other bytes, and no byte but those of the tables may change. */
static void rebuild(const uint8_t *t, size_t n, size_t room, o_rebuilt *o)
{
    static uint8_t copy[16384];
    o->number = 0;
    o->used = o->records = 0;
    for (size_t i = 0; i < sizeof copy; i++)
        o->bytes[i] = copy[i] = (uint8_t)pick(256);
    for (size_t k = 0; k < n; k++) {
        o_node x = o_get(o_at(t, k));
        uint8_t r[8];
        unsigned a = x.a, b = x.b, c = x.c;
        if (x.kind > 2) {
            a = (unsigned)rebuilt_literal(o, x.a);
            b = (unsigned)rebuilt_literal(o, x.b);
        }
        if (x.kind > 6)
            c = (unsigned)rebuilt_literal(o, x.c);
        rec3(r, x.kind, a, b, c);
        int one_node = x.kind > 2 && (a / 2 == b / 2 || (x.kind > 6 && (a / 2 == c / 2 || b / 2 == c / 2)));
        bev_added v = bev_add(o->bytes, room, o->used, r);
        if (n <= 200) { /* the reading in C looks for repeats by comparing all with all */
            o_added e = o_add(copy, room, o->used, r);
            EXPECT(v.number == e.number && v.place == e.place && v.literal == e.literal && v.used == e.used);
            EXPECT(memcmp(o->bytes, copy, sizeof copy) == 0);
        }
        EXPECT((v.number == 16) == one_node && (v.number == 0 || v.number == 16 || v.number == 52));
        EXPECT(v.number == 0 || v.place == (o->used ? o_table(o->bytes, o->used).nodes : 0));
        if (v.number) {
            o->number = v.number;
            o->place = v.place;
            return;
        }
        EXPECT(v.literal % 2 == 0);
        o->literal[k] = v.literal;
        o->used = v.used;
        o->records++;
    }
}

/* Each rebuilt literal, both signs, under all settings of the first points, each 0, 1 or 2. */
static void same_meaning(const uint8_t *t, const o_rebuilt *o, unsigned points)
{
    static uint8_t s[1024];
    unsigned ways = 1;
    for (unsigned p = 0; p < points; p++)
        ways *= 3;
    for (unsigned way = 0; way < ways; way++) {
        int sure = 1;
        memset(s, 0, sizeof s);
        for (unsigned p = 0, w = way; p < points; p++, w /= 3) {
            s[p] = (uint8_t)(w % 3);
            sure &= s[p] != 2;
        }
        for (size_t l = 0; l < 2 * o->records; l++) {
            bev_truth v = bev_evaluate(o->bytes, o->used, rebuilt_literal(o, l), s, 1024);
            EXPECT(v.number == 0 && v.truth == o_kleene(t, s, l));
            EXPECT(!sure || v.truth == o_truth(t, s, l));
        }
    }
}

static int has_imp(const uint8_t *t, size_t n)
{
    for (size_t k = 0; k < n; k++)
        if (o_at(t, k)[0] == 5)
            return 1;
    return 0;
}

/* Two points, then ORs and IMPs of them, of which many mean the same, then ANDs of any two or three of these. */
static size_t alike_table(uint8_t *t, size_t n)
{
    uint8_t r[12][8];
    rec(r[0], 2, 0, 0);
    rec(r[1], 2, 1, 0);
    for (size_t i = 2; i < n; i++) {
        int again = 1;
        while (again) {
            unsigned p = i < 7 ? pick(2) : pick((unsigned)i - 1), q = i < 7 ? 1 : p + 1 + pick((unsigned)i - 1 - p);
            if (i < 7 && p == 1)
                rec(r[i], 5, 2 + pick(2), pick(2));
            else if (i < 7 || q + 1 == i || pick(2))
                rec(r[i], i < 7 ? 4 + pick(2) : 3, 2 * p + pick(2), 2 * q + pick(2));
            else
                rec3(r[i], 7, 2 * p + pick(2), 2 * q + pick(2), 2 * (q + 1 + pick((unsigned)i - 1 - q)) + pick(2));
            again = 0;
            for (size_t m = 0; m < i; m++)
                again |= memcmp(r[m], r[i], 8) == 0;
        }
    }
    return o_build(t, (const uint8_t (*)[8])r, n);
}

/* Small tables of all kinds. Some end at 16, where an IMP and its OR are operands of one record. */
static void small_tables(void)
{
    static uint8_t t[16384];
    static o_rebuilt o;
    unsigned ended = 0, whole = 0, shorter = 0;
    for (int round = 0; round < 600; round++) {
        unsigned points = round % 2 ? 2 + pick(2) : 2;
        size_t n = round % 2 ? points + 1 + pick(16) : 12, len = round % 2 ? random_table(t, points, n) : alike_table(t, n);
        rebuild(t, n, len, &o);
        same_meaning(t, &o, points);
        ended += o.number == 16;
        if (o.number)
            continue;
        size_t nodes = o_table(o.bytes, o.used).nodes;
        EXPECT(nodes && nodes <= n && !has_imp(o.bytes, nodes));
        whole += has_imp(t, n);
        shorter += nodes < n;
        if (!has_imp(t, n))
            EXPECT(o.used == len && memcmp(o.bytes, t, len) == 0);
    }
    EXPECT(ended > 20 && whole > 200 && shorter > 20);
    printf("small tables: %u rebuilt, %u of them shorter, %u ended by 16\n", whole, shorter, ended);
}

/* Tables of more than a block: without IMP byte for byte, node n answering 2n; with it no longer than before, and once more the same. */
static void large_tables(void)
{
    static uint8_t t[16384], r[2016][8];
    static o_rebuilt o, again;
    size_t sizes[] = { 1, 2, 62, 63, 64, 126, 127, 500, 2016 };
    for (size_t k = 0; k < sizeof sizes / sizeof *sizes; k++)
        for (int imp = 0; imp < 2; imp++) {
            size_t n = sizes[k];
            for (size_t i = 0; i < n; i++)
                if (i < 1024)
                    rec(r[i], 2, (unsigned)i, 0);
                else if (imp)
                    rec(r[i], 5, 2 * (unsigned)(i - 1) + 1, 2 * (unsigned)(i - 1024));
                else
                    rec(r[i], 3 + i % 2, 2 * (unsigned)(i - 1024) + 1, 2 * (unsigned)(i - 1));
            size_t len = o_build(t, (const uint8_t (*)[8])r, n);
            rebuild(t, n, len, &o);
            EXPECT(o.number == 0 && o.records == n && o.used == len);
            for (size_t i = 0; i < n; i++)
                EXPECT(o.literal[i] == 2 * i);
            EXPECT((memcmp(o.bytes, t, len) == 0) == !has_imp(t, n));
            rebuild(o.bytes, n, len, &again);
            EXPECT(again.number == 0 && memcmp(again.bytes, o.bytes, len) == 0);
        }
    printf("large tables\n");
}

/* The samples of crates/rebuilding, and a buffer that is too short: 52 at the nodes that are in, which stay. */
static void by_hand(void)
{
    static uint8_t t[16384];
    static o_rebuilt o;
    uint8_t r[70][8];
    size_t after[6] = { 0, 2, 4, 4, 6, 8 };
    rec(r[0], 2, 0, 0);
    rec(r[1], 2, 1, 0);
    rec(r[2], 5, 0, 2);
    rec(r[3], 4, 1, 2);
    rec(r[4], 3, 0, 5);
    rec(r[5], 5, 2, 1);
    rec(r[6], 3, 4, 6);
    o_build(t, (const uint8_t (*)[8])r, 7);
    rebuild(t, 7, 512, &o);
    EXPECT(o.number == 16 && o.place == 5 && o.records == 6 && memcmp(o.literal, after, sizeof after) == 0);
    for (unsigned i = 0; i < 70; i++)
        rec(r[i], 2, i, 0);
    o_build(t, (const uint8_t (*)[8])r, 70);
    rebuild(t, 70, 1023, &o);
    EXPECT(o.number == 52 && o.place == 63 && o.records == 63 && memcmp(o.bytes, t, 512) == 0);
    printf("by hand\n");
}

int main(void)
{
    by_hand();
    small_tables();
    large_tables();
    printf("%lu checks, %lu failed\n", checks, failed);
    return failed ? 1 : 0;
}
