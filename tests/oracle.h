/* An independent reading of the scope paper in plain C, for the tests to compare with. It shares nothing with the library. */
#ifndef ORACLE_H
#define ORACLE_H

#include <stddef.h>
#include <stdint.h>
#include <string.h>

typedef struct { unsigned number; size_t place; size_t nodes; } o_read;
typedef struct { uint8_t kind; unsigned a, b, c; } o_node;
typedef struct { unsigned number; size_t place; } o_told;

/* A list of goals, of which 65 do not pass, or of 64 goals and 16 wishes. */
typedef struct { size_t count; uint16_t goal[80]; } o_list;

static inline o_told o_no(unsigned number, size_t place)
{
    o_told v = { number, place };
    return v;
}

static inline o_list o_one(size_t goal)
{
    o_list g = { 1, { (uint16_t)goal } };
    return g;
}

static inline unsigned o_word(const uint8_t *p) { return p[0] + 256u * p[1]; }

static inline unsigned o_check(const uint8_t *block)
{
    uint64_t sum = 0, w = 1;
    for (int i = 0; i < 510; i++) {
        sum = (sum + block[i] * w) % 65521;
        w = 3 * w % 65521;
    }
    return (unsigned)sum;
}

static inline void o_seal(uint8_t *block)
{
    unsigned c = o_check(block);
    block[510] = (uint8_t)(c % 256);
    block[511] = (uint8_t)(c / 256);
}

static inline const uint8_t * o_at(const uint8_t *t, size_t n) { return t + 512 * (n / 63) + 4 + 8 * (n % 63); }

static inline o_node o_get(const uint8_t *r)
{
    o_node x = { r[0], o_word(r + 2), o_word(r + 4), o_word(r + 6) };
    return x;
}

/* TRUE and ATOM have no operands, kinds 3 to 6 two, 7 and 8 three. */
static inline int o_operands(const o_node *x) { return x->kind < 3 ? 0 : x->kind < 7 ? 2 : 3; }

/* Rows 14 to 16 of a record that would be node n. */
static inline unsigned o_record(const uint8_t *r, size_t n)
{
    o_node x = o_get(r);
    if (r[1] || x.kind < 1 || x.kind > 8 || (x.kind < 7 && x.c))
        return 14;
    if (x.kind == 1 && (x.a || x.b))
        return 14;
    if (x.kind == 2 && x.b)
        return 14;
    if (x.kind == 1)
        return 0;
    if (x.kind == 2)
        return x.a > 1023 ? 15 : 0;
    if (x.a / 2 >= n || x.b / 2 >= n || (o_operands(&x) == 3 && x.c / 2 >= n))
        return 15;
    if (x.a / 2 == x.b / 2)
        return 16;
    if (x.kind != 5 && x.a / 2 > x.b / 2)
        return 16;
    return o_operands(&x) == 3 && x.b / 2 >= x.c / 2 ? 16 : 0;
}

/* Rows 10 to 17. */
static inline o_read o_table(const uint8_t *t, size_t len)
{
    o_read r = { 0, 0, 0 };
    if (len == 0 || len % 512 || len > 16384) {
        r.number = 10;
        return r;
    }
    size_t blocks = len / 512, n = 0;
    for (size_t j = 0; j < blocks; j++) {
        const uint8_t *b = t + 512 * j;
        r.place = j;
        if (o_check(b) != o_word(b + 510)) {
            r.number = 11;
            return r;
        }
        if (b[0] != 70 || o_word(b + 2) != j || b[1] == 0 || b[1] > 63 || (j + 1 < blocks && b[1] != 63)) {
            r.number = 12;
            return r;
        }
        for (int i = 4 + 8 * b[1]; i < 510; i++)
            if (b[i]) {
                r.number = 13;
                return r;
            }
        for (int k = 0; k < b[1]; k++, n++) {
            const uint8_t *x = b + 4 + 8 * k;
            r.place = n;
            r.number = o_record(x, n);
            if (r.number)
                return r;
            for (size_t m = 0; m < n; m++)
                if (memcmp(o_at(t, m), x, 8) == 0) {
                    r.number = 17;
                    return r;
                }
        }
    }
    r.place = 0;
    r.nodes = n;
    return r;
}

/* Truths joined as a kind says; c counts for kinds 7 and 8 alone. */
static inline int o_joined(unsigned kind, int a, int b, int c)
{
    switch (kind) {
    case 3: return a && b;
    case 4: return a || b;
    case 5: return !a || b;
    case 6: return a == b;
    case 7: return a && b && c;
    default: return a || b || c;
    }
}

/* The truth of a literal of a readable table, by recursion over the nodes. */
static inline int o_truth(const uint8_t *t, const uint8_t *s, size_t literal)
{
    o_node x = o_get(o_at(t, literal / 2));
    int v = 1;
    if (x.kind == 2)
        v = s[x.a] == 1;
    if (x.kind > 2) {
        int a = o_truth(t, s, x.a), b = o_truth(t, s, x.b), c = o_operands(&x) == 3 ? o_truth(t, s, x.c) : 0;
        v = o_joined(x.kind, a, b, c);
    }
    return literal % 2 ? !v : v;
}

/* The same where a point's 2 is unknown: 0 no, 1 yes, 2 unknown. A join is known where each way the unknown may go gives the same. */
static inline int o_kleene(const uint8_t *t, const uint8_t *s, size_t literal)
{
    o_node x = o_get(o_at(t, literal / 2));
    int v = x.kind == 2 ? s[x.a] : 1;
    if (x.kind > 2) {
        int a = o_kleene(t, s, x.a), b = o_kleene(t, s, x.b), c = o_operands(&x) == 3 ? o_kleene(t, s, x.c) : 0, seen = 0;
        for (int way = 0; way < 8; way++)
            seen |= 1 << o_joined(x.kind, a == 2 ? way & 1 : a, b == 2 ? way >> 1 & 1 : b, c == 2 ? way >> 2 : c);
        v = seen == 3 ? 2 : seen == 2;
    }
    return v == 2 ? 2 : literal % 2 ? !v : v;
}

/* Whether every goal of a list is true. */
static inline int o_all_true(const uint8_t *t, const uint8_t *s, const o_list *g)
{
    for (size_t i = 0; i < g->count; i++)
        if (!o_truth(t, s, g->goal[i]))
            return 0;
    return 1;
}

/* The table that holds n records, written to a cleared buffer; its length. */
static inline size_t o_build(uint8_t *t, const uint8_t (*records)[8], size_t n)
{
    size_t blocks = (n + 62) / 63;
    memset(t, 0, 512 * blocks);
    for (size_t j = 0; j < blocks; j++) {
        uint8_t *b = t + 512 * j;
        size_t count = n - 63 * j < 63 ? n - 63 * j : 63;
        b[0] = 70;
        b[1] = (uint8_t)count;
        b[2] = (uint8_t)j;
        memcpy(b + 4, records[63 * j], 8 * count);
        o_seal(b);
    }
    return 512 * blocks;
}

/* Three operands in the order of their nodes. */
static inline void o_sort(uint8_t *r)
{
    for (int i = 0; i < 3; i++) {
        uint8_t *x = r + (i == 1 ? 4 : 2), y[2];
        if (o_word(x) / 2 > o_word(x + 2) / 2) {
            memcpy(y, x, 2);
            memcpy(x, x + 2, 2);
            memcpy(x + 2, y, 2);
        }
    }
}

/* Adds a record as the paper says, to the bytes themselves. */
typedef struct { unsigned number; size_t place, literal, used; } o_added;

static inline o_added o_add(uint8_t *buf, size_t len, size_t used, const uint8_t *r8)
{
    o_added v = { 9, 0, 0, 0 };
    uint8_t r[8];
    size_t n = 0;
    if (used > len)
        return v;
    if (used) {
        o_read t = o_table(buf, used);
        v.number = t.number;
        v.place = t.place;
        n = t.nodes;
        if (t.number)
            return v;
    }
    memcpy(r, r8, 8);
    v.place = n;
    if (r[0] == 5) { /* its own refusals, then it is the OR of not a and b */
        v.number = o_record(r, n);
        if (v.number)
            return v;
        r[0] = 4;
        r[2] ^= 1;
    }
    if ((r[0] == 3 || r[0] == 4 || r[0] == 6) && o_word(r + 2) / 2 > o_word(r + 4) / 2) {
        uint8_t a[2] = { r[2], r[3] };
        memcpy(r + 2, r + 4, 2);
        memcpy(r + 4, a, 2);
    }
    if (r[0] == 7 || r[0] == 8)
        o_sort(r);
    v.number = o_record(r, n);
    if (v.number)
        return v;
    for (size_t m = 0; m < n; m++)
        if (memcmp(o_at(buf, m), r, 8) == 0) {
            o_added found = { 0, 0, 2 * m, used };
            return found;
        }
    v.number = n == 2016 ? 51 : n % 63 == 0 && len - used < 512 ? 52 : 0;
    if (v.number)
        return v;
    if (n % 63 == 0) {
        memset(buf + used, 0, 512);
        buf[used] = 70;
        buf[used + 2] = (uint8_t)(n / 63);
        used += 512;
    }
    buf[used - 511]++;
    memcpy(buf + used - 512 + 4 + 8 * (n % 63), r, 8);
    o_seal(buf + used - 512);
    o_added done = { 0, 0, 2 * n, used };
    return done;
}

#endif
