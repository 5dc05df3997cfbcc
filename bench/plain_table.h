/* Plain C: blocks, records, reading a table, add and evaluate. */
#ifndef PLAIN_TABLE_H
#define PLAIN_TABLE_H

#include <emmintrin.h>
#include <stddef.h>
#include <stdint.h>
#include <string.h>

enum { P_NODES = 2016, P_GOALS = 64, P_SLOTS = 8192 };

typedef struct { unsigned number; size_t place; } p_refusal;
typedef struct { size_t count; uint16_t goal[P_GOALS]; } p_list;

/* A table that was read: the records as numbers (kind, a from bit 16, b from bit 32, c from bit 48), whether one has three operands, and the
 * hash of all of them. */
static struct { size_t nodes; int threes; uint64_t node[P_NODES]; uint16_t slot[P_SLOTS]; } p_table;

static inline uint64_t p_load(const uint8_t *b)
{
    uint64_t v;
    memcpy(&v, b, 8);
    return v;
}

static inline p_refusal p_no(unsigned number, size_t place)
{
    p_refusal r = { number, place };
    return r;
}

/* Blocks */

/* A block is eight rows of 64 bytes: 3 to the 64 r, and to the 8 j within a row. */
static uint32_t p_row[8], p_column[8];

static uint32_t p_power(unsigned k)
{
    uint32_t w = 1;
    while (k-- > 0)
        w = 3 * w % 65521;
    return w;
}

static void p_powers(void)
{
    for (unsigned i = 0; i < 8; i++) {
        p_row[i] = p_power(64 * i);
        p_column[i] = p_power(8 * i);
    }
}

/* Sixteen bytes, each eight of them joined with weights 1 to 2,187, times the row's. */
static inline __m128i p_sixteen(__m128i v, __m128i row)
{
    const __m128i low = _mm_set1_epi16(255), even = _mm_set1_epi32(9 << 16 | 1), odd = _mm_set1_epi32(27 << 16 | 3), four = _mm_set1_epi64x(81);
    __m128i x = _mm_add_epi32(_mm_madd_epi16(_mm_and_si128(v, low), even), _mm_madd_epi16(_mm_srli_epi16(v, 8), odd));
    return _mm_mul_epu32(_mm_add_epi32(x, _mm_mul_epu32(_mm_srli_epi64(x, 32), four)), row);
}

/* Column by column over the rows, and the columns at the end. */
static unsigned p_check(const uint8_t *b)
{
    const __m128i last = _mm_set_epi64x(0x0000FFFFFFFFFFFF, -1);
    __m128i sum[4] = { _mm_setzero_si128(), _mm_setzero_si128(), _mm_setzero_si128(), _mm_setzero_si128() };
    uint64_t column[8], all = 0;
    if (!p_row[0])
        p_powers();
    for (int r = 0; r < 8; r++) {
        __m128i row = _mm_set1_epi32((int)p_row[r]);
        for (int c = 0; c < 4; c++) {
            __m128i v = _mm_loadu_si128((const __m128i *)(b + 64 * r + 16 * c));
            sum[c] = _mm_add_epi64(sum[c], p_sixteen(r == 7 && c == 3 ? _mm_and_si128(v, last) : v, row));
        }
    }
    memcpy(column, sum, sizeof column);
    for (int j = 0; j < 8; j++)
        all += column[j] * p_column[j];
    return (unsigned)(all % 65521);
}

static inline unsigned p_word(const uint8_t *b) { return b[0] | (unsigned)b[1] << 8; }

static void p_seal(uint8_t *b)
{
    unsigned c = p_check(b);
    b[510] = (uint8_t)c;
    b[511] = (uint8_t)(c >> 8);
}

/* Rows 11 to 13, or 41 to 43: which of the three, or 0. */
static unsigned p_block(const uint8_t *b, size_t j, int last, unsigned letter, unsigned capacity, unsigned width)
{
    if (p_check(b) != p_word(b + 510))
        return 1;
    if (b[0] != letter || p_word(b + 2) != j || b[1] == 0 || b[1] > capacity || (!last && b[1] != capacity))
        return 2;
    for (unsigned i = 4 + width * b[1]; i < 510; i++)
        if (b[i])
            return 3;
    return 0;
}

/* Records and tables */

/* Rows 14 to 16 of a record that would be node n. */
static inline unsigned p_record(uint64_t r, size_t n)
{
    unsigned kind = r & 255, a = r >> 17 & 32767, b = r >> 33 & 32767, c = (unsigned)(r >> 49);
    if (kind - 3 < 4 && !(r & 0xFFFF00000000FF00)) {
        if (a < b && b < n)
            return 0;
        if (a >= n || b >= n)
            return 15;
        return kind == 5 && a != b ? 0 : 16;
    }
    if (kind - 7 < 2 && !(r & 0xFF00)) {
        if (a >= n || b >= n || c >= n)
            return 15;
        return a >= b || b >= c ? 16 : 0;
    }
    if (kind == 2 && !(r & 0xFFFFFFFF0000FF00))
        return (r >> 16) > 1023 ? 15 : 0;
    return r == 1 ? 0 : 14;
}

/* The slot of a record, or the empty slot where it belongs. */
static inline uint16_t *p_slot(uint64_t r)
{
    size_t h = r * 0x9E3779B97F4A7C15 >> 51;
    while (p_table.slot[h] && p_table.node[p_table.slot[h] - 1] != r)
        h = (h + 1) % P_SLOTS;
    return &p_table.slot[h];
}

/* Rows 10 to 17. */
static p_refusal p_read(const uint8_t *t, size_t len)
{
    if (len == 0 || len % 512 || len > 16384)
        return p_no(10, 0);
    memset(p_table.slot, 0, sizeof p_table.slot);
    uint64_t threes = 0;
    size_t blocks = len / 512, n = 0;
    for (size_t j = 0; j < blocks; j++) {
        const uint8_t *b = t + 512 * j;
        unsigned row = p_block(b, j, j + 1 == blocks, 70, 63, 8);
        if (row)
            return p_no(10 + row, j);
        for (const uint8_t *at = b + 4, *end = at + 8 * b[1]; at < end; at += 8, n++) {
            uint64_t r = p_load(at);
            unsigned number = p_record(r, n);
            if (number)
                return p_no(number, n);
            uint16_t *s = p_slot(r);
            if (*s)
                return p_no(17, n);
            threes |= r >> 48;
            p_table.node[n] = r;
            *s = (uint16_t)(n + 1);
        }
    }
    p_table.nodes = n;
    p_table.threes = threes != 0;
    return p_no(0, 0);
}

/* The record of a literal's node, or 0 and the refusal. */
static uint64_t p_record_of(const uint8_t *t, size_t len, size_t literal, p_refusal *no)
{
    *no = p_read(t, len);
    if (!no->number && literal >= 2 * p_table.nodes)
        *no = p_no(20, 0);
    return no->number ? 0 : p_table.node[literal / 2];
}

/* A record as add takes it: a kind 5 as the OR of not a and b, operands by rising node. */
static inline uint64_t p_ordered(uint64_t r)
{
    unsigned kind = r & 255, a = r >> 16 & 65535, b = r >> 32 & 65535, c = (unsigned)(r >> 48);
    if (kind == 5) {
        kind = 4;
        a ^= 1;
        r = (r & ~(uint64_t)0xFFFF00FF) | kind | (uint64_t)a << 16;
    }
    if ((kind == 3 || kind == 4 || kind == 6) && a / 2 > b / 2)
        r = (r & 0xFFFF00000000FFFF) | (uint64_t)b << 16 | (uint64_t)a << 32;
    if (kind - 7 < 2) {
        unsigned l[3] = { a, b, c };
        for (int i = 0; i < 3; i++) {
            unsigned *x = l + i % 2, y = x[0];
            if (y / 2 > x[1] / 2) {
                x[0] = x[1];
                x[1] = y;
            }
        }
        r = (r & 65535) | (uint64_t)l[0] << 16 | (uint64_t)l[1] << 32 | (uint64_t)l[2] << 48;
    }
    return r;
}

typedef struct { unsigned number; size_t place, literal, used; } p_added;

static p_added p_add(uint8_t *buf, size_t len, size_t used, const uint8_t *record)
{
    p_added v = { 9, 0, 0, 0 };
    if (used > len)
        return v;
    p_refusal c = p_no(0, 0);
    p_table.nodes = 0;
    if (used)
        c = p_read(buf, used);
    v.number = c.number;
    v.place = c.place;
    if (c.number)
        return v;
    size_t n = p_table.nodes;
    uint64_t r = p_ordered(p_load(record));
    v.number = p_record(r, n);
    v.place = n;
    if (v.number)
        return v;
    uint16_t at = n ? *p_slot(r) : 0;
    if (!at) {
        v.number = n == P_NODES ? 51 : n % 63 == 0 && len - used < 512 ? 52 : 0;
        if (v.number)
            return v;
        if (n % 63 == 0) {
            memset(buf + used, 0, 512);
            buf[used] = 70;
            buf[used + 2] = (uint8_t)(n / 63);
            used += 512;
        }
        uint8_t *last = buf + used - 512;
        last[1]++;
        memcpy(last + 4 + 8 * (n % 63), &r, 8);
        p_seal(last);
        at = (uint16_t)(n + 1);
    }
    p_added done = { 0, 0, 2 * ((size_t)at - 1), used };
    return done;
}

/* Evaluation */

/* The first point whose byte is above 2, or 1,024. */
static size_t p_point_above(const uint8_t *s)
{
    for (size_t i = 0; i < 1024; i += 16) {
        __m128i over = _mm_subs_epu8(_mm_loadu_si128((const __m128i *)(s + i)), _mm_set1_epi8(2));
        int fine = _mm_movemask_epi8(_mm_cmpeq_epi8(over, _mm_setzero_si128()));
        if (fine != 0xFFFF)
            return i + (size_t)__builtin_ctz(~(unsigned)fine);
    }
    return 1024;
}

/* Truths of two or three operands by kind and a + 4 b + 16 c: that of the node, and that of its negation in the high byte. */
static uint16_t p_joined[9][64];

static unsigned p_kleene(unsigned kind, unsigned a, unsigned b)
{
    static const uint8_t joined[4][9] = { { 0, 0, 0, 0, 1, 2, 0, 2, 2 }, { 0, 1, 2, 1, 1, 1, 2, 1, 2 }, { 1, 1, 1, 0, 1, 2, 2, 1, 2 },
        { 1, 0, 2, 0, 1, 2, 2, 2, 2 } };
    return joined[kind - 3][3 * a + b];
}

static unsigned p_not(unsigned truth) { return truth == 2 ? 2 : 1 - truth; }

static void p_join_truths(void)
{
    for (unsigned kind = 3; kind < 9; kind++)
        for (unsigned i = 0; i < 64; i++) {
            unsigned a = i & 3, b = i >> 2 & 3, c = i >> 4;
            if (a == 3 || b == 3 || c == 3)
                continue;
            unsigned t = kind < 7 ? p_kleene(kind, a, b) : p_kleene(kind - 4, p_kleene(kind - 4, a, b), c);
            p_joined[kind][i] = (uint16_t)(t | p_not(t) << 8);
        }
}

static inline __attribute__((always_inline)) void p_truths(uint8_t *truth, size_t nodes, const uint8_t *s, const int threes)
{
    static const uint16_t pair[3] = { 0x0100, 0x0001, 0x0202 };
    for (size_t n = 0; n < nodes; n++) {
        uint64_t r = p_table.node[n];
        unsigned kind = r & 255, a = r >> 16 & 65535, b = r >> 32 & 65535;
        uint16_t t;
        if (kind > 2) {
            unsigned i = truth[a] + 4u * truth[b];
            if (threes && kind > 6)
                i += 16u * truth[r >> 48];
            t = p_joined[kind][i];
        } else
            t = kind == 1 ? 1 : pair[s[a]];
        memcpy(truth + 2 * n, &t, 2);
    }
}

/* Evaluate: 0 no, 1 yes, 2 unknown, or the refusal. */
static int p_evaluate(const uint8_t *t, size_t len, size_t literal, const uint8_t *s, size_t points, p_refusal *no)
{
    uint8_t truth[2 * P_NODES];
    *no = p_read(t, len);
    if (no->number)
        return 0;
    *no = p_no(literal >= 2 * p_table.nodes ? 20 : points < 1024 ? 21 : 0, 0);
    if (no->number)
        return 0;
    size_t above = p_point_above(s);
    if (above < 1024) {
        *no = p_no(22, above);
        return 0;
    }
    if (!p_joined[3][5])
        p_join_truths();
    if (p_table.threes)
        p_truths(truth, literal / 2 + 1, s, 1);
    else
        p_truths(truth, literal / 2 + 1, s, 0);
    return truth[literal];
}

#endif
