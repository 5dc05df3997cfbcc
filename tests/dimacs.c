/* bev_dimacs as a host calls it: every answer and every byte against an independent reading of the request in plain C, the goal's truth
 * against the file's clauses by brute force, the edges of the grammar, and tables that overflow. */
#include "../include/bevaridhom.h"
#include "tables.h"

enum { LITS = 200000 };
typedef struct { unsigned vars; size_t clauses, end[LITS / 4]; int lit[LITS]; size_t lits; } o_file;
static o_file file;

static int digit(const char *t, size_t len, size_t i) { return i < len && t[i] >= '0' && t[i] <= '9'; }

/* A number of 1 to 9 digits, or 0 and no digits read. */
static size_t digits(const char *t, size_t len, size_t i, unsigned long *value)
{
    size_t n = 0;
    for (*value = 0; digit(t, len, i + n); n++)
        if (n < 10)
            *value = 10 * *value + (unsigned long)(t[i + n] - '0');
    return n <= 9 ? n : 0;
}

/* 0, 60 or 61. */
static unsigned o_parse(const char *t, size_t len)
{
    size_t i = 0, n;
    unsigned long v, c;
    file.clauses = file.lits = 0;
    while (i < len && t[i] == 'c') {
        while (i < len && t[i] != '\n')
            i++;
        i += i < len;
    }
    if (len - i < 6 || memcmp(t + i, "p cnf ", 6))
        return 60;
    i += 6;
    if (!(n = digits(t, len, i, &v)) || i + n >= len || t[i + n] != ' ')
        return 60;
    i += n + 1;
    if (!(n = digits(t, len, i, &c)) || i + n >= len || t[i + n] != '\n' || v > 1024)
        return 60;
    i += n + 1;
    file.vars = (unsigned)v;
    size_t open = 0;
    for (;;) {
        unsigned long x;
        int no;
        while (i < len && (t[i] == ' ' || t[i] == '\n'))
            i++;
        if (i == len)
            break;
        no = t[i] == '-';
        i += (size_t)no;
        n = digits(t, len, i, &x);
        if (!n || (i + n < len && t[i + n] != ' ' && t[i + n] != '\n') || (no && x == 0) || x > v)
            return 61;
        i += n;
        if (x == 0) {
            file.end[file.clauses++] = file.lits;
            open = 0;
        } else {
            file.lit[file.lits++] = (int)(2 * (x - 1)) + no;
            open++;
        }
    }
    return open || file.clauses != c ? 61 : 0;
}

/* The records of the table so far; one more, found or new. */
static uint8_t records[2016][8];
static size_t nodes;

static o_added grow(size_t len, unsigned kind, unsigned a, unsigned b)
{
    uint8_t r[8];
    int turn = kind != 5 && kind > 2 && a / 2 > b / 2;
    rec(r, kind, turn ? b : a, turn ? a : b);
    for (size_t m = 0; m < nodes; m++)
        if (memcmp(records[m], r, 8) == 0) {
            o_added found = { 0, 0, 2 * m, 512 * ((nodes + 62) / 63) };
            return found;
        }
    o_added v = { nodes == 2016 ? 51 : 512 * (nodes / 63 + 1) > len ? 52 : 0, nodes, 0, 0 };
    if (v.number)
        return v;
    memcpy(records[nodes++], r, 8);
    o_added done = { 0, 0, 2 * (nodes - 1), 512 * ((nodes + 62) / 63) };
    return done;
}

/* A clause: TRUE for both signs, false for none, else its literals without repeats folded left by OR. */
static o_added o_clause(size_t len, size_t used, const int *lit, size_t n)
{
    static int kept[LITS];
    size_t count = 0;
    int both = 0;
    for (size_t i = 0; i < n; i++) {
        int there = 0;
        for (size_t j = 0; j < count; j++) {
            there |= kept[j] == lit[i];
            both |= kept[j] == (lit[i] ^ 1);
        }
        if (!there)
            kept[count++] = lit[i];
    }
    if (both || count == 0) {
        o_added v = grow(len, 1, 0, 0);
        v.literal += v.number == 0 && !both;
        return v;
    }
    o_added v = { 0, 0, (size_t)kept[0], used };
    for (size_t j = 1; j < count && !v.number; j++)
        v = grow(len, 4, (unsigned)v.literal, (unsigned)kept[j]);
    return v;
}

static o_added o_dimacs(const char *t, size_t text_len, size_t len)
{
    o_added v = { o_parse(t, text_len), 0, 0, 0 };
    nodes = 0;
    if (v.number)
        return v;
    for (unsigned p = 0; p < file.vars; p++) {
        v = grow(len, 2, p, 0);
        if (v.number)
            return v;
    }
    if (file.clauses == 0)
        return grow(len, 1, 0, 0);
    for (size_t k = 0, from = 0; k < file.clauses; from = file.end[k++]) {
        size_t goal = v.literal;
        v = o_clause(len, v.used, file.lit + from, file.end[k] - from);
        if (v.number)
            return v;
        if (k == 0 || goal == v.literal)
            continue;
        if (goal == (v.literal ^ 1)) {
            v = grow(len, 1, 0, 0);
            v.literal++;
        } else
            v = grow(len, 3, (unsigned)goal, (unsigned)v.literal);
        if (v.number)
            return v;
    }
    return v;
}

static int file_true(const uint8_t *s)
{
    for (size_t k = 0, from = 0; k < file.clauses; from = file.end[k++]) {
        int met = 0;
        for (size_t i = from; i < file.end[k]; i++)
            met |= (s[file.lit[i] / 2] == 1) != (file.lit[i] & 1);
        if (!met)
            return 0;
    }
    return 1;
}

/* The answer, the buffer, and under each choice of the first points the goal's truth. The number that was answered. */
static unsigned text_is(const char *t, size_t n, size_t len)
{
    static uint8_t mine[16384 + GUARD], theirs[16384 + GUARD], s[1024];
    for (size_t i = 0; i < len + GUARD; i++)
        mine[i] = theirs[i] = (uint8_t)pick(256);
    o_added right = o_dimacs(t, n, len);
    if (!right.number)
        o_build(mine, (const uint8_t (*)[8])records, nodes);
    bev_added v = bev_dimacs((const uint8_t *)t, n, theirs, len);
    EXPECT(v.number == right.number && v.place == right.place);
    EXPECT(right.number ? v.literal == 0 && v.used == 0 : v.literal == right.literal && v.used == right.used);
    if (right.number != 51 && right.number != 52)
        EXPECT(memcmp(mine, theirs, len + GUARD) == 0);
    else
        EXPECT(memcmp(mine + len, theirs + len, GUARD) == 0);
    if (right.number)
        return right.number;
    EXPECT(bev_count(theirs, v.used).number == 0);
    if (file.vars <= 8)
        for (unsigned w = 0; w < 1u << file.vars; w++) {
            for (unsigned p = 0; p < file.vars; p++)
                s[p] = w >> p & 1;
            EXPECT(o_truth(theirs, s, v.literal) == file_true(s));
        }
    return 0;
}

static void edges(void)
{
    static const struct { unsigned number; const char *text; } cases[] = {
        { 60, "" }, { 60, "p cnf 1 0" }, { 60, "p  cnf 1 0\n" }, { 60, "p cnf  1 0\n" }, { 60, "p cnf 1 0 \n" }, { 60, "p cnf 1\n" },
        { 60, "\np cnf 1 0\n" }, { 60, " p cnf 1 0\n" }, { 60, "p cnf 1025 0\n" }, { 60, "p cnf 0000000001 0\n" }, { 60, "p cnf 1 0000000000\n" },
        { 60, "c p cnf 1 0" }, { 60, "c" }, { 60, "p cnf -1 0\n" }, { 60, "p cnf 1 0\r\n" }, { 60, "p cnf 1025 1\nx" }, { 60, "P cnf 1 0\n" },
        { 61, "p cnf 1 1\n1 0\nc\n" }, { 61, "p cnf 1 1\nc\n1 0\n" }, { 61, "p cnf 1 1\n1\n" }, { 61, "p cnf 1 1\n-0\n" }, { 61, "p cnf 1 1\n2 0\n" },
        { 61, "p cnf 1 2\n1 0\n" }, { 61, "p cnf 1 0\n0\n" }, { 61, "p cnf 1 1\n1-1 0\n" }, { 61, "p cnf 1 1\n+1 0\n" }, { 61, "p cnf 1 1\n0000000001 0\n" },
        { 61, "p cnf 1 1\n1\t0\n" }, { 61, "p cnf 1 1\n- 1 0\n" }, { 61, "p cnf 1 1\n1 00 0\n" }, { 61, "p cnf 0 1\n1 0\n" }, { 61, "p cnf 1 1\n" },
        { 0, "p cnf 0 0\n" }, { 0, "p cnf 0 1\n0\n" }, { 0, "p cnf 1 0\n" }, { 0, "p cnf 1024 0\n" }, { 0, "p cnf 1 1\n1 0" }, { 0, "p cnf 1 1\n 1\n\n0 \n" },
        { 0, "c\ncomment\np cnf 1 1\n-1 0\n" }, { 0, "p cnf 000000002 000000001\n02 -000000001 000\n" }, { 0, "p cnf 2 2\n1 1 2 1 0\n2 2 0\n" },
        { 0, "p cnf 2 3\n1 -1 0 2 0 0\n" }, { 0, "p cnf 1 2\n1 0 -1 0\n" }, { 0, "p cnf 1 3\n1 0 1 0 1 0\n" }, { 0, "p cnf 3 2\n1 -2 3 0 3 -2 1 0\n" },
        { 0, "p cnf 2 2\n0 0\n" }, { 0, "p cnf 2 2\n1 -1 0 2 -2 0\n" },
    };
    for (size_t i = 0; i < sizeof cases / sizeof *cases; i++)
        EXPECT(text_is(cases[i].text, strlen(cases[i].text), 16384) == cases[i].number);
    EXPECT(bev_dimacs(NULL, 0, NULL, 0).number == 60);
    EXPECT(text_is("p cnf 1 1\n1 0\n", 14, 511) == 52 && text_is("p cnf 0 0\n", 10, 0) == 52 && text_is("p cnf 1 1\n1 x\n", 14, 0) == 61);
    EXPECT(text_is("p cnf 63 1\n63 0\n", 16, 512) == 0 && text_is("p cnf 64 1\n64 0\n", 16, 1023) == 52 && text_is("p cnf 63 1\n1 2 0\n", 17, 512) == 52);
    printf("edges\n");
}

/* 1,024 points and so many ORs of two, with their ANDs. */
static void overflow(void)
{
    static char t[65536];
    for (int many = 494; many <= 498; many++) {
        int n = sprintf(t, "p cnf 1024 %d\n", many);
        for (int k = 0; k < many; k++)
            n += sprintf(t + n, "%d -%d 0\n", k + 1, k + 2);
        EXPECT(text_is(t, (size_t)n, 16384) == (1024 + many + many - 1 > 2016 ? 51 : 0));
    }
    printf("overflow\n");
}

static void random_files(void)
{
    static char t[4096];
    unsigned long numbers[62] = { 0 };
    for (int round = 0; round < 8000 && !failed; round++) {
        unsigned vars = pick(6), clauses = pick(7);
        int n = 0;
        if (pick(4) == 0)
            n += sprintf(t, "c p cnf 1 1\n");
        n += sprintf(t + n, "p cnf %u %u\n", vars, clauses);
        for (unsigned k = 0; k < clauses; k++) {
            for (unsigned m = vars ? pick(5) : 0; m; m--)
                n += sprintf(t + n, "%s%u%s", pick(2) ? "-" : "", 1 + pick(vars), pick(5) ? " " : " \n");
            n += sprintf(t + n, "0%s", pick(2) ? "\n" : " ");
        }
        if (pick(3) == 0)
            t[pick((unsigned)n)] = "0123456789 -\ncpx"[pick(16)];
        numbers[text_is(t, pick(10) ? (size_t)n : pick((unsigned)n + 1), 512 * (1 + pick(3)))]++;
    }
    printf("random files: %lu read, %lu 60, %lu 61, %lu 52\n", numbers[0], numbers[60], numbers[61], numbers[52]);
    EXPECT(numbers[0] > 2000 && numbers[60] > 200 && numbers[61] > 400);
}

int main(void)
{
    guard();
    edges();
    overflow();
    random_files();
    EXPECT(whole());
    printf("%lu checks, %lu failed\n", checks, failed);
    return failed ? 1 : 0;
}
