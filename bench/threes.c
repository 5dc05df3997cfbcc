/* What conditions of three literals cost and bring. First tables of two operands, the library before such conditions beside this one, by turns;
 * then, of this one alone, the same conditions in threes beside pairs. `threes` builds and runs it. */
#include "calls.h"
#include <math.h>
#include <time.h>

/* The library of commit 162a2fb, which has kinds 1 to 6; its answers are those of today but for the splits of decide. */
bev_counted old_count(const uint8_t *table, size_t table_len);
bev_truth old_evaluate(const uint8_t *table, size_t table_len, size_t literal, const uint8_t *settings, size_t settings_len);
bev_added old_add(uint8_t *buffer, size_t buffer_len, size_t used, const uint8_t record[BEV_RECORD]);
bev_decided old_decide(const uint8_t *table, size_t table_len, const uint16_t *goals, size_t goals_len, uint8_t *settings, size_t settings_len,
    uint16_t *work, size_t work_len);
bev_derived old_derive(const uint8_t *table, size_t table_len, const uint16_t *goals, size_t goals_len, uint8_t version_two, uint16_t *work,
    size_t work_len, uint8_t *derivation, size_t derivation_len);
bev_checked old_check(const uint8_t *table, size_t table_len, const uint16_t *goals, size_t goals_len, uint16_t *work, size_t work_len,
    const uint8_t *derivation, size_t derivation_len);

enum { NOW, OLD, ROUNDS = 25 };
static const double SAMPLE = 0.004, SPENT = 0.6; /* seconds: of a sample at least, of a case's rounds about */

typedef size_t (*call)(const a_case *c, int old);
static const uint8_t *handed;

static size_t counts(const a_case *c, int old) { return (old ? old_count : bev_count)(c->table, c->len).nodes; }

static size_t evaluates(const a_case *c, int old)
{
    return (old ? old_evaluate : bev_evaluate)(c->table, c->len, c->goals.goal[0], lent[0].settings, 1024).truth;
}

static size_t adds_all(const a_case *c, int old)
{
    size_t used = 0;
    for (size_t n = 0; n < c->nodes; n++)
        used = (old ? old_add : bev_add)(lent[0].buffer, 16384, used, c->table + 512 * (n / 63) + 4 + 8 * (n % 63)).used;
    return used;
}

static size_t decides(const a_case *c, int old)
{
    static uint8_t settings[1024];
    return (old ? old_decide : bev_decide)(c->table, c->len, c->goals.goal, c->goals.count, settings, 1024, work[0], BEV_WORK).possible;
}

static size_t derives(const a_case *c, int old)
{
    return (old ? old_derive : bev_derive)(c->table, c->len, c->goals.goal, c->goals.count, 0, work[0], BEV_WORK, derivation[old], ROOM).steps;
}

static size_t checks(const a_case *c, int old)
{
    return (old ? old_check : bev_check)(c->table, c->len, c->goals.goal, c->goals.count, work[0], BEV_WORK, handed, size_of_steps()).number;
}

typedef struct { call f; const a_case *c; int old; } side;

static double seconds(const side *s, unsigned times)
{
    clock_t from = clock();
    for (unsigned i = 0; i < times; i++)
        s->f(s->c, s->old);
    return (double)(clock() - from) / CLOCKS_PER_SEC;
}

/* The time of the first by that of the second: by turns, the best of some rounds. */
static double ratio(const side pair[2])
{
    double best[2], spent = 0;
    unsigned repeat[2];
    for (int k = 0; k < 2; k++) {
        best[k] = seconds(&pair[k], 1);
        repeat[k] = best[k] < SAMPLE ? (unsigned)(SAMPLE / (best[k] + 1e-6)) + 1 : 1;
        spent += best[k];
    }
    for (int round = 0; round < ROUNDS && spent < SPENT; round++)
        for (int k = 0; k < 2; k++) {
            double s = seconds(&pair[k], repeat[k]);
            spent += s;
            best[k] = s / repeat[k] < best[k] ? s / repeat[k] : best[k];
        }
    return best[0] / best[1];
}

/* One case of tables of two operands. Both answer the same. */
static double pairs(const char *name, call f, const a_case *c)
{
    side both[2] = { { f, c, NOW }, { f, c, OLD } };
    if (f(c, NOW) != f(c, OLD)) {
        printf("%s of %s: the answers differ\n", name, c->name);
        exit(1);
    }
    double r = ratio(both);
    printf("%-10s %-24s now / before %5.2f\n", name, c->name, r);
    return r;
}

static double worst;

static void beside(const char *name, call f, const a_case *c)
{
    double r = pairs(name, f, c);
    worst = r > worst ? r : worst;
}

static void steps_beside(const a_case *c)
{
    beside("derive", derives, c);
    steps = derives(c, OLD);
    handed = derivation[OLD];
    beside("check", checks, c);
}

static void two_operands(void)
{
    static a_case c;
    for (int k = 0; k < 10; k++) {
        switch (k) {
        case 0: easy(&c, 2016, 1); break;
        case 1: random_clauses(&c, 90, 3); break;
        case 2: random_clauses(&c, 60, 6); break;
        case 3: pigeonhole(&c, 5); break;
        case 4: pigeonhole(&c, 7); break;
        case 5: equivalences(&c, 12); break;
        case 6: de_bruijn(&c, 200); break;
        case 7: franzen(&c, 125); break;
        case 8: schwichtenberg(&c, 500); break;
        case 9: stretches(&c, 100); break;
        }
        beside("decide", decides, &c);
        if (k < 2) {
            beside("read", counts, &c);
            beside("evaluate", evaluates, &c);
            beside("add", adds_all, &c);
        } else if (k < 9)
            steps_beside(&c);
    }
}

/* The same conditions in threes beside pairs: time, and the moves that the fixed order makes. */
static void in_threes(const char *what, a_case *threes, a_case *two)
{
    side both[2] = { { decides, threes, NOW }, { decides, two, NOW } };
    uint64_t moves[2];
    for (int k = 0; k < 2; k++) {
        decide(both[k].c, PLAIN);
        moves[k] = p_moves;
    }
    printf("%-16s threes / pairs: decide %5.2f, its moves %5.2f (%llu, %llu), read %5.2f\n", what, ratio(both), (double)moves[0] / (double)moves[1],
        (unsigned long long)moves[0], (unsigned long long)moves[1], ratio((side[2]){ { counts, threes, NOW }, { counts, two, NOW } }));
}

static void same_conditions(void)
{
    static const struct { unsigned points, seed; } random[] = { { 50, 11 }, { 60, 6 }, { 70, 8 }, { 80, 5 } };
    static a_case threes, two;
    char name[32];
    for (size_t k = 0; k < sizeof random / sizeof *random; k++) {
        clauses_of_three(&threes, random[k].points, random[k].seed, 1);
        clauses_of_three(&two, random[k].points, random[k].seed, 0);
        snprintf(name, sizeof name, "random %u/%u", random[k].points, random[k].seed);
        in_threes(name, &threes, &two);
    }
    for (unsigned n = 4; n < 8; n++) {
        pigeons(&threes, n, 1);
        pigeons(&two, n, 0);
        snprintf(name, sizeof name, "pigeons %u", n);
        in_threes(name, &threes, &two);
    }
}

int main(void)
{
    derivation[NOW] = calloc(2, ROOM);
    if (!derivation[NOW])
        return 2;
    derivation[OLD] = derivation[NOW] + ROOM;
    memset(lent[0].settings, 1, 1024);
    two_operands();
    printf("tables of two operands: now / before at most %.2f\n", worst);
    same_conditions();
    return 0;
}
