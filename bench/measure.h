/* Measuring: both sides by turns in CPU seconds, the best of some rounds; figures, and how each call does beside its aim. */
#ifndef MEASURE_H
#define MEASURE_H

#include "calls.h"
#include <math.h>
#include <time.h>

enum { ROUNDS = 25 };
static const double SAMPLE = 0.004, SPENT = 0.8; /* seconds: of a sample at least, of a case's rounds about */

typedef struct { double seconds[2]; } times;

static void fail(const a_case *c, const char *what)
{
    printf("%s: %s: the library says %zu at %zu, %zu, %zu; plain says %zu at %zu, %zu, %zu; or the bytes differ\n", c->name, what, said[LIB].number,
        said[LIB].place, said[LIB].value, said[LIB].more, said[PLAIN].number, said[PLAIN].place, said[PLAIN].value, said[PLAIN].more);
    exit(1);
}

/* The answers of both sides, and all bytes that they wrote, are the same, and no refusal. */
static void same(const a_case *c, const char *what)
{
    if (said[LIB].number || memcmp(&said[LIB], &said[PLAIN], sizeof(answer)) || memcmp(&lent[LIB], &lent[PLAIN], sizeof lent[LIB])
        || (derivation[LIB] && memcmp(derivation[LIB], derivation[PLAIN], size_of_steps())))
        fail(c, what);
}

static double seconds(operation f, const a_case *c, int side, unsigned times)
{
    clock_t from = clock();
    for (unsigned i = 0; i < times; i++)
        f(c, side);
    return (double)(clock() - from) / CLOCKS_PER_SEC;
}

/* Both sides once, with the answers compared; then by turns, as often as the time allows. */
static times measure(operation f, const a_case *c, const char *what)
{
    times best;
    unsigned repeat[2];
    double spent = 0;
    for (int side = LIB; side <= PLAIN; side++) {
        best.seconds[side] = seconds(f, c, side, 1);
        repeat[side] = best.seconds[side] < SAMPLE ? (unsigned)(SAMPLE / (best.seconds[side] + 1e-6)) + 1 : 1;
        spent += best.seconds[side];
    }
    same(c, what);
    for (int round = 0; round < ROUNDS && spent < SPENT; round++)
        for (int side = LIB; side <= PLAIN; side++) {
            double s = seconds(f, c, side, repeat[side]);
            spent += s;
            if (s / repeat[side] < best.seconds[side])
                best.seconds[side] = s / repeat[side];
        }
    same(c, what);
    return best;
}

/* The calls, the aim of each as a multiple of plain, and what was seen. */
static struct { const char *name; double aim, sum, best, worst; unsigned cases, missed; } calls[] = { { .name = "read", .aim = 1.0 }, { .name = "record", .aim = 1.3 },
    { .name = "evaluate", .aim = 1.3 }, { .name = "add", .aim = 1.3 }, { .name = "dimacs", .aim = 1.3 }, { .name = "decide", .aim = 1.1 },
    { .name = "listing", .aim = 1.3 }, { .name = "clash", .aim = 1.3 }, { .name = "overview", .aim = 1.3 }, { .name = "wishes", .aim = 1.3 },
    { .name = "rooms", .aim = 1.3 }, { .name = "derive", .aim = 1.4 }, { .name = "derive two", .aim = 1.4 }, { .name = "check", .aim = 1.3 },
    { .name = "check two", .aim = 1.3 }, { .name = "open", .aim = 1.3 }, { .name = "step", .aim = 1.3 } };

static FILE *figures;

static size_t call_of(const char *name)
{
    size_t k = 0;
    while (strcmp(calls[k].name, name))
        k++;
    return k;
}

/* A line of a case, and of the figures. */
static void report(const char *call, const a_case *c, const char *what, times t, double units, const char *unit)
{
    size_t k = call_of(call);
    double ratio = t.seconds[LIB] / t.seconds[PLAIN];
    int missed = ratio > calls[k].aim;
    calls[k].sum += log(ratio);
    calls[k].best = calls[k].cases == 0 || ratio < calls[k].best ? ratio : calls[k].best;
    calls[k].worst = ratio > calls[k].worst ? ratio : calls[k].worst;
    calls[k].cases++;
    calls[k].missed += (unsigned)missed;
    printf("%-10s %-28s %5zu nodes %9.0f %-6s library %11.1f us, plain %11.1f us, ratio %5.2f%s\n", call, what, c->nodes, units, unit,
        1e6 * t.seconds[LIB], 1e6 * t.seconds[PLAIN], ratio, missed ? "  misses" : "");
    fflush(stdout);
    if (figures)
        fprintf(figures, "%s\t%s\t%zu\t%.0f\t%s\t%.3f\t%.3f\t%.3f\t%.1f\n", call, what, c->nodes, units, unit, 1e6 * t.seconds[LIB],
            1e6 * t.seconds[PLAIN], ratio, calls[k].aim);
}

static int open_figures(const char *path)
{
    figures = fopen(path, "w");
    if (figures)
        fprintf(figures, "# call\tcase\tnodes\tunits\tunit\tlibrary us\tplain us\tratio\taim\n");
    return figures != NULL;
}

/* The whole library: each call's ratios beside its aim. */
static void summary(void)
{
    printf("\n%-10s %5s %6s %6s %6s %6s\n", "call", "cases", "mean", "best", "worst", "aim");
    for (size_t k = 0; k < sizeof calls / sizeof *calls; k++)
        if (calls[k].cases) {
            printf("%-10s %5u %6.2f %6.2f %6.2f %6.1f", calls[k].name, calls[k].cases, exp(calls[k].sum / calls[k].cases), calls[k].best, calls[k].worst,
                calls[k].aim);
            if (calls[k].missed)
                printf("  %u of %u miss it", calls[k].missed, calls[k].cases);
            printf("\n");
        }
}

#endif
