/* The library beside the plain implementation, every call, in one run: times of both by turns, the ratio and the aim. The answers and all bytes
 * of both are compared, and the run ends at a difference. `bench [--figures FILE] [CALL ..]`; derive goes with check, open and step. */
#include "asks.h"
#include "measure.h"

static a_case now;

static void run(const char *call, operation f, double units, const char *unit)
{
    times t = measure(f, &now, call);
    report(call, &now, now.name, t, units, unit);
}

static void of_moves(const char *call, operation f)
{
    times t = measure(f, &now, call);
    report(call, &now, now.name, t, (double)p_moves, "moves");
}

/* Reading: tables of pairs, and of threes. */
static void reading(const char *call, operation f)
{
    easy(&now, 2016, 1);
    run(call, f, 2016, "nodes");
    random_clauses(&now, 90, 3);
    run(call, f, (double)now.nodes, "nodes");
    clauses_of_three(&now, 200, 5, 1);
    run(call, f, (double)now.nodes, "nodes");
}

static void reads(void) { reading("read", count); }
static void records(void) { reading("record", record); }

static void evaluates(void)
{
    for (int k = 0; k < 2; k++) {
        for (int i = 0; i < 1024; i++)
            lent[LIB].settings[i] = lent[PLAIN].settings[i] = k ? (uint8_t)(i % 3) : (uint8_t)(i & 1);
        reading("evaluate", evaluate); /* the second time with points that may go either way */
    }
}

static void adding(void)
{
    easy(&now, 2016, 1);
    run("add", adds, 2016, "adds");
    clauses_of_three(&now, 200, 5, 1);
    run("add", adds, (double)now.nodes, "adds");
}

static void texts(void)
{
    for (int k = 0; k < 4; k++) {
        if (k < 2)
            random_text(k ? 100 : 25, 3);
        else
            pigeon_text(k == 2 ? 5 : 10);
        dimacs(&now, PLAIN);
        now.nodes = p_table.nodes;
        snprintf(now.name, sizeof now.name, k < 2 ? "random text %d" : "pigeonhole text %d", k == 0 ? 25 : k == 1 ? 100 : k == 2 ? 5 : 10);
        run("dimacs", dimacs, (double)asked.dimacs_len, "bytes");
    }
}

static void listings(void)
{
    for (unsigned k = 0; k < 3; k++) {
        if (k < 2)
            easy(&now, 2016, 2 + k);
        else
            schwichtenberg(&now, 500);
        run("listing", listing, 2 * (double)now.nodes, "goals");
    }
}

/* Searches with splits, of units alone, and of goals that are known at once. */
static void searches(void)
{
    static const struct { unsigned points, seed; } random[] = { { 50, 2 }, { 60, 6 }, { 70, 3 }, { 80, 2 }, { 80, 3 }, { 90, 3 }, { 90, 5 } };
    for (unsigned n = 4; n <= 8; n++) {
        pigeonhole(&now, n);
        of_moves("decide", decide);
    }
    for (unsigned n = 8; n <= 16; n += 4) {
        equivalences(&now, n);
        of_moves("decide", decide);
    }
    for (size_t k = 0; k < sizeof random / sizeof *random; k++) {
        random_clauses(&now, random[k].points, random[k].seed);
        of_moves("decide", decide);
    }
    for (size_t goals = 8; goals <= P_GOALS; goals *= 8) {
        random_list(&now, 80, 2, goals);
        of_moves("decide", decide);
    }
    static void (*const units[])(a_case *, unsigned) = { de_bruijn, franzen, schwichtenberg };
    for (unsigned k = 0; k < 3; k++)
        for (unsigned n = k ? 125 : 50; n <= (k ? 500 : 200); n *= 2) {
            units[k](&now, n);
            of_moves("decide", decide);
        }
    for (unsigned seed = 1; seed < 3; seed++) {
        easy(&now, 2016, seed);
        snprintf(now.name, sizeof now.name, "easy 2016/%u", seed);
        of_moves("decide", decide);
    }
}

/* Conditions in threes; splits that have no part in the clash; and what is costly by its shape: a node with 2,013 parents, long stretches
 * of met clauses. */
static void more_searches(void)
{
    static const struct { unsigned points, seed; } random[] = { { 50, 11 }, { 70, 8 }, { 80, 5 } };
    for (unsigned k = 0; k < 3; k++) {
        pigeons(&now, 5 + k, 1);
        of_moves("decide", decide);
    }
    for (unsigned k = 0; k < 3; k++) {
        clauses_of_three(&now, random[k].points, random[k].seed, 1);
        of_moves("decide", decide);
    }
    free_points(&now, 24);
    of_moves("decide", decide);
    for (unsigned n = 6; n <= 8; n++) {
        two_problems(&now, n);
        of_moves("decide", decide);
    }
    stretches(&now, 25);
    of_moves("decide", decide);
    stretches(&now, 100);
    of_moves("decide", decide);
    deepest(&now);
    of_moves("decide", decide);
}

static void decides(void)
{
    searches();
    more_searches();
}

/* 64 goals on a table of 2,016 nodes, and random clauses in eight parts. */
static void clashes(void)
{
    for (unsigned k = 0; k < 3; k++) {
        clashing(&now, 2016, k + 1);
        of_moves("clash", clash);
    }
    all_needed(&now, 2016);
    of_moves("clash", clash);
    random_list(&now, 50, 2, 8);
    of_moves("clash", clash);
}

/* 256 goals of an easy table of 2,016 nodes, and of random clauses. */
static void overviews(void)
{
    for (unsigned seed = 1; seed < 4; seed++) {
        if (seed < 3)
            easy(&now, 2016, seed);
        else
            random_clauses(&now, 50, 2);
        ask_goals(BEV_ASKED, now.nodes);
        if (seed < 3)
            snprintf(now.name, sizeof now.name, "easy 2016/%u, 256 goals", seed);
        else
            strcat(now.name, ", 256 goals");
        of_moves("overview", overview);
    }
}

static void wish(void)
{
    for (unsigned k = 0; k < 6; k++) {
        switch (k) {
        case 0: wish_both_ways(&now, 2016, 16, 1000); break;
        case 1: wish_both_ways(&now, 2016, 12, 65535); break;
        case 2: wish_any(&now, 2016, 16, 3, 1000, 1); break;
        case 3: wish_any(&now, 2016, 16, 3, 1000, 2); break;
        case 4: wish_any(&now, 2016, 16, 0, 1000, 1); break;
        case 5: wish_parts(&now, 50, 2, 12, 200); break;
        }
        times t = measure(wishes, &now, "wishes");
        report("wishes", &now, now.name, t, (double)said[LIB].more, "asked");
    }
}

/* One question and eight: all turns at once, and calls of 1 and of 100 turns behind a first one. */
static void in_rooms(void)
{
    static const struct { const char *name; size_t first, allowance, most; } share[] = { { "at once", SIZE_MAX, 0, 0 }, { "by 100", 1000, 100, 50 },
        { "by 1", 1000, 1, 50 } };
    for (unsigned k = 0; k < 4; k++)
        for (size_t q = 1; q <= BEV_QUESTIONS; q += 7)
            for (int s = 0; s < 3; s++) {
                char name[64];
                switch (k) {
                case 0: pigeonhole(&now, 6); break;
                case 1: equivalences(&now, 12); break;
                case 2: random_clauses(&now, 60, 6); break;
                case 3: de_bruijn(&now, 200); break;
                }
                ask_rooms(&now, q, share[s].first, share[s].allowance, share[s].most);
                snprintf(name, sizeof name, "%zu x %s %s", q, now.name, share[s].name);
                times t = measure(rooms, &now, "rooms");
                report("rooms", &now, name, t, (double)said[LIB].value, "turns");
            }
}

/* Derive and check in the version at hand. */
static void derives_in_version(void)
{
    int two = asked.letter == 86;
    times t = measure(derive, &now, "derive");
    report(two ? "derive two" : "derive", &now, now.name, t, (double)steps, "steps");
    run(two ? "check two" : "check", check, (double)steps, "steps");
}

static void derives(void)
{
    for (int k = 0; k < 11; k++) {
        switch (k) {
        case 0: pigeonhole(&now, 6); break;
        case 1: pigeonhole(&now, 7); break;
        case 2: equivalences(&now, 12); break;
        case 3: equivalences(&now, 16); break;
        case 4: de_bruijn(&now, 200); break;
        case 5: schwichtenberg(&now, 500); break;
        case 6: random_clauses(&now, 60, 6); break;
        case 7: random_clauses(&now, 80, 2); break;
        case 8: random_list(&now, 80, 2, 8); break;
        case 9: pigeons(&now, 6, 1); break;
        case 10: clauses_of_three(&now, 70, 8, 1); break;
        }
        for (asked.letter = 68; asked.letter <= 86; asked.letter += 18) {
            derives_in_version();
            if (k % 5 == 0)
                run("open", opens, (double)steps, "steps");
            if (k == 5)
                run("step", each_step, (double)steps, "steps");
        }
    }
}

int main(int argc, char **argv)
{
    static const struct { const char *name; void (*f)(void); } parts[] = { { "read", reads }, { "record", records }, { "evaluate", evaluates }, { "add", adding },
        { "dimacs", texts }, { "decide", decides }, { "listing", listings }, { "clash", clashes }, { "overview", overviews }, { "wishes", wish },
        { "rooms", in_rooms }, { "derive", derives } };
    int from = 1;
    if (argc > 2 && strcmp(argv[1], "--figures") == 0) {
        from = 3;
        if (!open_figures(argv[2])) {
            perror(argv[2]);
            return 2;
        }
    }
    derivation[LIB] = calloc(2, ROOM);
    if (!derivation[LIB])
        return 2;
    derivation[PLAIN] = derivation[LIB] + ROOM;
    for (size_t k = 0; k < sizeof parts / sizeof *parts; k++) {
        int wanted = from == argc;
        for (int i = from; i < argc; i++)
            wanted |= strcmp(argv[i], parts[k].name) == 0;
        if (wanted)
            parts[k].f();
    }
    summary();
    return figures && fclose(figures) ? 2 : 0;
}
