/* How the cost grows: with the nodes, goals, wishes, rooms and splits; both sides, as lines of panel, series, x, and microseconds of each. */
#include "asks.h"
#include "measure.h"

static a_case now;

static void point(const char *panel, const char *series, double x, operation f)
{
    times t = measure(f, &now, series);
    printf("%s\t%s\t%g\t%.3f\t%.3f\n", panel, series, x, 1e6 * t.seconds[LIB], 1e6 * t.seconds[PLAIN]);
    fflush(stdout);
}

/* Nodes: a table that is read, evaluated, added to once, and decided by units alone. */
static uint8_t last_record[8];

static void add_one(const a_case *c, int side)
{
    memcpy(lent[side].buffer, c->table, c->len);
    if (side == LIB) {
        bev_added v = bev_add(lent[LIB].buffer, 16384, c->len, last_record);
        say(LIB, v.number, v.place, v.literal, v.used);
    } else {
        p_added v = p_add(lent[PLAIN].buffer, 16384, c->len, last_record);
        say(PLAIN, v.number, v.place, v.literal, v.used);
    }
}

static void nodes(void)
{
    static const unsigned sizes[] = { 126, 252, 504, 1008, 2015 };
    uint64_t r = BEV_ATOM | (uint64_t)1000 << 16;
    memcpy(last_record, &r, 8);
    for (size_t k = 0; k < sizeof sizes / sizeof *sizes; k++) {
        for (int side = LIB; side <= PLAIN; side++)
            memset(lent[side].settings, 1, 1024);
        easy(&now, sizes[k], 1);
        point("nodes", "read", sizes[k], count);
        point("nodes", "evaluate", sizes[k], evaluate);
        point("nodes", "add one", sizes[k], add_one);
        schwichtenberg(&now, sizes[k] / 4 - 1);
        point("nodes", "decide, units alone", (double)now.nodes, decide);
    }
}

/* Goals: of an overview of easy goals, and of a clash in which all are needed, on 2,016 nodes. */
static void all_of(unsigned goals)
{
    unsigned both = none;
    p_list all = { goals, { 0 } };
    for (unsigned i = 0; i + 1 < goals; i++) {
        all.goal[i] = (uint16_t)atom(i);
        both = chain(AND, both, atom(i));
    }
    all.goal[goals - 1] = (uint16_t)no(both);
    easy_nodes(2016, 1);
    write_list(&now, "all needed", goals, all);
}

static void goals(void)
{
    for (size_t count = 1; count <= BEV_ASKED; count *= 4) {
        easy(&now, 2016, 1);
        ask_goals(count, 2016);
        point("goals", "overview, easy goals", (double)count, overview);
    }
    for (unsigned count = 2; count <= BEV_GOALS; count *= 2) {
        all_of(count);
        point("goals", "clash, all needed", count, clash);
    }
}

/* Wishes: points both ways, asked to the end, so that the questions double with each wish. */
static void wished(void)
{
    for (unsigned count = 2; count <= BEV_WISHES; count += 2) {
        wish_both_ways(&now, 2016, count, 65535);
        point("wishes", "points both ways", count, wishes);
    }
    for (unsigned count = 1; count <= BEV_WISHES; count += count < 4 ? 1 : 2) {
        wish_any(&now, 2016, count, 0, 65535, 1);
        point("wishes", "any literals, all met", count, wishes);
    }
}

/* Rooms: as many questions, to their verdicts at once; and one more call of a single turn, behind some thousand. */
static void one_turn(const a_case *c, int side)
{
    p_turned v;
    size_t made = 0;
    p_refusal no = room_call(c, side, 0, 1, &v);
    for (size_t i = 0; i < asked.count; i++)
        made += v.turns[i];
    say(side, no.number, no.place, made, 0);
}

static void roomed(void)
{
    for (size_t q = 1; q <= BEV_QUESTIONS; q++) {
        p_turned v;
        pigeonhole(&now, 5);
        ask_rooms(&now, q, SIZE_MAX, 0, 0);
        point("rooms", "pigeonhole 5, at once", (double)q, rooms);
        pigeonhole(&now, 7);
        ask_rooms(&now, q, 0, 0, 0);
        for (int side = LIB; side <= PLAIN; side++) {
            room_call(&now, side, 1, 0, &v);
            room_call(&now, side, 0, 1000 * q, &v);
        }
        point("rooms", "pigeonhole 7, a call of one turn", (double)q, one_turn);
    }
}

/* Splits: the time of a search by the splits it makes; and splits that have no part in the clash, jumped over and not. */
static void split(const char *series)
{
    decide(&now, PLAIN);
    point("splits", series, (double)p_made, decide);
}

static void splits(void)
{
    static const struct { unsigned points, seed; } random[] = { { 30, 1 }, { 40, 2 }, { 50, 2 }, { 60, 6 }, { 80, 2 }, { 70, 3 }, { 90, 5 } };
    for (unsigned n = 3; n <= 8; n++) {
        pigeonhole(&now, n);
        split("pigeonhole 3 to 8");
    }
    for (unsigned n = 6; n <= 16; n += 2) {
        equivalences(&now, n);
        split("equivalences 6 to 16");
    }
    for (size_t k = 0; k < sizeof random / sizeof *random; k++) {
        random_clauses(&now, random[k].points, random[k].seed);
        split("random clauses, 30 to 90 points");
    }
}

static void free_pairs(void)
{
    for (unsigned n = 0; n <= 24; n += 2) {
        free_points(&now, n);
        point("pairs", "decide (jumps)", n, decide);
        if (n <= 12) {
            ask_rooms(&now, 1, SIZE_MAX, 0, 0);
            point("pairs", "rooms (plain order)", n, rooms);
        }
    }
}

int main(void)
{
    nodes();
    goals();
    wished();
    roomed();
    splits();
    free_pairs();
    return 0;
}
