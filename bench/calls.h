/* Every call of the library on either side: what it is asked, what it said, what it wrote. */
#ifndef CALLS_H
#define CALLS_H

#include "../include/bevaridhom.h"
#include "cases.h"

enum { LIB, PLAIN, ROOM = 33554432 };

typedef struct { size_t number, place, value, more; } answer;
typedef void (*operation)(const a_case *c, int side);

static uint16_t work[2][BEV_QUESTIONS * BEV_WORK]; /* what stays there is each side's own */
static answer said[2];

/* What a side wrote, compared as a whole. */
static struct { uint8_t settings[BEV_QUESTIONS * 1024], buffer[16384], kept[P_GOALS], told[BEV_ASKED]; char text[98304]; } lent[2];
static uint8_t *derivation[2];
static uint64_t steps;

static size_t size_of_steps(void) { return 512 * ((steps + 125) / 126); }

static void say(int side, size_t number, size_t place, size_t value, size_t more)
{
    answer a = { number, place, value, more };
    said[side] = a;
}

/* What the calls are asked beside the table and its goals. */
static struct {
    uint16_t goals[BEV_ASKED];              /* of overview, and of rooms */
    size_t count;
    size_t first, allowance, most;          /* of rooms: turns of the first call, of each other, how many others at most */
    uint16_t wishes[BEV_WISHES];
    size_t wished, questions;               /* how many wishes, the allowance */
    char dimacs[65536];
    size_t dimacs_len, room;                /* of dimacs: the text, the bytes of the buffer */
    int letter;                             /* of derive and check: 68 version one, 86 version two */
} asked = { .room = 16384 };

static void count(const a_case *c, int side)
{
    if (side == LIB) {
        bev_counted v = bev_count(c->table, c->len);
        say(LIB, v.number, v.place, v.nodes, 0);
    } else {
        p_refusal v = p_read(c->table, c->len);
        say(PLAIN, v.number, v.place, v.number ? 0 : p_table.nodes, 0);
    }
}

static void record(const a_case *c, int side)
{
    if (side == LIB) {
        bev_node v = bev_record(c->table, c->len, c->goals.goal[0]);
        say(LIB, v.number, v.place, v.kind, v.a | (size_t)v.b << 16 | (size_t)v.c << 32);
    } else {
        p_refusal v;
        uint64_t r = p_record_of(c->table, c->len, c->goals.goal[0], &v);
        say(PLAIN, v.number, v.place, r & 255, r >> 16);
    }
}

/* Under settings that the run has made. */
static void evaluate(const a_case *c, int side)
{
    if (side == LIB) {
        bev_truth v = bev_evaluate(c->table, c->len, c->goals.goal[0], lent[LIB].settings, 1024);
        say(LIB, v.number, v.place, v.truth, 0);
    } else {
        p_refusal v;
        int truth = p_evaluate(c->table, c->len, c->goals.goal[0], lent[PLAIN].settings, 1024, &v);
        say(PLAIN, v.number, v.place, (size_t)truth, 0);
    }
}

/* The records of a table one after another, into a buffer that is not clear. */
static void adds(const a_case *c, int side)
{
    size_t used = 0;
    memset(lent[side].buffer, 170, 16384);
    for (size_t n = 0; n < c->nodes; n++) {
        const uint8_t *r = c->table + 512 * (n / 63) + 4 + 8 * (n % 63);
        if (side == LIB) {
            bev_added v = bev_add(lent[LIB].buffer, 16384, used, r);
            say(LIB, v.number, v.place, v.literal, used = v.used);
        } else {
            p_added v = p_add(lent[PLAIN].buffer, 16384, used, r);
            say(PLAIN, v.number, v.place, v.literal, used = v.used);
        }
    }
}

static void dimacs(const a_case *c, int side)
{
    const uint8_t *text = (const uint8_t *)asked.dimacs;
    (void)c;
    if (side == LIB) {
        bev_added v = bev_dimacs(text, asked.dimacs_len, lent[LIB].buffer, asked.room);
        say(LIB, v.number, v.place, v.literal, v.used);
    } else {
        p_added v = p_dimacs(text, asked.dimacs_len, lent[PLAIN].buffer, asked.room);
        say(PLAIN, v.number, v.place, v.literal, v.used);
    }
}

static void decide(const a_case *c, int side)
{
    memset(lent[side].settings, 170, 1024);
    if (side == LIB) {
        bev_decided v = bev_decide(c->table, c->len, c->goals.goal, c->goals.count, lent[LIB].settings, 1024, work[LIB], BEV_WORK);
        say(LIB, v.number, v.place, v.possible, v.splits);
    } else {
        p_refusal v;
        int possible = p_decide(c->table, c->len, &c->goals, lent[PLAIN].settings, 1024, &v);
        say(PLAIN, v.number, v.place, (size_t)possible, p_made);
    }
}

static int decided(const uint8_t *t, size_t len, unsigned goal)
{
    uint8_t settings[1024];
    uint16_t goals[1] = { (uint16_t)goal };
    return bev_decide(t, len, goals, 1, settings, 1024, work[LIB], BEV_WORK).possible;
}

/* The listing of a table: a decide for each literal. */
static void listing(const a_case *c, int side)
{
    if (side == LIB) {
        bev_counted v = bev_count(c->table, c->len);
        say(LIB, 0, 0, p_list_nodes(c->table, c->len, p_no(v.number, v.place), v.nodes, decided, lent[LIB].text), 0);
    } else
        say(PLAIN, 0, 0, p_listing(c->table, c->len, lent[PLAIN].text), 0);
}

static void clash(const a_case *c, int side)
{
    if (side == LIB) {
        bev_clashed v = bev_clash(c->table, c->len, c->goals.goal, c->goals.count, work[LIB], BEV_WORK);
        memcpy(lent[LIB].kept, v.kept, P_GOALS);
        say(LIB, v.number, v.place, v.count, 0);
    } else {
        p_refusal v;
        size_t count = p_clash(c->table, c->len, &c->goals, lent[PLAIN].kept, &v);
        say(PLAIN, v.number, v.place, count, 0);
    }
}

static void overview(const a_case *c, int side)
{
    if (side == LIB) {
        bev_answered v = bev_overview(c->table, c->len, asked.goals, asked.count, lent[LIB].told, BEV_ASKED, work[LIB], BEV_WORK);
        say(LIB, v.number, v.place, 0, 0);
    } else {
        p_refusal v;
        p_overview(c->table, c->len, asked.goals, asked.count, lent[PLAIN].told, BEV_ASKED, &v);
        say(PLAIN, v.number, v.place, 0, 0);
    }
}

static void wishes(const a_case *c, int side)
{
    if (side == LIB) {
        bev_wished v = bev_wishes(c->table, c->len, c->goals.goal, c->goals.count, asked.wishes, asked.wished, asked.questions, lent[LIB].settings, 1024,
            work[LIB], BEV_WORK);
        say(LIB, v.number, v.place, v.met | v.bound << 16, v.questions);
    } else {
        p_refusal no;
        p_granted v = p_wishes(c->table, c->len, &c->goals, asked.wishes, asked.wished, asked.questions, lent[PLAIN].settings, 1024, &no);
        say(PLAIN, no.number, no.place, v.met | v.bound << 16, v.questions);
    }
}

/* One call of either side, the first where `allowance` is none: number, turns and verdicts, in one shape. */
static p_refusal room_call(const a_case *c, int side, int first, size_t allowance, p_turned *v)
{
    uint8_t *s = lent[side].settings;
    if (side == PLAIN)
        return first ? p_rooms_open(c->table, c->len, asked.goals, asked.count, sizeof lent[0].settings, work[PLAIN], BEV_QUESTIONS * BEV_WORK, v)
                     : p_rooms_turn(c->table, c->len, asked.goals, asked.count, s, sizeof lent[0].settings, work[PLAIN], BEV_QUESTIONS * BEV_WORK,
                           allowance, v);
    bev_turned b = first ? bev_rooms_open(c->table, c->len, asked.goals, asked.count, s, sizeof lent[0].settings, work[LIB], BEV_QUESTIONS * BEV_WORK)
                         : bev_rooms_turn(c->table, c->len, asked.goals, asked.count, s, sizeof lent[0].settings, work[LIB],
                               BEV_QUESTIONS * BEV_WORK, allowance);
    v->count = b.count;
    memcpy(v->turns, b.turns, sizeof v->turns);
    memcpy(v->verdicts, b.verdicts, sizeof v->verdicts);
    return p_no(b.number, b.place);
}

/* Rooms from the first call: one of `first` turns, then calls until all is known or there were enough of them. */
static void rooms(const a_case *c, int side)
{
    p_turned v;
    size_t made = 0, sum = 0, running = 1;
    p_refusal no = room_call(c, side, 1, 0, &v);
    for (size_t k = 0; k <= asked.most && running && !no.number; k++) {
        no = room_call(c, side, 0, k ? asked.allowance : asked.first, &v);
        running = 0;
        for (size_t i = 0; i < asked.count; i++) {
            made += v.turns[i];
            sum = 31 * sum + v.turns[i] + 7 * v.verdicts[i];
            running |= v.verdicts[i] == 2;
        }
    }
    say(side, no.number, no.place, made, sum);
}

static void derive(const a_case *c, int side)
{
    if (side == LIB) {
        bev_derived v = bev_derive(c->table, c->len, c->goals.goal, c->goals.count, asked.letter == 86, work[LIB], BEV_WORK, derivation[LIB], ROOM);
        say(LIB, v.number, v.place, v.steps, 0);
    } else {
        p_refusal v;
        steps = p_derive(c->table, c->len, &c->goals, asked.letter, derivation[PLAIN], ROOM, &v);
        say(PLAIN, v.number, v.place, steps, 0);
    }
}

static void check(const a_case *c, int side)
{
    if (side == LIB) {
        bev_checked v = bev_check(c->table, c->len, c->goals.goal, c->goals.count, work[LIB], BEV_WORK, derivation[PLAIN], size_of_steps());
        say(LIB, v.number, v.place, 0, 0);
    } else {
        p_refusal v = p_checked(c->table, c->len, &c->goals, derivation[PLAIN], size_of_steps());
        say(PLAIN, v.number, v.place, 0, 0);
    }
}

static void opens(const a_case *c, int side)
{
    (void)c;
    if (side == LIB) {
        bev_opened v = bev_open(derivation[PLAIN], size_of_steps());
        say(LIB, v.number, v.place, v.steps, v.version);
    } else {
        p_refusal no;
        unsigned version;
        size_t count = p_open(derivation[PLAIN], size_of_steps(), &version, &no);
        say(PLAIN, no.number, no.place, count, version);
    }
}

/* Every step of the derivation, one at a time. */
static void each_step(const a_case *c, int side)
{
    size_t k = 0, sum = 0;
    (void)c;
    if (side == LIB) {
        for (bev_stepped v; (v = bev_step(derivation[PLAIN], size_of_steps(), k)).left; k++)
            sum = 31 * sum + (v.rule | (size_t)v.position << 8 | (size_t)v.value << 16);
    } else {
        uint32_t step;
        p_refusal no;
        for (; p_step_at(derivation[PLAIN], size_of_steps(), k, &step, &no); k++)
            sum = 31 * sum + step;
    }
    say(side, 0, 0, k, sum);
}

#endif
