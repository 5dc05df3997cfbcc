/* Plain C: up to eight questions under one allowance.
 *
 * A question's area holds its search: the verdict (2 unfinished), the question after the one served last (in the first area), the literals
 * held and how many are held at each open split. A call takes the searches that it serves up by joining their literals again; what does not
 * fit a search is left out, so that an area of any contents is safe. Searches don't touch each other, so full rounds are not made turn by
 * turn: each question makes its turns of all of them in a row, and only the last round is gone through question by question. */
#ifndef PLAIN_ROOMS_H
#define PLAIN_ROOMS_H

#include "plain_calls.h"

enum { P_QUESTIONS = 8, P_AREA = 32768, P_VERDICT = 0, P_AFTER, P_HELD, P_LEVELS, P_TRAIL = 8, P_SPLITS = P_TRAIL + 2048 };

typedef struct { size_t count, turns[P_QUESTIONS]; uint8_t verdicts[P_QUESTIONS]; } p_turned;

static p_state p_room[P_QUESTIONS];

/* The rows of both calls. */
static p_refusal p_rooms_asked(const uint8_t *t, size_t len, const uint16_t *goals, size_t count, size_t points, size_t numbers)
{
    if (count == 0 || count > P_QUESTIONS)
        return p_no(69, 0);
    p_refusal no = p_read(t, len);
    if (no.number)
        return no;
    for (size_t i = 0; i < count; i++)
        if (goals[i] >= 2 * p_table.nodes)
            return p_no(20, i);
    return p_no(points < 1024 * count ? 21 : numbers < P_AREA * count ? 23 : 0, 0);
}

static p_refusal p_rooms_open(const uint8_t *t, size_t len, const uint16_t *goals, size_t count, size_t points, uint16_t *work, size_t numbers,
    p_turned *v)
{
    memset(v, 0, sizeof *v);
    p_refusal no = p_rooms_asked(t, len, goals, count, points, numbers);
    if (no.number)
        return no;
    v->count = count;
    for (size_t i = 0; i < count; i++) {
        uint16_t *area = work + P_AREA * i;
        area[P_VERDICT] = v->verdicts[i] = 2;
        area[P_AFTER] = area[P_HELD] = area[P_LEVELS] = 0;
    }
    return no;
}

/* Takes a search up: the literals join in order, and a split that is open is entered as it was. */
static void p_take_up(p_state *s, const uint16_t *area, unsigned goal)
{
    unsigned held = area[P_HELD] < P_NODES ? area[P_HELD] : P_NODES, levels = area[P_LEVELS], k = 0;
    p_start(s);
    if (held && area[P_TRAIL + 1] != goal)
        held = 0;
    for (unsigned q = 1; q <= held; q++) {
        unsigned l = area[P_TRAIL + q];
        if (l >= 2 * p_table.nodes || s->value[l] || !px.marked[l / 2])
            break;
        if (k < levels && area[P_SPLITS + k] == q - 1 && k < P_NODES) {
            unsigned i = s->cursor;
            while (i < s->opens && ((p_table.threes ? p_code_at(s, s->row[s->open[i]], 1) : p_code_at(s, s->row[s->open[i]], 0)) & 3) != P_OPEN)
                i++;
            for (; s->summary; s->summary &= s->summary - 1)
                s->unit[__builtin_ctzll(s->summary)] = 0;
            s->level[k++] = (p_level){ (uint16_t)(q - 1), (uint16_t)s->opens, (uint16_t)i, 0 };
            s->cursor = i;
            s->conflict = P_NEVER;
            s->levels = k;
        }
        p_join_literal(s, l);
    }
}

static void p_put_down(const p_state *s, uint16_t *area)
{
    area[P_HELD] = (uint16_t)s->held;
    area[P_LEVELS] = (uint16_t)s->levels;
    memcpy(area + P_TRAIL + 1, s->trail + 1, 2 * s->held);
    for (unsigned k = 0; k < s->levels; k++)
        area[P_SPLITS + k] = s->level[k].held;
}

/* The questions of a call: those that it has taken up, and what they came to. */
typedef struct { const uint16_t *goals; uint16_t *work; uint8_t *settings; p_turned *v; int up[P_QUESTIONS]; } p_call;

/* So many turns of a question: how many it made. */
static uint64_t p_serve(p_call *c, size_t i, uint64_t most)
{
    p_state *s = &p_room[i];
    uint64_t before = p_moves, first = 0;
    if (!c->up[i]) {
        c->up[i] = 1;
        p_take_up(s, c->work + P_AREA * i, c->goals[i]);
    }
    if (!s->held && most > 0) {
        p_join_literal(s, c->goals[i]);
        first = 1;
    }
    int found = p_run_turns(s, most - first);
    c->v->verdicts[i] = (uint8_t)found;
    if (found == 1)
        p_setting(s, c->settings + 1024 * i);
    uint64_t made = p_moves - before + first;
    c->v->turns[i] += (size_t)made;
    return made;
}

/* Full rounds while the allowance lasts; then the questions that are next, a turn each. The last one served, or the count. */
static size_t p_rounds(p_call *c, size_t count, size_t after, size_t allowance)
{
    size_t last = count, most = 0;
    for (;;) {
        size_t running = 0, next[P_QUESTIONS];
        for (size_t k = 0; k < count; k++)
            if (c->v->verdicts[(after + k) % count] == 2)
                next[running++] = (after + k) % count;
        if (!running || !allowance)
            break;
        size_t each = allowance / running, served = each ? running : allowance;
        for (size_t k = 0; k < served; k++)
            allowance -= (size_t)p_serve(c, next[k], each ? each : 1);
        if (!each)
            return next[served - 1];
    }
    for (size_t k = 0; k < count; k++) {
        size_t i = (after + k) % count;
        if (c->v->turns[i] >= most && c->v->turns[i] > 0) {
            most = c->v->turns[i];
            last = i;
        }
    }
    return last;
}

static p_refusal p_rooms_turn(const uint8_t *t, size_t len, const uint16_t *goals, size_t count, uint8_t *settings, size_t points, uint16_t *work,
    size_t numbers, size_t allowance, p_turned *v)
{
    memset(v, 0, sizeof *v);
    p_refusal no = p_rooms_asked(t, len, goals, count, points, numbers);
    if (no.number)
        return no;
    p_call c = { goals, work, settings, v, { 0 } };
    p_moves = 0;
    v->count = count;
    for (size_t i = 0; i < count; i++) {
        uint16_t verdict = work[P_AREA * i + P_VERDICT];
        v->verdicts[i] = verdict < 2 ? (uint8_t)verdict : 2;
    }
    p_link(goals, count, NULL, 0);
    size_t last = p_rounds(&c, count, work[P_AFTER] % count, allowance);
    for (size_t i = 0; i < count; i++)
        if (c.up[i]) {
            work[P_AREA * i + P_VERDICT] = v->verdicts[i];
            p_put_down(&p_room[i], work + P_AREA * i);
        }
    if (last < count)
        work[P_AFTER] = (uint16_t)(last + 1);
    return no;
}

#endif
