/* Plain C: decide, clash, overview, wishes, the listing and derive. */
#ifndef PLAIN_CALLS_H
#define PLAIN_CALLS_H

#include "plain_search.h"

/* The table's rows, then rows 62 and 20. */
static p_refusal p_asked(const uint8_t *t, size_t len, const p_list *g)
{
    p_refusal no = p_read(t, len);
    if (no.number)
        return no;
    if (g->count == 0 || g->count > P_GOALS)
        return p_no(62, 0);
    for (size_t i = 0; i < g->count; i++)
        if (g->goal[i] >= 2 * p_table.nodes)
            return p_no(20, i);
    return no;
}

/* What the literals held say of the points. */
static void p_setting(const p_state *s, uint8_t *settings)
{
    memset(settings, 2, 1024);
    for (size_t q = 1; q <= s->held; q++) {
        uint64_t r = p_table.node[s->trail[q] / 2];
        if ((r & 255) == 2)
            settings[r >> 16 & 65535] = s->trail[q] % 2 == 0;
    }
}

/* A search of a list from nothing, over nodes that are linked. */
static int p_put(const uint16_t *goals, size_t count)
{
    for (size_t i = 0; i < count; i++)
        if (!p_join_goal(goals[i]))
            return 0;
    return p_run_jumps();
}

/* Decide: 1 possible with the settings, 0 impossible, or the refusal. */
static int p_decide(const uint8_t *t, size_t len, const p_list *g, uint8_t *settings, size_t points, p_refusal *no)
{
    p_moves = p_made = 0;
    *no = p_asked(t, len, g);
    if (!no->number && points < 1024)
        *no = p_no(21, 0);
    if (no->number)
        return 0;
    p_link(g->goal, g->count, NULL, 0);
    p_start(&ps);
    if (!p_put(g->goal, g->count))
        return 0;
    p_setting(&ps, settings);
    return 1;
}

/* Clash: how many indices are kept, or the refusal. The goals in front of the one that is left out join once: `upto` says how many literals
 * are held before each. */
static size_t p_clash(const uint8_t *t, size_t len, const p_list *g, uint8_t kept[P_GOALS], p_refusal *no)
{
    uint16_t upto[P_GOALS + 1];
    size_t fine = 0, first = g->count;
    memset(kept, 0, P_GOALS);
    p_moves = p_made = 0;
    *no = p_asked(t, len, g);
    if (no->number)
        return 0;
    p_link(g->goal, g->count, NULL, 0);
    p_start(&ps);
    for (; fine < g->count; fine++) {
        upto[fine] = (uint16_t)ps.held;
        if (!p_join_goal(g->goal[fine]))
            break;
    }
    if (fine == g->count && p_run_jumps()) {
        *no = p_no(63, 0);
        return 0;
    }
    if (fine < g->count)
        fine++; /* the goals up to the one that did not join are impossible, and those behind it dropped */
    uint16_t left[P_GOALS]; /* the goals kept, from `first` on */
    for (size_t at = fine; at-- > 0;) {
        p_again(&ps, upto[at]);
        if (p_put(left + first, g->count - first)) {
            left[--first] = g->goal[at];
            kept[first] = (uint8_t)at;
        }
    }
    memmove(kept, kept + first, g->count - first);
    memset(kept + g->count - first, 0, first);
    return g->count - first;
}

/* Overview: a byte for each goal, or the refusal. */
static void p_overview(const uint8_t *t, size_t len, const uint16_t *goals, size_t count, uint8_t *answers, size_t lent, p_refusal *no)
{
    p_moves = p_made = 0;
    *no = p_read(t, len);
    if (no->number)
        return;
    *no = p_no(count == 0 || count > 256 || count > lent ? 68 : 0, 0);
    for (size_t i = 0; i < count && !no->number; i++)
        if (goals[i] >= 2 * p_table.nodes)
            *no = p_no(20, i);
    if (no->number)
        return;
    p_link(goals, count, NULL, 0);
    p_start(&ps);
    for (size_t i = 0; i < count; i++) {
        answers[i] = (uint8_t)p_put(goals + i, 1);
        p_again(&ps, 0);
    }
}

/* Wishes */

typedef struct { size_t met, bound, questions; } p_granted;

/* The rows before the search. */
static p_refusal p_wished(const uint8_t *t, size_t len, const uint16_t *goals, size_t count, const uint16_t *wishes, size_t n, size_t points)
{
    p_refusal no = p_read(t, len);
    if (no.number)
        return no;
    if (count == 0 || count > P_GOALS)
        return p_no(62, 0);
    if (n > 16)
        return p_no(66, 0);
    for (size_t i = 0; i < count + n; i++)
        if ((i < count ? goals[i] : wishes[i - count]) >= 2 * p_table.nodes)
            return p_no(20, i);
    return p_no(points < 1024 ? 21 : 0, 0);
}

/* The next rising list of so many indices below n, in dictionary order: whether there is one. */
static int p_next(unsigned *list, size_t size, size_t n)
{
    size_t i = size;
    while (i > 0 && list[i - 1] == n - size + i - 1)
        i--;
    if (i == 0)
        return 0;
    list[i - 1]++;
    for (; i < size; i++)
        list[i] = list[i - 1] + 1;
    return 1;
}

/* One question: the goals, which are held, and some wishes behind them. */
static int p_question(unsigned held, const uint16_t *wishes, const unsigned *list, size_t size)
{
    uint16_t chosen[16];
    for (size_t i = 0; i < size; i++)
        chosen[i] = wishes[list[i]];
    p_again(&ps, held);
    return p_put(chosen, size);
}

/* Wishes: a setting and what it meets, or the refusal. The table is linked once, and the goals join once. */
static p_granted p_wishes(const uint8_t *t, size_t len, const p_list *g, const uint16_t *wishes, size_t n, size_t allowance, uint8_t *settings,
    size_t points, p_refusal *no)
{
    p_granted v = { 0, 0, 0 };
    p_moves = p_made = 0;
    *no = p_wished(t, len, g->goal, g->count, wishes, n, points);
    if (no->number)
        return v;
    p_link(g->goal, g->count, wishes, n);
    p_start(&ps);
    for (size_t i = 0; i < g->count && !no->number; i++)
        *no = p_no(p_join_goal(g->goal[i]) ? 0 : 67, 0);
    unsigned held = ps.held;
    if (no->number || !p_run_jumps()) {
        *no = p_no(67, 0);
        return v;
    }
    p_setting(&ps, settings);
    for (v.bound = n; v.bound > 0; v.bound--) {
        unsigned list[16];
        for (unsigned i = 0; i < v.bound; i++)
            list[i] = i;
        do {
            if (v.questions == allowance)
                return v;
            v.questions++;
            if (p_question(held, wishes, list, v.bound)) {
                p_setting(&ps, settings);
                v.met = v.bound;
                return v;
            }
        } while (p_next(list, v.bound, n));
    }
    return v;
}

/* The listing: a heading and a line for each node, by a decide for each literal, or the refusal's line. How many bytes. */
static size_t p_put_text(char *out, size_t at, const char *text)
{
    size_t n = strlen(text);
    memcpy(out + at, text, n);
    return at + n;
}

static size_t p_put_number(char *out, size_t at, size_t v)
{
    char digits[24];
    int n = 0;
    do
        digits[n++] = (char)('0' + v % 10);
    while (v /= 10);
    while (n > 0)
        out[at++] = digits[--n];
    return at;
}

typedef int (*p_decider)(const uint8_t *t, size_t len, unsigned goal);

static size_t p_list_nodes(const uint8_t *t, size_t len, p_refusal no, size_t nodes, p_decider decided, char *out)
{
    static const char *const words[2] = { " impossible", " possible" };
    if (no.number) {
        size_t at = p_put_number(out, p_put_text(out, 0, "refused "), no.number);
        return p_put_text(out, p_put_number(out, p_put_text(out, at, " at "), no.place), "\n");
    }
    size_t at = p_put_text(out, 0, "node yes no\n");
    for (size_t n = 0; n < nodes; n++) {
        at = p_put_number(out, at, n);
        for (unsigned sign = 0; sign < 2; sign++)
            at = p_put_text(out, at, words[decided(t, len, 2 * (unsigned)n + sign)]);
        out[at++] = '\n';
    }
    return at;
}

static int p_decided(const uint8_t *t, size_t len, unsigned goal)
{
    uint8_t settings[1024];
    p_list g = { 1, { (uint16_t)goal } };
    p_refusal no;
    return p_decide(t, len, &g, settings, 1024, &no);
}

static size_t p_listing(const uint8_t *t, size_t len, char *out)
{
    p_refusal no = p_read(t, len);
    return p_list_nodes(t, len, no, p_table.nodes, p_decided, out);
}

/* Derive */

/* The first goal behind i that is false, or the count. */
static inline size_t p_false_goal(const p_list *g, size_t i)
{
    while (++i < g->count && ps.value[g->goal[i]] != 2)
        ;
    return i;
}

/* The goals join in list order, by the unit clause of each that is not true yet: 0 where a goal is false, which closes the search. What
 * else is a conflict by then is left to the search. */
static int p_goal_steps(const p_list *g, p_sink *sink)
{
    for (size_t i = 0; i < g->count && ps.conflict == P_NEVER; i++) {
        if (ps.value[g->goal[i]])
            continue;
        p_step(sink, 'U', 0, (unsigned)i);
        if (p_table.threes)
            p_join(&ps, g->goal[i], 1, 1);
        else
            p_join(&ps, g->goal[i], 0, 1);
        size_t k = p_false_goal(g, i);
        if (k < g->count) {
            if (sink->letter == 68)
                p_step(sink, 'R', 0, (unsigned)k);
            p_step(sink, 'C', 0, (unsigned)k);
            return 0;
        }
    }
    return 1;
}

/* The search of a list, with its steps: 1 possible, 0 impossible. */
static int p_search(const p_list *g, p_sink *sink)
{
    p_start(&ps);
    ps.number[1] = (uint16_t)g->count;
    for (size_t i = 0; i < g->count; i++)
        p_step(sink, 'G', 0, g->goal[i]);
    return p_goal_steps(g, sink) && p_run_steps(sink);
}

/* Derive, of the version of a letter: the step count, or the refusal; a first search counts. */
static size_t p_derive(const uint8_t *t, size_t len, const p_list *g, int letter, uint8_t *out, size_t room, p_refusal *no)
{
    *no = p_asked(t, len, g);
    if (no->number)
        return 0;
    p_sink s = { 0, NULL, NULL, NULL, letter };
    p_link(g->goal, g->count, NULL, 0);
    *no = p_no(p_search(g, &s) ? 30 : 0, 0);
    if (no->number)
        return 0;
    uint64_t blocks = (s.steps + 125) / 126;
    *no = p_no(blocks > 65536 || 512 * blocks > room ? 31 : 0, 0);
    if (no->number)
        return 0;
    s = (p_sink){ 0, out, out + 4, out + 508, letter };
    p_search(g, &s);
    if (s.steps % 126)
        p_seal_steps(&s, s.steps % 126);
    return (size_t)s.steps;
}

#endif
