/* bev_rooms_open and bev_rooms_turn, as a host calls them: random questions and allowances against a machine in plain C, turn by turn (whose
 * turn, every literal that an area holds, every settings byte) and against bev_decide; the wait of each question; every refusal with its
 * place, in both calls; and areas of any contents. */
#include "../include/bevaridhom.h"
#include "machine.h"
#include "tables.h"
#include <pthread.h>

enum { Q = BEV_QUESTIONS, VERDICT_AT = 0, NEXT_AT = 1, COUNT_AT = 4, LITERALS_AT = 5, PAST = 40 };
static uint16_t areas[Q * BEV_WORK + PAST], before[Q * BEV_WORK + PAST];
static uint8_t bytes[Q * 1024 + PAST], old[Q * 1024 + PAST], right[Q * 1024 + PAST];

/* Whether an area holds the machine's search. */
static int holds(const uint16_t *area, const m_search *m)
{
    if (area[VERDICT_AT] != m->verdict)
        return 0;
    if (m->verdict == M_CLOSED)
        return 1;
    if (area[COUNT_AT] != m->s.count)
        return 0;
    for (int i = 0; i < m->s.count; i++)
        if (area[LITERALS_AT + i] != m->s.held[i])
            return 0;
    return 1;
}

static int zeros(bev_turned v, size_t from)
{
    for (size_t i = from; i < Q; i++)
        if (v.turns[i] || v.verdicts[i])
            return 0;
    return 1;
}

/* What a call answered and left, against the machine. */
static void compare(bev_turned v, const m_round *r, const size_t *turns)
{
    EXPECT(v.number == 0 && v.place == 0 && v.count == (size_t)r->count && zeros(v, v.count));
    for (int i = 0; i < r->count; i++) {
        EXPECT(v.turns[i] == turns[i] && v.verdicts[i] == r->of[i].verdict);
        EXPECT(holds(areas + (size_t)BEV_WORK * i, &r->of[i]));
    }
    EXPECT(areas[NEXT_AT] == r->last + 1);
    EXPECT(memcmp(bytes, right, sizeof bytes) == 0);
}

/* The machine makes a call: turns of each question, settings where a model is found, and no question waits longer than the others' turns. */
static size_t machine_call(m_round *r, const uint8_t *t, size_t allowance, size_t *turns, int *waited)
{
    size_t spent = 0;
    memset(turns, 0, Q * sizeof *turns);
    for (; spent < allowance; spent++) {
        int running = 0;
        for (int i = 0; i < r->count; i++)
            running += r->of[i].verdict == M_RUNNING;
        int i = m_serve(r, t);
        if (i < 0)
            break;
        turns[i]++;
        for (int j = 0; j < r->count; j++)
            if (r->of[j].verdict == M_RUNNING || j == i)
                waited[j] = j == i ? 0 : waited[j] + 1;
        EXPECT(waited[i] < running);
        if (r->of[i].verdict == M_FOUND)
            m_setting(&r->of[i], t, right + 1024 * i);
    }
    return spent;
}

static size_t some_allowance(unsigned sort)
{
    switch (sort) {
    case 0: return 1;
    case 1: return pick(4);
    case 2: return pick(40);
    case 3: return 1000;
    default: return SIZE_MAX;
    }
}

/* Questions from the first call to the last verdict. */
static unsigned long course(const uint8_t *t, size_t len, const uint16_t *questions, int q, unsigned sort)
{
    static m_round r;
    size_t turns[Q], calls = 0;
    int waited[Q] = { 0 };
    for (size_t i = 0; i < sizeof bytes; i++)
        right[i] = old[i] = bytes[i] = (uint8_t)pick(256);
    for (size_t i = 0; i < Q * BEV_WORK + PAST; i += 1 + pick(64))
        areas[i] = (uint16_t)pick(65536);
    r.count = q;
    r.last = -1;
    for (int i = 0; i < q; i++)
        m_open(&r.of[i], questions[i]);
    memset(turns, 0, sizeof turns);
    compare(bev_rooms_open(t, len, questions, (size_t)q, bytes, 1024 * (size_t)q, areas, (size_t)BEV_WORK * q), &r, turns);
    for (int running = 1; running && !failed; calls++) {
        size_t allowance = some_allowance(sort < 5 ? sort : pick(5)), sum = 0;
        size_t spent = machine_call(&r, t, allowance, turns, waited);
        compare(bev_rooms_turn(t, len, questions, (size_t)q, bytes, sizeof bytes - pick(PAST), areas, Q * BEV_WORK + PAST, allowance), &r, turns);
        running = 0;
        for (int i = 0; i < q; i++) {
            sum += turns[i];
            running |= r.of[i].verdict == M_RUNNING;
        }
        EXPECT(sum == spent && (spent == allowance || !running));
    }
    /* nothing more happens */
    memset(turns, 0, sizeof turns);
    compare(bev_rooms_turn(t, len, questions, (size_t)q, bytes, sizeof bytes, areas, Q * BEV_WORK, SIZE_MAX), &r, turns);
    for (int i = 0; i < q; i++) {
        static uint8_t s[1024];
        memcpy(s, old + 1024 * i, 1024);
        bev_decided d = bev_decide(t, len, questions + i, 1, s, 1024, work, BEV_WORK);
        EXPECT(d.number == 0 && d.possible == r.of[i].verdict && memcmp(s, bytes + 1024 * i, 1024) == 0);
        m_drop(&r.of[i]);
    }
    return calls;
}

static void random_courses(void)
{
    static uint8_t t[16384];
    unsigned long calls = 0, courses = 0;
    for (int round = 0; round < 700 && !failed; round++, courses++) {
        unsigned points = 2 + pick(6);
        size_t n = points + 1 + pick(60), len = random_table(t, points, n);
        uint16_t questions[Q];
        for (int i = 0; i < Q; i++)
            questions[i] = (uint16_t)pick(2 * (unsigned)n);
        calls += course(t, len, questions, 1 + (int)pick(Q), pick(6));
    }
    printf("random questions: %lu courses, %lu later calls\n", courses, calls);
    EXPECT(calls > 2 * courses);
}

static uint8_t small[512];

static size_t small_table(void)
{
    static uint8_t r[2][8];
    rec(r[0], 1, 0, 0);
    rec(r[1], 2, 5, 0);
    return o_build(small, (const uint8_t (*)[8])r, 2);
}

static int refused(bev_turned v, unsigned number, size_t place) { return v.number == number && v.place == place && v.count == 0 && zeros(v, 0); }

/* Both calls refuse alike. */
static void refuse(const uint8_t *t, size_t len, const uint16_t *g, size_t q, size_t points, size_t area, unsigned number, size_t place)
{
    EXPECT(refused(bev_rooms_open(t, len, g, q, bytes, points, areas, area), number, place));
    EXPECT(refused(bev_rooms_turn(t, len, g, q, bytes, points, areas, area, 5), number, place));
}

static void refusals(void)
{
    static const uint16_t g[9] = { 0, 1, 2, 3, 4, 3, 65535, 1, 0 };
    size_t len = small_table(), all = Q * BEV_WORK;
    for (size_t i = 0; i < all + PAST; i++)
        before[i] = areas[i] = (uint16_t)pick(65536);
    for (size_t i = 0; i < sizeof bytes; i++)
        old[i] = bytes[i] = (uint8_t)pick(256);
    refuse(NULL, 0, NULL, 0, 0, 0, 69, 0);
    refuse(small, 511, g, 0, sizeof bytes, all, 69, 0);
    refuse(small, 511, g, 9, sizeof bytes, all, 69, 0);
    refuse(small, 511, g, 8, 0, 0, 10, 0);
    refuse(small, len, g, 9, 0, 0, 69, 0);
    for (size_t q = 1; q <= 8; q++)
        for (size_t k = 0; k < 3; k++) {
            refuse(small, len, g, q, 1024 * q - 1 - k, 0, q < 5 ? 21 : 20, q < 5 ? 0 : 4);
            refuse(small, len, g, q, 1024 * q + k, BEV_WORK * q - 1 - k, q < 5 ? 23 : 20, q < 5 ? 0 : 4);
            refuse(small, len, g + 5, q < 4 ? q : 4, 9000, 0, q < 2 ? 23 : 20, q < 2 ? 0 : 1);
        }
    small[3] = 1;
    refuse(small, len, g, 1, 0, 0, 11, 0);
    refuse(small, len, g, 0, 0, 0, 69, 0);
    small[3] = 0;
    EXPECT(memcmp(areas, before, sizeof areas) == 0 && memcmp(bytes, old, sizeof bytes) == 0);
    printf("refusals\n");
}

/* Areas of any contents: the call returns, what it reports adds up, and the next call goes on from what it left. */
static void foreign(void)
{
    static uint8_t t[16384];
    unsigned long ended = 0;
    for (int round = 0; round < 3000 && !failed; round++) {
        unsigned points = 2 + pick(6);
        size_t n = points + 1 + pick(60), len = random_table(t, points, n);
        int q = 1 + (int)pick(Q);
        uint16_t questions[Q];
        for (int i = 0; i < Q; i++)
            questions[i] = (uint16_t)pick(2 * (unsigned)n);
        unsigned sort = pick(3);
        if (sort == 0)
            for (size_t i = 0; i < (size_t)BEV_WORK * q; i++)
                areas[i] = (uint16_t)pick(65536);
        else {
            /* a search of other questions, or of these with a number changed */
            bev_rooms_open(t, len, questions, (size_t)q, bytes, sizeof bytes, areas, (size_t)BEV_WORK * q);
            bev_rooms_turn(t, len, questions, (size_t)q, bytes, sizeof bytes, areas, (size_t)BEV_WORK * q, pick(60));
            for (int k = 0; k < 3; k++)
                if (sort == 1)
                    questions[pick((unsigned)q)] = (uint16_t)pick(2 * (unsigned)n);
                else
                    areas[BEV_WORK * (size_t)pick((unsigned)q) + (pick(3) ? COUNT_AT + pick(12) : pick(2) ? VERDICT_AT : NEXT_AT)] = (uint16_t)pick(pick(2) ? 40 : 65536);
        }
        for (int call = 0; call < 3; call++) {
            size_t allowance = some_allowance(pick(5)), sum = 0;
            int running = 0;
            bev_turned v = bev_rooms_turn(t, len, questions, (size_t)q, bytes, sizeof bytes, areas, (size_t)BEV_WORK * q, allowance);
            for (int i = 0; i < q; i++) {
                sum += v.turns[i];
                running |= v.verdicts[i] == M_RUNNING;
                EXPECT(v.verdicts[i] <= 2);
            }
            EXPECT(v.number == 0 && v.count == (size_t)q && (running ? sum == allowance : sum <= allowance));
            ended += !running;
        }
    }
    printf("areas of any contents: %lu calls ended with every verdict\n", ended);
    EXPECT(ended > 1000);
}

static uint8_t deep[16384];
static bev_turned deep_answer;

static void *deep_rooms(void *unused)
{
    static const uint16_t g[Q] = { 2 * 2015, 2 * 2015, 2, 3, 4, 5, 2 * 2014, 2 * 2015 + 1 };
    bev_rooms_open(deep, 16384, g, Q, bytes, sizeof bytes, areas, Q * BEV_WORK);
    do
        deep_answer = bev_rooms_turn(deep, 16384, g, Q, bytes, sizeof bytes, areas, Q * BEV_WORK, 3001);
    while (deep_answer.verdicts[0] == 2 || deep_answer.verdicts[6] == 2);
    return unused;
}

/* The deepest search, in a thread of 1 MiB. */
static void deepest(void)
{
    pthread_attr_t stack;
    pthread_t thread;
    deep_table(deep);
    pthread_attr_init(&stack);
    EXPECT(pthread_attr_setstacksize(&stack, 1 << 20) == 0);
    EXPECT(pthread_create(&thread, &stack, deep_rooms, NULL) == 0);
    pthread_join(thread, NULL);
    EXPECT(deep_answer.verdicts[0] == 0 && deep_answer.verdicts[1] == 0 && deep_answer.verdicts[2] == 1 && deep_answer.verdicts[3] == 1);
    printf("deepest: %d %d\n", deep_answer.verdicts[0], deep_answer.verdicts[7]);
}

int main(void)
{
    guard();
    refusals();
    random_courses();
    foreign();
    deepest();
    EXPECT(whole());
    printf("%lu checks, %lu failed\n", checks, failed);
    return failed ? 1 : 0;
}
