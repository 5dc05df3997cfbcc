/* How much stack each call takes, at most: run in a thread whose stack is painted first, on full tables, the deepest search, the longest
 * list of goals and a large DIMACS text. No call takes more than the header's BEV_STACK. */
#define _DEFAULT_SOURCE
#include "tables.h"
#include <pthread.h>
#include <sys/mman.h>

enum { ROOM = 8 << 20, PAINT = 0xA5 };
static uint8_t deep[BEV_TABLE_MAX], buffer[BEV_TABLE_MAX], settings[BEV_POINTS], lent[1 << 20];
static char text[1 << 20];
static size_t text_len, steps;
static uint16_t goals[BEV_GOALS]; /* each the deepest */

static void run_nothing(void) {}
static void run_count(void) { EXPECT(bev_count(deep, sizeof deep).nodes == 2016); }
static void run_record(void) { EXPECT(bev_record(deep, sizeof deep, 4031).number == 0); }
static void run_evaluate(void) { EXPECT(bev_evaluate(deep, sizeof deep, 4031, settings, BEV_POINTS).number == 0); }
static void run_open(void) { EXPECT(bev_open(lent, (steps + 125) / 126 * 512).steps == steps); }

static void run_decide(void)
{
    EXPECT(bev_decide(deep, sizeof deep, goals, BEV_GOALS, settings, BEV_POINTS, work, BEV_WORK).number == 0);
}

static void run_clash(void)
{
    bev_clashed v = bev_clash(deep, sizeof deep, goals, BEV_GOALS, work, BEV_WORK);
    EXPECT(v.number == 0 && v.count == 1 && v.kept[0] == 0);
}

static void run_wishes(void)
{
    static const uint16_t point = 2;
    bev_wished v = bev_wishes(deep, sizeof deep, &point, 1, goals, BEV_WISHES, 20, settings, BEV_POINTS, work, BEV_WORK);
    EXPECT(v.number == 0 && v.met == 0 && v.bound == 14 && v.questions == 20);
}

static void run_overview(void)
{
    static uint16_t all[BEV_ASKED];
    static uint8_t answers[BEV_ASKED];
    for (int i = 0; i < BEV_ASKED; i++)
        all[i] = 4030;
    EXPECT(bev_overview(deep, sizeof deep, all, BEV_ASKED, answers, BEV_ASKED, work, BEV_WORK).number == 0);
}

static void run_add(void)
{
    uint8_t r[8];
    memcpy(buffer, deep, sizeof buffer);
    rec(r, BEV_TRUE, 0, 0);
    EXPECT(bev_add(buffer, sizeof buffer, sizeof buffer, r).literal == 0);
}

static uint8_t version;

static void run_derive(void)
{
    bev_derived v = bev_derive(deep, sizeof deep, goals, BEV_GOALS, version, work, BEV_WORK, lent, sizeof lent);
    steps = v.steps;
    EXPECT(v.number == 0 && 2000 < steps);
}

static void run_check(void)
{
    EXPECT(bev_check(deep, sizeof deep, goals, BEV_GOALS, work, BEV_WORK, lent, (steps + 125) / 126 * 512).number == 0);
}

static void run_dimacs(void) { EXPECT(bev_dimacs((uint8_t *)text, text_len, buffer, sizeof buffer).number == 0); }

static void run_rooms(void)
{
    static uint16_t areas[BEV_QUESTIONS * BEV_WORK];
    static uint8_t all[BEV_QUESTIONS * BEV_POINTS];
    EXPECT(bev_rooms_open(deep, sizeof deep, goals, BEV_QUESTIONS, all, sizeof all, areas, BEV_QUESTIONS * BEV_WORK).count == BEV_QUESTIONS);
    for (int i = 0; i < 3; i++)
        EXPECT(bev_rooms_turn(deep, sizeof deep, goals, BEV_QUESTIONS, all, sizeof all, areas, BEV_QUESTIONS * BEV_WORK, 8000).number == 0);
}

static void *run(void *call)
{
    (*(void (**)(void))call)();
    return NULL;
}

/* The bytes of a painted stack that a call has written. */
static size_t taken_by(void (*call)(void))
{
    pthread_attr_t attr;
    pthread_t thread;
    uint8_t *room = mmap(NULL, ROOM, PROT_READ | PROT_WRITE, MAP_PRIVATE | MAP_ANONYMOUS, -1, 0);
    memset(room, PAINT, ROOM);
    pthread_attr_init(&attr);
    EXPECT(pthread_attr_setstack(&attr, room, ROOM) == 0);
    EXPECT(pthread_create(&thread, &attr, run, &call) == 0);
    pthread_join(thread, NULL);
    size_t low = 0;
    while (low < ROOM && room[low] == PAINT)
        low++;
    munmap(room, ROOM);
    return ROOM - low;
}

int main(void)
{
    static const struct { const char *name; void (*call)(void); } calls[] = {
        { "count", run_count }, { "record", run_record }, { "evaluate", run_evaluate }, { "add", run_add }, { "decide", run_decide },
        { "clash", run_clash }, { "wishes", run_wishes }, { "overview", run_overview },
        { "derive", run_derive }, { "check", run_check }, { "open", run_open }, { "dimacs", run_dimacs }, { "rooms", run_rooms },
    };
    deep_table(deep);
    for (int i = 0; i < BEV_GOALS; i++)
        goals[i] = 4030;
    text_len = (size_t)sprintf(text, "p cnf 1000 500\n");
    for (int i = 0; i < 500; i++)
        text_len += (size_t)sprintf(text + text_len, "%d -%d 0\n", i + 1, i + 501);
    size_t thread = taken_by(run_nothing);
    printf("stack:");
    for (size_t i = 0; i < sizeof calls / sizeof *calls; i++) {
        size_t taken = taken_by(calls[i].call) - thread;
        EXPECT(taken <= BEV_STACK);
        printf(" %s %zu", calls[i].name, taken);
    }
    printf("\nstack: %lu checks, %lu failed\n", checks, failed);
    return failed ? 1 : 0;
}
