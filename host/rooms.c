/* bev rooms: questions of a table that take turns; and bev decide --seconds, one question that may be left. Each asks for turns by the call,
 * as many as keep a call short, so that there is something to show and a time to stop at. */
#define _XOPEN_SOURCE 700
#include "bev.h"
#include <stdlib.h>
#include <string.h>
#include <time.h>
#include <unistd.h>

enum { FIRST_TURNS = 256, SHORT = 20, LONG = 60 }; /* turns of the first call; milliseconds that a call should take */

/* Questions on their way: what the calls are lent, and what they have answered so far. */
struct rooms {
    const struct bytes *table;
    uint16_t goal[BEV_QUESTIONS + 1];
    size_t count;
    uint8_t settings[BEV_QUESTIONS * BEV_POINTS];
    uint16_t work[BEV_QUESTIONS * BEV_WORK];
    bev_turned last;
    size_t turns[BEV_QUESTIONS];
    double began;
};

static double now(void)
{
    struct timespec t;
    clock_gettime(CLOCK_MONOTONIC, &t);
    return (double)t.tv_sec + (double)t.tv_nsec / 1e9;
}

/* Sets the searches up; of goals that are too many it hands on as many as show that. */
static struct rooms *open_rooms(const struct bytes *table, const uint16_t *goal, size_t count)
{
    struct rooms *r = calloc(1, sizeof *r);
    if (!r) {
        complain_errno("rooms");
        return NULL;
    }
    r->table = table;
    r->count = count <= BEV_QUESTIONS ? count : BEV_QUESTIONS + 1;
    memcpy(r->goal, goal, r->count * sizeof *goal);
    r->began = now();
    r->last = bev_rooms_open(table->at, table->len, r->goal, r->count, r->settings, sizeof r->settings, r->work, sizeof r->work / sizeof r->work[0]);
    return r;
}

/* One call. */
static void turn_rooms(struct rooms *r, size_t allowance)
{
    r->last = bev_rooms_turn(r->table->at, r->table->len, r->goal, r->count, r->settings, sizeof r->settings, r->work,
                             sizeof r->work / sizeof r->work[0], allowance);
    for (size_t i = 0; i < r->last.count; i++)
        r->turns[i] += r->last.turns[i];
}

static bool unfinished(const struct rooms *r)
{
    for (size_t i = 0; i < r->last.count; i++)
        if (r->last.verdicts[i] == 2)
            return true;
    return false;
}

static size_t turns_in_all(const struct rooms *r)
{
    size_t sum = 0;
    for (size_t i = 0; i < r->last.count; i++)
        sum += r->turns[i];
    return sum;
}

static void print_rooms(FILE *to, const struct rooms *r, char **word)
{
    static const char *const verdicts[] = { "impossible", "possible", "unfinished" };
    for (size_t i = 0; i < r->last.count; i++)
        fprintf(to, "%s %s, %zu turn%s\n", word[i], verdicts[r->last.verdicts[i]], r->turns[i], r->turns[i] == 1 ? "" : "s");
}

/* Calls until every question is finished, the turns are spent or the time is over; `show` after each call. */
static void run_turns(struct rooms *r, size_t most, double seconds, void (*show)(struct rooms *, void *), void *context)
{
    size_t turns = FIRST_TURNS;
    while (r->last.number == 0 && unfinished(r)) {
        size_t left = most - turns_in_all(r);
        double start = now();
        if (left == 0 || start - r->began >= seconds)
            return;
        turn_rooms(r, turns < left ? turns : left);
        double took = (now() - start) * 1000;
        if (took < SHORT && turns < SIZE_MAX / 4)
            turns *= 2;
        else if (took > LONG && turns > 1)
            turns /= 2;
        show(r, context);
    }
}

/* A line a question on a terminal, drawn anew in place. */
static void show_rooms(struct rooms *r, void *word)
{
    if (isatty(STDERR_FILENO)) {
        print_rooms(stderr, r, word);
        fprintf(stderr, "\033[%zuA", r->last.count);
    }
}

/* One line for the one question. */
static void show_progress(struct rooms *r, void *unused)
{
    (void)unused;
    if (isatty(STDERR_FILENO))
        fprintf(stderr, "\r%zu turns, %.1f s ", r->turns[0], now() - r->began);
}

/* Takes the lines of a terminal away. */
static void clear_lines(void)
{
    if (isatty(STDERR_FILENO))
        fputs("\r\033[J", stderr);
}

int run_rooms(const struct words *w)
{
    struct bytes table = { .at = NULL };
    struct goals goals;
    struct names of = { .table = w->word[0], .goal = w->word + 1, .goals = (size_t)w->count - 1 };
    size_t most = SIZE_MAX;
    int status = FAILED;
    struct rooms *r = NULL;
    if (w->allowance && !parse_number(w->allowance, &most))
        complain(w->allowance, "is no number of turns");
    else if (parse_goals(of.goal, of.goals, &goals) && load_table(of.table, &table) && (r = open_rooms(&table, goals.literal, goals.count))) {
        run_turns(r, most, 1e300, show_rooms, of.goal);
        status = r->last.number ? refuse(r->last.number, r->last.place, &of) : DONE;
    }
    if (status == DONE) {
        clear_lines();
        print_rooms(stdout, r, of.goal);
    }
    free(r);
    free(table.at);
    return status;
}

bool parse_seconds(const char *text, double *seconds)
{
    char *end;
    *seconds = strtod(text, &end);
    if (end != text && *end == '\0' && *seconds >= 0 && *seconds <= 1e9)
        return true;
    complain(text, "is no number of seconds");
    return false;
}

bev_turned decide_within(const struct bytes *table, uint16_t goal, double seconds, uint8_t settings[BEV_POINTS])
{
    bev_turned v = { .number = 0, .count = 0 };
    struct rooms *r = open_rooms(table, &goal, 1);
    if (!r)
        return v;
    run_turns(r, SIZE_MAX, seconds, show_progress, NULL);
    clear_lines();
    v = r->last;
    memcpy(settings, r->settings, BEV_POINTS);
    free(r);
    return v;
}
