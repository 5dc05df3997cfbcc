/* bev decide, bev derive and bev check: what is asked of a list of goals of a table. */
#include "bev.h"
#include <inttypes.h>
#include <stdlib.h>
#include <string.h>

enum { STEPS_IN_BLOCK = (BEV_BLOCK - 6) / BEV_STEP };

bool parse_literal(const char *word, size_t *literal)
{
    if (parse_number(word, literal))
        return true;
    complain(word, "is no literal: literals are numbers from 0");
    return false;
}

/* A number over 16 bits becomes 65,535, which no table has as a literal either, so that it is refused at the same place. */
bool parse_literals(char **word, size_t count, uint16_t *literal, size_t room)
{
    for (size_t i = 0; i < count; i++) {
        size_t number;
        if (!parse_literal(word[i], &number))
            return false;
        if (i < room)
            literal[i] = number < UINT16_MAX ? (uint16_t)number : UINT16_MAX;
    }
    return true;
}

bool parse_goals(char **word, size_t count, struct goals *goals)
{
    goals->count = count <= BEV_GOALS ? count : BEV_GOALS + 1;
    return parse_literals(word, count, goals->literal, goals->count);
}

/* Never refused by 21 or 23. */
static bev_decided decide(const struct bytes *table, const uint16_t *goals, size_t count, uint8_t settings[BEV_POINTS])
{
    uint16_t work[BEV_WORK];
    return bev_decide(table->at, table->len, goals, count, settings, BEV_POINTS, work, BEV_WORK);
}

bool is_possible(const struct bytes *table, size_t literal, uint8_t settings[BEV_POINTS])
{
    uint16_t goal = (uint16_t)literal;
    return decide(table, &goal, 1, settings).possible;
}

/* What a refusal may speak of: the table, which is the first word, the goals behind it, and a file. */
static struct names names_of(const struct words *w, size_t goals, const char *file)
{
    return (struct names){ .table = w->word[0], .file = file, .goal = w->word + 1, .goals = goals };
}

/* A line for each point that the table names. */
static void print_points(const struct nodes *nodes, const uint8_t settings[BEV_POINTS])
{
    static const char *const words[] = { "no", "yes", "either" };
    bool named[BEV_POINTS] = { false };
    for (size_t n = 0; n < nodes->count; n++)
        if (nodes->node[n].kind == BEV_ATOM)
            named[nodes->node[n].a] = true;
    for (size_t p = 0; p < BEV_POINTS; p++)
        if (named[p])
            printf("%s %zu\n", words[settings[p]], p);
}

int tell_setting(const struct bytes *table, const uint8_t settings[BEV_POINTS], const char *heading, const char *closing, int told,
                 const struct words *w, const struct names *of)
{
    struct output o;
    int status;
    struct nodes *nodes = read_nodes(table, of, &status);
    if (!nodes)
        return status;
    bool ready = !w->out || prepare(w->out, (const struct bytes *[]){ table, NULL }, settings, BEV_POINTS, &o);
    if (ready) {
        puts(heading);
        print_points(nodes, settings);
        fputs(closing, stdout);
    }
    free(nodes);
    return !ready ? FAILED : w->out ? commit(&o, told) : told;
}

/* The one goal within a time. */
static int decide_in_time(const struct bytes *table, uint16_t goal, const struct words *w, const struct names *of)
{
    uint8_t settings[BEV_POINTS];
    double seconds;
    if (!parse_seconds(w->seconds, &seconds))
        return FAILED;
    bev_turned v = decide_within(table, goal, seconds, settings);
    if (v.number)
        return refuse(v.number, v.place, of);
    if (v.count == 0)
        return FAILED;
    if (v.verdicts[0] == 1)
        return tell_setting(table, settings, "possible", "", POSSIBLE, w, of);
    puts(v.verdicts[0] ? "unknown" : "impossible");
    return v.verdicts[0] ? DONE : IMPOSSIBLE;
}

static int decide_goals(const struct bytes *table, const struct goals *goals, const struct words *w, const struct names *of)
{
    uint8_t settings[BEV_POINTS];
    char splits[32]; /* the splits made; the count stops at 4,294,967,295 */
    bev_decided d = decide(table, goals->literal, goals->count, settings);
    if (d.number)
        return refuse(d.number, d.place, of);
    snprintf(splits, sizeof splits, "splits %" PRIu32 "\n", d.splits);
    if (d.possible)
        return tell_setting(table, settings, "possible", splits, POSSIBLE, w, of);
    printf("impossible\n%s", splits);
    return IMPOSSIBLE;
}

int run_decide(const struct words *w)
{
    struct bytes table = { .at = NULL };
    struct goals goals;
    struct names of = names_of(w, (size_t)w->count - 1, NULL);
    int status = FAILED;
    if (w->seconds && of.goals > 1)
        complain("--seconds", "is for one goal");
    else if (parse_goals(of.goal, of.goals, &goals) && load_table(of.table, &table))
        status = w->seconds ? decide_in_time(&table, goals.literal[0], w, &of) : decide_goals(&table, &goals, w, &of);
    free(table.at);
    return status;
}

/* Derives into the room lent, and from there into the file named. */
static int derive(const struct bytes *table, const struct goals *goals, uint8_t *room, const struct words *w, const struct names *of)
{
    uint16_t work[BEV_WORK];
    struct output o;
    bev_derived d = bev_derive(table->at, table->len, goals->literal, goals->count, w->version_two, work, BEV_WORK, room, BEV_DERIVATION_MAX);
    if (d.number)
        return refuse(d.number, d.place, of);
    size_t len = (d.steps + STEPS_IN_BLOCK - 1) / STEPS_IN_BLOCK * BEV_BLOCK;
    if (!prepare(w->out, (const struct bytes *[]){ table, NULL }, room, len, &o))
        return FAILED;
    printf("%zu steps\n", d.steps);
    return commit(&o, DONE);
}

int run_derive(const struct words *w)
{
    struct bytes table = { .at = NULL };
    struct goals goals;
    struct names of = names_of(w, (size_t)w->count - 1, NULL);
    int status = FAILED;
    uint8_t *room = calloc(BEV_DERIVATION_MAX, 1);
    if (!w->out)
        complain("derive", "-o FILE is missing");
    else if (!room)
        complain_errno("derive");
    else if (parse_goals(of.goal, of.goals, &goals) && load_table(of.table, &table))
        status = derive(&table, &goals, room, w, &of);
    free(room);
    free(table.at);
    return status;
}

int run_check(const struct words *w)
{
    struct bytes table = { .at = NULL }, file = { .at = NULL };
    uint16_t work[BEV_WORK];
    struct goals goals;
    struct names of = names_of(w, (size_t)w->count - 2, w->word[w->count - 1]);
    int status = FAILED;
    if (parse_goals(of.goal, of.goals, &goals) && load_table(of.table, &table) && load(of.file, BEV_DERIVATION_MAX + 1, &file)) {
        bev_checked c = bev_check(table.at, table.len, goals.literal, goals.count, work, BEV_WORK, file.at, file.len);
        status = c.number ? refuse(c.number, c.place, &of) : DONE;
    }
    if (status == DONE)
        puts("accepted");
    free(file.at);
    free(table.at);
    return status;
}
