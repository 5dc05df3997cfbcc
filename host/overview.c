/* bev overview: whether each goal by itself is possible, of a list or of all literals of a table. */
#include "bev.h"
#include <stdlib.h>

/* Goals as the call takes them. Of a list that is too long it has as many as show that. */
struct asked {
    uint16_t literal[BEV_ASKED + 1];
    size_t count;
};

static bool parse_asked(char **word, size_t count, struct asked *into)
{
    into->count = count <= BEV_ASKED ? count : BEV_ASKED + 1;
    for (size_t i = 0; i < count; i++) {
        size_t literal;
        if (!parse_literal(word[i], &literal))
            return false;
        if (i < into->count)
            into->literal[i] = literal < UINT16_MAX ? (uint16_t)literal : UINT16_MAX;
    }
    return true;
}

/* A line for each goal. */
static int overview(const struct bytes *table, const struct asked *asked, const struct names *of)
{
    uint8_t answers[BEV_ASKED];
    uint16_t work[BEV_WORK];
    bev_answered v = bev_overview(table->at, table->len, asked->literal, asked->count, answers, BEV_ASKED, work, BEV_WORK);
    if (v.number)
        return refuse(v.number, v.place, of);
    for (size_t i = 0; i < asked->count; i++)
        printf("%u %s\n", asked->literal[i], answers[i] ? "possible" : "impossible");
    return DONE;
}

/* All literals, in lists as long as the call takes. */
static int overview_all(const struct bytes *table, const struct names *of)
{
    struct asked asked;
    int status = DONE;
    bev_counted c = bev_count(table->at, table->len);
    if (c.number)
        return refuse(c.number, c.place, of);
    for (size_t from = 0; from < 2 * c.nodes && status == DONE && !ferror(stdout); from += asked.count) {
        asked.count = 2 * c.nodes - from < BEV_ASKED ? 2 * c.nodes - from : BEV_ASKED;
        for (size_t i = 0; i < asked.count; i++)
            asked.literal[i] = (uint16_t)(from + i);
        status = overview(table, &asked, of);
    }
    return status;
}

int run_overview(const struct words *w)
{
    struct bytes table = { .at = NULL };
    struct asked asked;
    struct names of = { .table = w->word[0], .goal = w->word + 1, .goals = (size_t)w->count - 1 };
    int status = FAILED;
    if (parse_asked(of.goal, of.goals, &asked) && load_table(of.table, &table))
        status = of.goals ? overview(&table, &asked, &of) : overview_all(&table, &of);
    free(table.at);
    return status;
}
