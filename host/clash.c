/* bev clash: of goals that are impossible together the few to argue about, with what they say. */
#include "bev.h"
#include <stdlib.h>

/* A goal's index in the list, its literal, and what that says. */
static void print_goal(const struct nodes *nodes, size_t index, uint16_t literal)
{
    const bev_node *n = &nodes->node[literal / 2];
    bool joined = literal % 2 && n->kind != BEV_ATOM;
    printf("%zu %u: %s", index, literal, joined ? "not (" : literal % 2 ? "not " : "");
    print_words(nodes, n);
    puts(joined ? ")" : "");
}

static int clash(const struct bytes *table, const struct goals *goals, const struct names *of)
{
    uint16_t work[BEV_WORK];
    int status = DONE;
    bev_clashed c = bev_clash(table->at, table->len, goals->literal, goals->count, work, BEV_WORK);
    if (c.number)
        return refuse(c.number, c.place, of);
    struct nodes *nodes = read_nodes(table, of, &status);
    for (size_t i = 0; nodes && i < c.count; i++)
        print_goal(nodes, c.kept[i], goals->literal[c.kept[i]]);
    free(nodes);
    return status;
}

int run_clash(const struct words *w)
{
    struct bytes table = { .at = NULL };
    struct goals goals;
    struct names of = { .table = w->word[0], .goal = w->word + 1, .goals = (size_t)w->count - 1 };
    int status = FAILED;
    if (parse_goals(of.goal, of.goals, &goals) && load_table(of.table, &table))
        status = clash(&table, &goals, &of);
    free(table.at);
    return status;
}
