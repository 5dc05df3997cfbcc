/* bev add and bev eval: records added to a table file, a literal's truth under settings. */
#include "bev.h"
#include <stdlib.h>
#include <string.h>

/* A table as it grows, with room for the largest. */
struct growing {
    uint8_t bytes[BEV_TABLE_MAX];
    size_t used;
};

/* Adds the records of the words in turn and notes their literals; the first that is no record or is refused ends it. */
static int add_records(struct growing *t, const struct words *w, size_t *literals)
{
    for (int i = 1; i < w->count; i++) {
        uint8_t record[BEV_RECORD];
        const char *cause = parse_record(w->word[i], record);
        if (cause)
            return complain(w->word[i], cause);
        bev_added a = bev_add(t->bytes, sizeof t->bytes, t->used, record);
        if (a.number)
            return refuse(a.number, a.place, &(struct names){ .table = w->word[i] });
        t->used = a.used;
        literals[i] = a.literal;
    }
    return DONE;
}

/* Adds to a copy of the table, which replaces the file when every record is in. */
static int add_to(const struct bytes *old, const struct words *w, struct growing *t, size_t *literals)
{
    struct output o;
    bev_counted c = bev_count(old->at, old->len);
    if (old->len && c.number)
        return refuse(c.number, c.place, &(struct names){ .table = w->word[0] });
    if (old->len)
        memcpy(t->bytes, old->at, old->len);
    t->used = old->len;
    int status = add_records(t, w, literals);
    if (status != DONE)
        return status;
    bool changed = t->used != old->len || memcmp(t->bytes, old->at, t->used) != 0;
    if (changed && !prepare(w->word[0], NULL, t->bytes, t->used, &o))
        return FAILED;
    for (int i = 1; i < w->count; i++)
        printf("%zu\n", literals[i]);
    return changed ? commit(&o, DONE) : DONE;
}

int run_add(const struct words *w)
{
    struct bytes old = { .at = NULL };
    if (strcmp(w->word[0], "-") == 0)
        return complain("add", "the table must be a file, since it is replaced");
    int status = FAILED;
    struct growing *t = malloc(sizeof *t);
    size_t *literals = calloc((size_t)w->count, sizeof *literals);
    if (!t || !literals)
        complain_errno("add");
    else if (!exists(w->word[0]) || load_table(w->word[0], &old))
        status = add_to(&old, w, t, literals);
    free(literals);
    free(t);
    free(old.at);
    return status;
}

static int eval(const struct bytes *table, const struct bytes *settings, const struct words *w)
{
    static const char *const truths[] = { "no", "yes", "unknown" };
    size_t literal;
    if (!parse_literal(w->word[1], &literal))
        return FAILED;
    bev_truth v = bev_evaluate(table->at, table->len, literal, settings->at, settings->len);
    if (v.number)
        return refuse(v.number, v.place, &(struct names){ .table = w->word[0], .file = w->word[2], .goal = w->word + 1, .goals = 1 });
    puts(truths[v.truth]);
    return DONE;
}

int run_eval(const struct words *w)
{
    struct bytes table = { .at = NULL }, settings = { .at = NULL };
    int status = FAILED;
    if (load_table(w->word[0], &table) && load(w->word[2], BEV_POINTS, &settings))
        status = eval(&table, &settings, w);
    free(settings.at);
    free(table.at);
    return status;
}
