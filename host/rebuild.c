/* bev rebuild: the records of a table added in turn to an empty one. Add turns an IMP into an OR, and finds what is there already, so a
 * record may get another literal than it had; the records after it are added with their operands replaced by the literals so far. */
#include "bev.h"
#include <stdlib.h>
#include <string.h>

/* The table under way, and the literal that each node became. */
struct rebuilt {
    uint8_t bytes[BEV_TABLE_MAX];
    size_t used;
    size_t literal[NODES_MAX];
};

/* What became of a literal: the literal of its node, or that one's negation. */
static uint16_t rebuilt_literal(const struct rebuilt *r, uint16_t old)
{
    return (uint16_t)(r->literal[old / 2] ^ (old & 1u));
}

/* Adds a node with its operands replaced. */
static bev_added add_mapped(struct rebuilt *r, bev_node n)
{
    uint8_t record[BEV_RECORD];
    if (n.kind > BEV_ATOM) {
        n.a = rebuilt_literal(r, n.a);
        n.b = rebuilt_literal(r, n.b);
    }
    if (n.kind > BEV_IFF)
        n.c = rebuilt_literal(r, n.c);
    write_record(&n, record);
    return bev_add(r->bytes, sizeof r->bytes, r->used, record);
}

/* Adds all of them; where two operands have become one node, add refuses, and that ends it. */
static int add_all(struct rebuilt *r, const struct nodes *old, const char *name)
{
    for (size_t n = 0; n < old->count; n++) {
        bev_added a = add_mapped(r, old->node[n]);
        if (a.number) {
            char of[FILENAME_MAX + 40];
            snprintf(of, sizeof of, "node %zu of %s, rebuilt", n, name);
            return refuse(a.number, a.place, &(struct names){ .table = of });
        }
        r->literal[n] = a.literal;
        r->used = a.used;
    }
    return DONE;
}

static int rebuild(const struct bytes *table, const struct nodes *old, const struct words *w, struct rebuilt *r)
{
    struct output o;
    int status = add_all(r, old, w->word[0]);
    if (status != DONE)
        return status;
    if (!prepare(w->word[1], (const struct bytes *[]){ table, NULL }, r->bytes, r->used, &o))
        return FAILED;
    for (size_t n = 0; n < old->count; n++)
        printf("%zu %zu\n", 2 * n, r->literal[n]);
    return commit(&o, DONE);
}

int run_rebuild(const struct words *w)
{
    struct bytes table = { .at = NULL };
    struct nodes *old = NULL;
    int status = FAILED;
    if (strcmp(w->word[1], "-") == 0)
        return complain("rebuild", "the new table must be a file");
    struct rebuilt *r = calloc(1, sizeof *r);
    if (!r)
        complain_errno("rebuild");
    else if (load_table(w->word[0], &table))
        old = read_nodes(&table, &(struct names){ .table = w->word[0] }, &status);
    if (old)
        status = rebuild(&table, old, w, r);
    free(old);
    free(r);
    free(table.at);
    return status;
}
