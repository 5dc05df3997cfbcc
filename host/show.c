/* bev list and bev show: a table's answers, its records in words, its graph. */
#include "bev.h"
#include <stdlib.h>
#include <string.h>

/* The listing, byte for byte as the proved program listing writes it, a line as soon as it is known. */
static int list(const struct bytes *table, const struct names *of)
{
    uint8_t settings[BEV_POINTS];
    bev_counted c = bev_count(table->at, table->len);
    if (c.number)
        return refuse_listing(c.number, c.place, of);
    setvbuf(stdout, NULL, _IOLBF, BUFSIZ);
    puts("node yes no");
    for (size_t n = 0; n < c.nodes && !ferror(stdout); n++) {
        bool yes = is_possible(table, 2 * n, settings), no = is_possible(table, 2 * n + 1, settings);
        printf("%zu %s %s\n", n, yes ? "possible" : "impossible", no ? "possible" : "impossible");
    }
    return DONE;
}

int run_list(const struct words *w)
{
    struct bytes table;
    struct names of = { .table = w->word[0] };
    int status = load_table(w->word[0], &table) ? list(&table, &of) : FAILED;
    free(table.at);
    return status;
}

/* An operand in words: the point of an ATOM, else the node. */
static void print_operand(const struct nodes *nodes, uint16_t literal)
{
    const bev_node *n = &nodes->node[literal / 2];
    printf("%s%s %u", literal % 2 ? "not " : "", n->kind == BEV_ATOM ? "point" : "node", n->kind == BEV_ATOM ? n->a : literal / 2u);
}

void print_words(const struct nodes *nodes, const bev_node *n)
{
    static const char *const between[] = { [BEV_AND] = " and ", [BEV_OR] = " or ", [BEV_IMP] = " then ", [BEV_IFF] = " if and only if ",
                                           [BEV_AND3] = " and ", [BEV_OR3] = " or " };
    if (n->kind == BEV_TRUE) {
        fputs("always yes", stdout);
    } else if (n->kind == BEV_ATOM) {
        printf("point %u", n->a);
    } else {
        fputs(n->kind == BEV_IMP ? "if " : "", stdout);
        print_operand(nodes, n->a);
        fputs(between[n->kind], stdout);
        print_operand(nodes, n->b);
        if (n->kind > BEV_IFF) {
            fputs(between[n->kind], stdout);
            print_operand(nodes, n->c);
        }
    }
}

static void show_words(const struct nodes *nodes)
{
    for (size_t n = 0; n < nodes->count; n++) {
        printf("%zu ", n);
        print_record(&nodes->node[n]);
        fputs(": ", stdout);
        print_words(nodes, &nodes->node[n]);
        putchar('\n');
    }
}

static void print_edge(size_t from, uint16_t literal, const char *label)
{
    printf("  n%zu -> n%u [style=%s%s];\n", from, literal / 2u, literal % 2 ? "dashed" : "solid", label);
}

/* The graph: an edge from a node to each operand's, dashed where the operand is negated. */
static void show_dot(const struct nodes *nodes)
{
    puts("digraph table {\n  node [shape=ellipse, fontname=\"sans-serif\"];\n  edge [fontname=\"sans-serif\", fontsize=10];");
    for (size_t n = 0; n < nodes->count; n++) {
        const bev_node *node = &nodes->node[n];
        printf("  n%zu [label=\"%zu ", n, n);
        print_record(node);
        puts(node->kind <= BEV_ATOM ? "\", shape=box];" : "\"];");
        if (node->kind > BEV_ATOM) {
            print_edge(n, node->a, node->kind == BEV_IMP ? ", label=if" : "");
            print_edge(n, node->b, node->kind == BEV_IMP ? ", label=then" : "");
        }
        if (node->kind > BEV_IFF)
            print_edge(n, node->c, "");
    }
    puts("}");
}

int run_show(const struct words *w)
{
    struct bytes table;
    struct names of = { .table = w->word[0] };
    int status = FAILED;
    struct nodes *nodes = load_table(w->word[0], &table) ? read_nodes(&table, &of, &status) : NULL;
    if (nodes) {
        (w->dot ? show_dot : show_words)(nodes);
        status = DONE;
    }
    free(nodes);
    free(table.at);
    return status;
}
