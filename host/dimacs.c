/* bev dimacs: a DIMACS file decided, in the lines that SAT solvers print, and its table for derive and check. */
#include "bev.h"
#include <stdlib.h>
#include <string.h>

#define TEXT_MAX ((size_t)1 << 28)

enum { COLUMNS = 78 };

/* The variables of a table that was read from a DIMACS text: its points, which stand first. */
static size_t count_variables(const struct nodes *nodes)
{
    size_t n = 0;
    while (n < nodes->count && nodes->node[n].kind == BEV_ATOM)
        n++;
    return n;
}

/* A value in the v lines; a new line where it does not fit. */
static void print_value(const char *sign, size_t variable, int *column)
{
    char word[32];
    int width = snprintf(word, sizeof word, " %s%zu", sign, variable);
    if (*column + width > COLUMNS) {
        fputs("\nv", stdout);
        *column = 1;
    }
    fputs(word, stdout);
    *column += width;
}

static void print_values(const uint8_t settings[BEV_POINTS], size_t variables)
{
    int column = 1;
    putchar('v');
    for (size_t v = 1; v <= variables; v++)
        print_value(settings[v - 1] == 1 ? "" : "-", v, &column);
    print_value("", 0, &column);
    putchar('\n');
}

static void print_mended(const struct mended *m)
{
    const struct { size_t count; const char *one, *many; } sorts[] = {
        { m->returns, "carriage return", "carriage returns" },
        { m->tabs, "tab", "tabs" },
        { m->comments, "comment in the body", "comments in the body" },
        { m->ends, "% end", "% ends" },
        { m->blanks, "blank line before the heading", "blank lines before the heading" },
        { m->spaces, "spare space before the body", "spare spaces before the body" },
    };
    for (size_t i = 0; i < sizeof sorts / sizeof sorts[0]; i++)
        if (sorts[i].count)
            printf("c mended: %zu %s\n", sorts[i].count, sorts[i].count == 1 ? sorts[i].one : sorts[i].many);
}

static void print_answer(const struct nodes *nodes, size_t goal, const char *table, bool possible, const uint8_t settings[BEV_POINTS])
{
    size_t variables = count_variables(nodes);
    printf("c %zu variables, %zu nodes\nc goal %zu\n", variables, nodes->count, goal);
    if (table)
        printf("c table %s\n", table);
    puts(possible ? "s SATISFIABLE" : "s UNSATISFIABLE");
    if (possible)
        print_values(settings, variables);
}

/* Decides the goal of a table that was built, and writes the table where a file is named. */
static int tell(const struct bytes *file, const struct bytes *table, size_t goal, const struct words *w)
{
    uint8_t settings[BEV_POINTS];
    struct output o;
    int status = FAILED;
    struct nodes *nodes = read_nodes(table, &(struct names){ .table = table->name }, &status);
    if (!nodes)
        return status;
    bool possible = is_possible(table, goal, settings);
    bool ready = !w->out || prepare(w->out, (const struct bytes *[]){ file, NULL }, table->at, table->len, &o);
    if (ready) {
        print_answer(nodes, goal, w->out, possible, settings);
        status = possible ? POSSIBLE : IMPOSSIBLE;
        status = w->out ? commit(&o, status) : status;
    }
    free(nodes);
    return status;
}

/* Reads a text, which is that of the file or was mended. */
static int solve(const struct bytes *file, const uint8_t *text, size_t len, const struct words *w)
{
    uint8_t room[BEV_TABLE_MAX];
    bev_added a = bev_dimacs(text, len, room, sizeof room);
    if (a.number >= 60) {
        struct fault f = find_fault(text, len);
        printf("c line %zu: %s\n", f.line, f.cause);
    }
    if (a.number)
        return refuse(a.number, a.place, &(struct names){ .table = w->word[0], .file = w->word[0] });
    struct bytes table = { .name = w->out ? w->out : "the table", .at = room, .len = a.used };
    return tell(file, &table, a.literal, w);
}

static int solve_cleaned(const struct bytes *file, const struct words *w)
{
    struct mended m;
    size_t len;
    uint8_t *text = clean_cnf(file->at, file->len, &len, &m);
    if (!text)
        return complain_errno("dimacs");
    print_mended(&m);
    int status = solve(file, text, len, w);
    free(text);
    return status;
}

int run_dimacs(const struct words *w)
{
    struct bytes file;
    int status = FAILED;
    if (load(w->word[0], TEXT_MAX + 1, &file)) {
        if (file.len > TEXT_MAX)
            complain(file.name, "is longer than 268,435,456 bytes");
        else
            status = w->clean ? solve_cleaned(&file, w) : solve(&file, file.at, file.len, w);
    }
    free(file.at);
    return status;
}
