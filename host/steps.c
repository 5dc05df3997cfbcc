/* bev steps: a derivation's steps as text; with its table and goals, each step's clause and why it holds. The library's check says how
 * far the steps hold; what is kept here only words it. */
#include "bev.h"
#include <ctype.h>
#include <stdlib.h>
#include <string.h>

enum { LITERALS_MAX = 2 * NODES_MAX, CLAUSES_MAX = BEV_GOALS + 3 * NODES_MAX, WIDTH = 3, STRIKES_MAX = (WIDTH + 1) * CLAUSES_MAX };
enum { CLAUSE_STRUCK = 1 << WIDTH };

/* The clauses of a literal by kind and sign: each ends in a semicolon, a capital is a negation. */
static const char *const expansions[][2] = {
    [BEV_TRUE] = { "", ";" },
    [BEV_ATOM] = { "", "" },
    [BEV_AND] = { "a;b;", "AB;" },
    [BEV_OR] = { "ab;", "A;B;" },
    [BEV_IMP] = { "Ab;", "a;B;" },
    [BEV_IFF] = { "Ab;aB;", "ab;AB;" },
    [BEV_AND3] = { "a;b;c;", "ABC;" },
    [BEV_OR3] = { "abc;", "A;B;C;" },
};

struct clause {
    uint16_t literal[WIDTH];
    uint8_t width;
    uint8_t struck;  /* a bit for each literal, and CLAUSE_STRUCK */
    uint16_t of;     /* the literal whose expansion it is of; LITERALS_MAX for a goal's */
};

struct strike {
    uint16_t clause;
    uint8_t bit;
};

/* What stood when a split was made, and its right literal. */
struct split {
    size_t held, clauses, strikes;
    uint16_t right;
};

/* The checker's state. */
struct replay {
    const struct nodes *nodes;
    bool version_two;
    bool is_held[LITERALS_MAX];
    uint16_t held[NODES_MAX];
    struct clause clause[CLAUSES_MAX];
    struct strike strike[STRIKES_MAX];
    struct split split[NODES_MAX];
    size_t held_count, clauses, strikes, splits;
};

static void print_step(const bev_stepped *s)
{
    printf("%c%u", s->rule, s->value);
    if (s->rule == BEV_RULE_R)
        printf(".%u", s->position);
}

/* Appends a literal's clauses. */
static void expand(struct replay *r, uint16_t literal)
{
    const bev_node *n = &r->nodes->node[literal / 2];
    struct clause next = { .of = literal };
    for (const char *c = expansions[n->kind][literal % 2]; *c; c++) {
        if (*c == ';') {
            r->clause[r->clauses++] = next;
            next.width = 0;
        } else {
            uint16_t operand = tolower(*c) == 'a' ? n->a : tolower(*c) == 'b' ? n->b : n->c;
            next.literal[next.width++] = isupper((unsigned char)*c) ? operand ^ 1 : operand;
        }
    }
}

static void hold(struct replay *r, uint16_t literal)
{
    r->is_held[literal] = true;
    r->held[r->held_count++] = literal;
    expand(r, literal);
}

static void strike(struct replay *r, uint16_t clause, uint8_t bit)
{
    r->clause[clause].struck |= bit;
    r->strike[r->strikes++] = (struct strike){ clause, bit };
}

static void open_split(struct replay *r, uint16_t literal)
{
    r->split[r->splits++] = (struct split){ r->held_count, r->clauses, r->strikes, literal ^ 1 };
    hold(r, literal);
}

/* The newest open split turns right with its old state. */
static void turn_right(struct replay *r)
{
    const struct split *s = &r->split[--r->splits];
    while (r->held_count > s->held)
        r->is_held[r->held[--r->held_count]] = false;
    while (r->strikes > s->strikes) {
        const struct strike *k = &r->strike[--r->strikes];
        r->clause[k->clause].struck &= (uint8_t)~k->bit;
    }
    r->clauses = s->clauses;
    hold(r, s->right);
}

/* A clause's literals, the struck ones in brackets, and where it is from. */
static void print_clause(const struct clause *c)
{
    fputs(" {", stdout);
    for (unsigned p = 0; p < c->width; p++)
        printf(c->struck >> p & 1 ? "%s[%u]" : "%s%u", p ? ", " : "", c->literal[p]);
    if (c->of == LITERALS_MAX)
        fputs("}, a goal: ", stdout);
    else
        printf("}, of %u: ", c->of);
}

/* The unstruck literal of a clause that has one. */
static uint16_t left_literal(const struct clause *c)
{
    unsigned p = 0;
    while (p + 1 < c->width && c->struck >> p & 1)
        p++;
    return c->literal[p];
}

static uint16_t true_literal(const struct replay *r, const struct clause *c)
{
    unsigned p = 0;
    while (p + 1 < c->width && (c->struck >> p & 1 || !r->is_held[c->literal[p]]))
        p++;
    return c->literal[p];
}

/* Version two strikes nothing: the clause's false literals are shown as struck. */
static void strike_false(struct replay *r, uint16_t k)
{
    for (unsigned p = 0; p < r->clause[k].width; p++)
        if (r->is_held[r->clause[k].literal[p] ^ 1] && !(r->clause[k].struck >> p & 1))
            strike(r, k, (uint8_t)(1 << p));
}

/* Says why a step on a clause holds, and takes it. */
static void take_clause_step(struct replay *r, const bev_stepped *s)
{
    const struct clause *c = &r->clause[s->value];
    uint16_t l;
    if (r->version_two)
        strike_false(r, s->value);
    print_clause(c);
    switch (s->rule) {
    case BEV_RULE_U:
        l = left_literal(c);
        printf("%u is the one literal left, so it is held", l);
        strike(r, s->value, CLAUSE_STRUCK);
        hold(r, l);
        break;
    case BEV_RULE_R:
        l = c->literal[s->position];
        printf("%u is false, since %u is held, and is struck", l, l ^ 1u);
        strike(r, s->value, (uint8_t)(1 << s->position));
        break;
    case BEV_RULE_E:
        printf("%u is held, so the clause is struck", true_literal(r, c));
        strike(r, s->value, CLAUSE_STRUCK);
        break;
    default:
        fputs(!c->width ? "it is empty" : r->version_two ? "every literal is false" : "every literal is struck", stdout);
        fputs(", so the branch closes", stdout);
        if (r->splits == 0) {
            fputs(", the last one", stdout);
        } else {
            turn_right(r);
            printf("; now %u is held", r->held[r->held_count - 1]);
        }
    }
}

/* Whether a step speaks of what is there: check has said so of every step that is taken. */
static bool speaks_of_what_is_there(const struct replay *r, const bev_stepped *s)
{
    if (s->rule == BEV_RULE_G)
        return true;
    if (s->rule == BEV_RULE_S)
        return s->value < 2 * r->nodes->count && r->held_count < NODES_MAX;
    return s->value < r->clauses && (s->rule != BEV_RULE_R || s->position < r->clause[s->value].width);
}

/* The step's line, indented by the splits that are open; holds says whether check lets it stand. */
static void explain(struct replay *r, const bev_stepped *s, bool holds)
{
    printf("%*s", (int)(2 * r->splits), "");
    print_step(s);
    if (holds && s->rule == BEV_RULE_S) {
        printf(" %u is undecided: it is held, and %u once its branch has closed", s->value, s->value ^ 1u);
        open_split(r, s->value);
    } else if (holds && s->rule == BEV_RULE_G) {
        printf(" %u is a goal: the list has it at this place", s->value);
    } else if (holds) {
        take_clause_step(r, s);
    } else {
        if (s->rule != BEV_RULE_S && s->rule != BEV_RULE_G && s->value < r->clauses)
            print_clause(&r->clause[s->value]);
        else
            fputs(": ", stdout);
        fputs("may not stand here", stdout);
    }
    putchar('\n');
}

/* Explains the steps up to the first that check refuses, and says the refusal. */
static int explain_steps(struct replay *r, const struct bytes *file, size_t steps, bev_checked c, const struct names *of)
{
    for (size_t i = 0; i < steps && !ferror(stdout); i++) {
        bev_stepped s = bev_step(file->at, file->len, i);
        bool holds = c.number == 0 || i < c.place;
        if (holds && !speaks_of_what_is_there(r, &s))
            return complain(of->file, "a step was accepted that cannot be explained");
        explain(r, &s, holds);
        if (!holds)
            break;
    }
    return c.number ? refuse(c.number, c.place, of) : DONE;
}

/* The starting clauses, one for each goal. */
static void start(struct replay *r, const struct nodes *nodes, const struct goals *goals)
{
    r->nodes = nodes;
    for (size_t i = 0; i < goals->count; i++)
        r->clause[r->clauses++] = (struct clause){ .literal = { goals->literal[i] }, .width = 1, .of = LITERALS_MAX };
}

/* The derivation explained for a table and a list of goals. */
static int explain_file(const struct bytes *file, const struct bytes *table, const struct goals *goals, const struct names *of)
{
    uint16_t work[BEV_WORK];
    bev_opened d = bev_open(file->at, file->len);
    bev_checked c = bev_check(table->at, table->len, goals->literal, goals->count, work, BEV_WORK, file->at, file->len);
    if (c.number && c.number != 64 && (c.number < 45 || c.number > 47))
        return refuse(c.number, c.place, of);
    int status = FAILED;
    struct replay *r = calloc(1, sizeof *r);
    struct nodes *nodes = r ? read_nodes(table, of, &status) : NULL;
    if (nodes) {
        r->version_two = d.version == 2;
        start(r, nodes, goals);
        status = explain_steps(r, file, d.steps, c, of);
    } else if (!r) {
        complain_errno("steps");
    }
    free(nodes);
    free(r);
    return status;
}

/* The steps on one line. */
static int print_steps(const struct bytes *file, const struct names *of)
{
    bev_opened d = bev_open(file->at, file->len);
    if (d.number)
        return refuse(d.number, d.place, of);
    for (size_t i = 0; i < d.steps && !ferror(stdout); i++) {
        bev_stepped s = bev_step(file->at, file->len, i);
        if (i)
            putchar(' ');
        print_step(&s);
    }
    putchar('\n');
    return DONE;
}

int run_steps(const struct words *w)
{
    struct bytes file = { .at = NULL }, table = { .at = NULL };
    struct goals goals;
    struct names of = { .file = w->word[0] };
    int status = FAILED;
    if (w->count == 2)
        return complain("steps", "a table needs its goals");
    if (w->count > 2)
        of = (struct names){ .table = w->word[1], .file = w->word[0], .goal = w->word + 2, .goals = (size_t)w->count - 2 };
    if (!parse_goals(of.goal, of.goals, &goals))
        return FAILED;
    if (load(of.file, BEV_DERIVATION_MAX + 1, &file)) {
        if (!of.table)
            status = print_steps(&file, &of);
        else if (load_table(of.table, &table))
            status = explain_file(&file, &table, &goals, &of);
    }
    free(table.at);
    free(file.at);
    return status;
}
