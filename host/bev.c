/* bev: condition tables, their solver and its derivations, from the command line. The library answers; this reads the arguments. */
#include "bev.h"
#include <limits.h>
#include <signal.h>
#include <string.h>

enum { TAKES_OUT = 1, TAKES_DOT = 2, TAKES_CLEAN = 4, TAKES_QUESTIONS = 8, TAKES_ALLOWANCE = 8, TAKES_SECONDS = 16, TAKES_VERSION = 8 };

struct command {
    const char *name;
    const char *arguments;
    const char *summary;
    const char *help;
    int (*run)(const struct words *);
    int least, most; /* words */
    int options;
};

static const struct command commands[] = {
    { "list", "TABLE", "each node, and whether it can be yes and can be no",
      "The same bytes as the proved program listing writes: a heading, and a line a node.\n"
      "A refused table is the one line `refused N at P`; its meaning goes to standard error.\n",
      run_list, 1, 1, 0 },
    { "show", "[--dot] TABLE", "each record, and what it says",
      "A line a node: its number, its record, and what it says in words of its operands.\n"
      "Literal 2n is node n, literal 2n + 1 its negation.\n"
      "  --dot   a graph for Graphviz; the edge to a negated operand is dashed\n",
      run_show, 1, 1, TAKES_DOT },
    { "add", "TABLE RECORD ..", "adds records, prints the literal of each",
      "A RECORD is TRUE, ATOM P, AND(A,B), OR(A,B), IMP(A,B), IFF(A,B), AND(A,B,C) or OR(A,B,C), with a point P and\n"
      "literals A, B, C of different nodes. Operands may come in any order; IMP(A,B) is added as the OR of not A and B.\n"
      "A record that is there already is found. TABLE is made where there is none. The file is replaced whole once\n"
      "every record is in, and stays as it was on any refusal.\n",
      run_add, 2, INT_MAX, 0 },
    { "rebuild", "OLD NEW", "adds a table's records anew, and says which literal each got",
      "Adds the records of OLD in turn to an empty table, with their operands replaced by the literals that these got,\n"
      "and writes it to NEW. A line a node: its literal in OLD and in NEW, which are true under the same settings. No\n"
      "IMP is left; without one NEW is OLD byte for byte. Where two operands have become one node: refused 16.\n",
      run_rebuild, 2, 2, 0 },
    { "eval", "TABLE LITERAL SETTINGS", "a literal's truth: yes, no or unknown",
      "SETTINGS is a file of a byte for each of the 1,024 points, 0 no, 1 yes and 2 either way; what follows them is\n"
      "not read.\n",
      run_eval, 3, 3, 0 },
    { "decide", "TABLE GOAL.. [--out FILE]", "whether one setting makes all goals true",
      "Prints `possible` and the setting, a line for each point that the table names (yes, no, or either: both will\n"
      "do), or `impossible`; then `splits` and how many the search made, 4294967295 for that many or more.\n"
      "A list has 1 to 64 goals, which are literals; the same one may stand in it again.\n"
      "  --out FILE    the setting as 1,024 bytes, for eval; written where the goals are possible\n"
      "  --seconds S   of one goal: stops after so long and says `unknown`, with status 0; a line of progress on a terminal\n",
      run_decide, 2, INT_MAX, TAKES_OUT | TAKES_SECONDS },
    { "rooms", "TABLE GOAL.. [--allowance N]", "up to 8 goals, one by one, that take turns",
      "Each goal is a question by itself. Turns go round over the unfinished ones: a turn is one unit, conflict or split\n"
      "of the solver's order, or the finding that all clauses are met. Prints a line a goal: its verdict and its turns.\n"
      "On a terminal the lines are shown as they change.\n"
      "  --allowance N   stops after N turns in all; a goal may then be unfinished\n",
      run_rooms, 2, INT_MAX, TAKES_ALLOWANCE },
    { "clash", "TABLE GOAL..", "of impossible goals, the few to argue about",
      "Walks the list from last to first and drops a goal if the others left are still impossible together. Prints\n"
      "a line for each goal kept: its index in the list, from 0, its literal, and what it says. They are impossible\n"
      "together, and without any one of them the others are possible. Goals that are possible: refused 63.\n",
      run_clash, 2, INT_MAX, 0 },
    { "wishes", "TABLE GOAL.. : WISH..", "a setting for the goals and as many wishes as can be",
      "Prints `met` (wishes that are true for certain), `bound` (no setting that makes the goals true makes more wishes\n"
      "true), `questions` (how many were put) and the setting as decide does. 0 to 16 wishes stand behind a colon; the\n"
      "best setting is found where met is bound. Each question is a search for the goals and some wishes.\n"
      "  --questions N   at most so many questions; all, up to 65,535, where it is left out\n"
      "  --out FILE      the setting as 1,024 bytes, for eval\n",
      run_wishes, 2, INT_MAX, TAKES_OUT | TAKES_QUESTIONS },
    { "overview", "TABLE [GOAL..]", "whether each goal by itself is possible",
      "A line for each goal: the literal, and possible or impossible. A list has up to 256 goals; without one, all\n"
      "literals of the table, 256 at a time. The table is read once for a list.\n",
      run_overview, 1, INT_MAX, 0 },
    { "derive", "TABLE GOAL.. [--version-two] -o FILE", "writes the derivation of impossible goals",
      "Prints the number of steps. Goals that one setting makes true have none: refused 30.\n"
      "  --version-two   version two of the steps, which has no R\n",
      run_derive, 2, INT_MAX, TAKES_OUT | TAKES_VERSION },
    { "check", "TABLE GOAL.. FILE", "whether a derivation shows that goals are impossible",
      "FILE, the last word, may be by any author, for this table and these goals in this order. A derivation that\n"
      "names its goals, as those of derive do, is accepted for no others. Prints `accepted`, or the refusal with the\n"
      "step where it fails.\n",
      run_check, 3, INT_MAX, 0 },
    { "steps", "FILE [TABLE GOAL..]", "a derivation's steps; with table and goals, why each holds",
      "The steps on one line, R5.0 for a removal in clause 5 at position 0. With TABLE and GOAL.. a line a step:\n"
      "its clause with struck literals in brackets (in version two, at U and C, the false ones), the literal whose\n"
      "expansion the clause is of, and why the\n"
      "step holds, indented by the splits that are open. A derivation that fails is shown up to the step where\n"
      "it does.\n",
      run_steps, 1, INT_MAX, 0 },
    { "dimacs", "FILE [--clean] [-o TABLE]", "decides a DIMACS file as SAT solvers do",
      "Prints c, s and v lines. Variable v is point v - 1. Where FILE is refused by 60 or 61, a c line names\n"
      "the line and the cause.\n"
      "  -o TABLE   the table that was built; `c goal` names its goal for derive and check\n"
      "  --clean    mends what the reader turns away and says what it mended: carriage returns, tabs, comments\n"
      "             in the body, a % end, blank lines and spare spaces before the body\n",
      run_dimacs, 1, 1, TAKES_OUT | TAKES_CLEAN },
};

enum { COMMANDS = sizeof commands / sizeof commands[0] };

static const struct command *find_command(const char *name)
{
    for (size_t i = 0; i < COMMANDS; i++)
        if (strcmp(commands[i].name, name) == 0)
            return &commands[i];
    return NULL;
}

static int print_overview(void)
{
    puts("usage: bev COMMAND ARGUMENT ..\n\nCondition tables over 1,024 points, their solver and its derivations.\n");
    for (size_t i = 0; i < COMMANDS; i++)
        printf("  %-9s%-29s%s\n", commands[i].name, commands[i].arguments, commands[i].summary);
    puts("\n  help     COMMAND                      more about a command\n"
         "  --version\n\n"
         "The file name - is standard input. A refusal is printed as `refused N at P: meaning`.\n"
         "Exit status: 10 possible, 20 impossible, 0 answered or accepted, 1 refused, 2 wrong use, input or output.");
    return DONE;
}

static int print_version(void)
{
    printf("bev %d.%d\n", BEV_VERSION_MAJOR, BEV_VERSION_MINOR);
    return DONE;
}

static int print_help(const struct command *c)
{
    printf("usage: bev %s %s\n\n%s.\n\n%s", c->name, c->arguments, c->summary, c->help);
    return DONE;
}

static int wrong_use(const struct command *c, const char *name, const char *cause)
{
    complain(name, cause);
    if (c)
        fprintf(stderr, "usage: bev %s %s\n", c->name, c->arguments);
    else
        fputs("try: bev --help\n", stderr);
    return FAILED;
}

/* Takes the option at an argument; how many arguments it has, 0 for none that the command takes. */
static int take_option(const struct command *c, char **argument, struct words *w)
{
    bool out = strcmp(argument[0], "-o") == 0 || strcmp(argument[0], "--out") == 0;
    if (out && c->options & TAKES_OUT && argument[1] && !w->out) {
        w->out = argument[1];
        return 2;
    }
    if (strcmp(argument[0], "--questions") == 0 && c->options & TAKES_QUESTIONS && argument[1] && !w->questions) {
        w->questions = argument[1];
        return 2;
    }
    if (strcmp(argument[0], "--allowance") == 0 && c->options & TAKES_ALLOWANCE && argument[1] && !w->allowance) {
        w->allowance = argument[1];
        return 2;
    }
    if (strcmp(argument[0], "--seconds") == 0 && c->options & TAKES_SECONDS && argument[1] && !w->seconds) {
        w->seconds = argument[1];
        return 2;
    }
    if (strcmp(argument[0], "--dot") == 0 && c->options & TAKES_DOT)
        w->dot = true;
    else if (strcmp(argument[0], "--clean") == 0 && c->options & TAKES_CLEAN)
        w->clean = true;
    else if (strcmp(argument[0], "--version-two") == 0 && c->options & TAKES_VERSION)
        w->version_two = true;
    else
        return 0;
    return 1;
}

/* Parts a command's arguments into options and words, which move to the front; NULL, or what is wrong with the argument at `at`. */
static const char *part_arguments(const struct command *c, char **argument, struct words *w, const char **at)
{
    int standard = 0;
    bool options = true;
    for (w->word = argument; *argument;) {
        *at = *argument;
        if (options && strcmp(*argument, "--") == 0) {
            options = false;
            argument++;
        } else if (options && argument[0][0] == '-' && argument[0][1]) {
            int n = take_option(c, argument, w);
            if (n == 0)
                return "is no option here, or stands twice or without its file or value";
            argument += n;
        } else {
            standard += strcmp(*argument, "-") == 0;
            if (standard > 1)
                return "standard input can be read only once";
            w->word[w->count++] = *argument++;
        }
    }
    *at = w->out;
    return w->out && strcmp(w->out, "-") == 0 ? "the output must be a file" : NULL;
}

static int run_command(const struct command *c, char **arguments)
{
    struct words w = { .count = 0 };
    const char *at = c->name;
    for (char **a = arguments; *a; a++)
        if (strcmp(*a, "--help") == 0)
            return print_help(c);
    const char *cause = part_arguments(c, arguments, &w, &at);
    if (cause)
        return wrong_use(c, at, cause);
    if (w.count < c->least || w.count > c->most)
        return wrong_use(c, c->name, w.count < c->least ? "an argument is missing" : "too many arguments");
    return c->run(&w);
}

static int help(const char *name)
{
    const struct command *c = name ? find_command(name) : NULL;
    if (name && !c)
        return wrong_use(NULL, name, "is no command");
    return c ? print_help(c) : print_overview();
}

static int run(char **argument)
{
    if (strcmp(argument[1], "--help") == 0 || strcmp(argument[1], "-h") == 0 || strcmp(argument[1], "help") == 0)
        return help(argument[2]);
    if (strcmp(argument[1], "--version") == 0)
        return print_version();
    const struct command *c = find_command(argument[1]);
    return c ? run_command(c, argument + 2) : wrong_use(NULL, argument[1], "is no command");
}

int main(int argc, char **argv)
{
    hold_standard_files();
    signal(SIGPIPE, SIG_IGN); /* a closed pipe is a write that fails */
    int status = argc > 1 ? run(argv) : wrong_use(NULL, "COMMAND", "is missing");
    return status == FAILED || printed() ? status : FAILED;
}
