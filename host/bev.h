/* What the parts of the command bev share. */
#ifndef BEV_COMMAND_H
#define BEV_COMMAND_H

#include "../include/bevaridhom.h"
#include <stdbool.h>
#include <stdio.h>
#include <sys/types.h>

/* Exit status. */
enum { DONE = 0, REFUSED = 1, FAILED = 2, POSSIBLE = 10, IMPOSSIBLE = 20 };

/* A command's arguments: its words, and its options. */
struct words {
    char **word;
    int count;
    const char *out; /* -o FILE, --out FILE, or NULL */
    const char *questions; /* --questions N, or NULL */
    const char *allowance; /* --allowance N, or NULL */
    const char *seconds; /* --seconds S, or NULL */
    bool dot;
    bool clean;
    bool version_two;
};

/* ---- files.c ---- */

/* The bytes of an input, and the file they came from. */
struct bytes {
    const char *name;
    uint8_t *at;
    size_t len;
    bool regular;
    dev_t device;
    ino_t inode;
};

/* A file on its way: written beside its target, which it replaces when it is committed. */
struct output {
    const char *name;
    char *target;
    char *beside; /* NULL where the target is no regular file and is written itself */
    int fd;
};

void hold_standard_files(void);
int complain(const char *name, const char *cause);
int complain_errno(const char *name);
bool load(const char *path, size_t most, struct bytes *into);
bool exists(const char *path);
bool prepare(const char *path, const struct bytes *const inputs[], const uint8_t *at, size_t len, struct output *o);
int commit(struct output *o, int status);
bool printed(void);

/* ---- refuse.c ---- */

/* The arguments that a refusal may speak of: a table or record, another file, the goals (and wishes behind them) or the one literal. */
struct names {
    const char *table, *file;
    char **goal;
    size_t goals, wishes; /* of the goals, so many from behind are wishes */
};

int refuse(uint16_t number, size_t place, const struct names *of);
int refuse_listing(uint16_t number, size_t place, const struct names *of);

/* ---- records.c ---- */

#define NODES_MAX 2016

/* The nodes of a table. */
struct nodes {
    size_t count;
    bev_node node[NODES_MAX];
};

bool load_table(const char *path, struct bytes *into);
struct nodes *read_nodes(const struct bytes *table, const struct names *of, int *status);
void print_record(const bev_node *n);
void write_record(const bev_node *n, uint8_t record[BEV_RECORD]);
const char *parse_record(const char *text, uint8_t record[BEV_RECORD]);
bool parse_number(const char *text, size_t *number);

/* ---- show.c ---- */

/* What a node says, in words of its operands. */
void print_words(const struct nodes *nodes, const bev_node *n);

/* ---- commands ---- */

int run_list(const struct words *w);
int run_show(const struct words *w);
int run_add(const struct words *w);
int run_rebuild(const struct words *w);
int run_eval(const struct words *w);
int run_decide(const struct words *w);
int run_clash(const struct words *w);
int run_wishes(const struct words *w);
int run_overview(const struct words *w);
int run_derive(const struct words *w);
int run_check(const struct words *w);
int run_steps(const struct words *w);
int run_dimacs(const struct words *w);
int run_rooms(const struct words *w);

/* A list of goals as the calls take it. Of a list that is too long it has as many as show that. */
struct goals {
    uint16_t literal[BEV_GOALS + 1];
    size_t count;
};

/* The literal that a word names, with a message where it names none. */
bool parse_literal(const char *word, size_t *literal);
bool parse_goals(char **word, size_t count, struct goals *goals);

/* The literals that words name; those past the room are looked at, and left out. */
bool parse_literals(char **word, size_t count, uint16_t *literal, size_t room);

/* Prints a heading, the setting that was found, which goes to a file where one is named, and what closes it; the status told, or what went
 * wrong. */
int tell_setting(const struct bytes *table, const uint8_t settings[BEV_POINTS], const char *heading, const char *closing, int told,
                 const struct words *w, const struct names *of);

/* Whether one setting makes a literal of a readable table true, and the settings. */
bool is_possible(const struct bytes *table, size_t literal, uint8_t settings[BEV_POINTS]);

/* ---- rooms.c ---- */

/* One goal, decided unless the time is spent first: verdict 2. No verdict, and count 0, where there is no memory. */
bool parse_seconds(const char *text, double *seconds);
bev_turned decide_within(const struct bytes *table, uint16_t goal, double seconds, uint8_t settings[BEV_POINTS]);

/* ---- cnf.c ---- */

/* What was mended in a DIMACS text, by sort. */
struct mended {
    size_t returns, tabs, comments, blanks, spaces, ends;
};

/* Where a DIMACS text goes wrong: the line, from 1, and the cause; line 0 where it does not. */
struct fault {
    size_t line;
    char cause[120];
};

uint8_t *clean_cnf(const uint8_t *text, size_t len, size_t *cleaned, struct mended *m);
struct fault find_fault(const uint8_t *text, size_t len);

#endif
