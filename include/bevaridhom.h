/* Bevaridhom: condition tables over up to 1,024 yes/no points. Link with libbevaridhom.a.
 *
 * Answers. A call takes any bytes and any lengths and answers a struct by value. Its number is 0 when the call answered; otherwise it
 * is the number of the first refusal that applies, place says where (docs/REFUSALS.md), and every other value is 0.
 *
 * Bytes lent. A refusal leaves every lent byte as it was, with two exceptions. The work area is free from row 23 on: bev_clash may have
 * changed it where it answers 63, bev_derive where it answers 30 or 31, bev_check where it answers 45, 46, 47 or 64, and bev_wishes where
 * it answers 67; a call that answers may always have. And after 51 or 52 the buffer of bev_dimacs is free.
 *
 * Areas. An area that a call may write (buffer, settings, answers, work, derivation of bev_derive) must not overlap another area of the same
 * call. NULL is fine where the length is 0. A work area and a list of goals or wishes are aligned as uint16_t.
 *
 * Goals. A list of goals is 1 to BEV_GOALS literals of the table; the same one may stand in it again, and so may its negation. A literal
 * of a table is below 4,032; a larger number must not be cut to 16 bits: hand on UINT16_MAX, which row 20 refuses. The goals are possible
 * where one setting makes all of them true, else impossible. Clause 0 is that of the first goal, clause 1 that of the second, and so on;
 * the other clauses follow. Row 62 is tested just before row 20: 62 the list is empty or has over BEV_GOALS; 20 a goal is not below
 * 2 x nodes, and place is the index, from 0, of the first such goal in the list.
 *
 * Damage. Where exactly one byte of a readable table is changed to another value, every call that reads it answers 11, and place is the
 * block of that byte; of a derivation whose blocks pass 41 to 43, bev_open and bev_check answer 41 there, and so does bev_step of a step
 * in that block. bev_step of a step in another block looks at one byte of block 0, its letter, and not at that block's check.
 *
 * Threads. Calls keep no state and share none: they may run at the same time where no area that one of them may write is lent to
 * another. A call allocates nothing and takes at most BEV_STACK bytes of stack. */
#ifndef BEVARIDHOM_H
#define BEVARIDHOM_H

#include <stddef.h>
#include <stdint.h>

#ifdef __cplusplus
extern "C" {
#endif

/* The version of these calls: 1.0 the base, 1.1 with bev_dimacs, 2.0 with points that may go either way, 3.0 with lists of goals, 3.1 with
 * bev_clash, 3.2 with derivations that name their goals, 4.0 with version two of the steps, 4.1 with bev_wishes, 4.2 adds a BEV_IMP as its
 * BEV_OR, 5.0 with conditions of three literals, 6.0 with the splits of bev_decide, 6.1 with bev_overview, 6.2 with bev_rooms_open and
 * bev_rooms_turn. */
#define BEV_VERSION_MAJOR 6
#define BEV_VERSION_MINOR 2

#define BEV_POINTS 1024             /* points of a setting, a byte each: 0 no, 1 yes, 2 either way */
#define BEV_GOALS 64                /* goals of the longest list */
#define BEV_WISHES 16               /* wishes of the longest list */
#define BEV_ASKED 256               /* goals of the longest list of bev_overview */
#define BEV_QUESTIONS 8             /* questions under one allowance */
#define BEV_RECORD 8                /* bytes of a record */
#define BEV_STEP 4                  /* bytes of a step */
#define BEV_BLOCK 512               /* bytes of a block */
#define BEV_TABLE_MAX 16384         /* bytes of the longest table: 2,016 nodes */
#define BEV_DERIVATION_MAX 33554432 /* bytes of the longest derivation: 8,257,536 steps */
#define BEV_WORK 32768              /* numbers of a work area */
#define BEV_STACK 1048576           /* bytes of stack that every call fits in */

/* Kinds of a node; the last two are of three operands. */
enum { BEV_TRUE = 1, BEV_ATOM = 2, BEV_AND = 3, BEV_OR = 4, BEV_IMP = 5, BEV_IFF = 6, BEV_AND3 = 7, BEV_OR3 = 8 };

/* Rules of a step: unit, removal of a false literal, erasure of a met clause, conflict, split, the name of a goal. */
enum { BEV_RULE_U = 85, BEV_RULE_R = 82, BEV_RULE_E = 69, BEV_RULE_C = 67, BEV_RULE_S = 83, BEV_RULE_G = 71 };

typedef struct { uint16_t number; size_t place; size_t nodes; } bev_counted;
typedef struct { uint16_t number; size_t place; uint8_t kind; uint16_t a; uint16_t b; uint16_t c; } bev_node;
typedef struct { uint16_t number; size_t place; uint8_t truth; } bev_truth;
typedef struct { uint16_t number; size_t place; uint8_t possible; uint32_t splits; } bev_decided;
typedef struct { uint16_t number; size_t place; size_t count; uint8_t kept[64]; } bev_clashed;
typedef struct { uint16_t number; size_t place; } bev_answered;
typedef struct { uint16_t number; size_t place; size_t count; size_t turns[8]; uint8_t verdicts[8]; } bev_turned;
typedef struct { uint16_t number; size_t place; size_t literal; size_t used; } bev_added;
typedef struct { uint16_t number; size_t place; size_t steps; } bev_derived;
typedef struct { uint16_t number; size_t place; } bev_checked;
typedef struct { uint16_t number; size_t place; size_t met; size_t bound; size_t questions; } bev_wished;
typedef struct { uint16_t number; size_t place; size_t steps; uint8_t version; } bev_opened;
typedef struct { uint16_t number; size_t place; uint8_t left; uint8_t rule; uint8_t position; uint16_t value; } bev_stepped;

/* The node count of a table. Refusals: 10 to 17. */
bev_counted bev_count(const uint8_t *table, size_t table_len);

/* The record of a literal's node. Refusals: 10 to 17, 20 at place 0. */
bev_node bev_record(const uint8_t *table, size_t table_len, size_t literal);

/* The truth (0 no, 1 yes, 2 unknown) of a literal under the first 1,024 settings bytes, by strong Kleene tables: a yes or no holds for
 * every way of filling the 2s, and where no byte is 2 nothing is unknown. Compare with 1: 2 is not 0 either. Later bytes are not read.
 * Refusals: 10 to 17, 20 at place 0, 21, 22 a byte above 2, at the point. */
bev_truth bev_evaluate(const uint8_t *table, size_t table_len, size_t literal, const uint8_t *settings, size_t settings_len);

/* Adds a record to the table in the first `used` bytes of a buffer; used 0 is an empty table. Operands may come in any order; a BEV_IMP is
 * added as the BEV_OR of not a and b, which means the same. Answers the record's literal and the used length; a record that is there
 * already is found, and no byte changes. Refusals: 9, 10 to 17, then 14 to 16 of the record given, 51, 52 at the node count. */
bev_added bev_add(uint8_t *buffer, size_t buffer_len, size_t used, const uint8_t record[BEV_RECORD]);

/* Whether one setting makes every goal true (1 possible, 0 impossible); if so the first 1,024 settings bytes become the setting that
 * the solver's order ends on, with 2 for each point that it leaves open, those that the table does not name among them: bev_evaluate
 * says yes of each goal, and so it does for every way of filling the 2s with 0 and 1. Else the settings stay. The search jumps over
 * splits that have no part in a clash: verdict and settings are those of the plain order, and `splits` is how many splits were made,
 * never more than the plain order makes, 4,294,967,295 for that many or more. Needs a work area of BEV_WORK numbers; every refusal
 * leaves it as it was. Refusals: 10 to 17, 62, 20, 21, 23. */
bev_decided bev_decide(const uint8_t *table, size_t table_len, const uint16_t *goals, size_t goals_len, uint8_t *settings, size_t settings_len,
                       uint16_t *work, size_t work_len);

/* Of goals that are impossible together, the few to argue about: the list is walked from last to first, and a goal is dropped if the others
 * left are still impossible together. Answers how many are kept and their indices in the list, in rising order; entries past the count
 * are 0. The goals kept are impossible together, and leaving out any single one of them makes the others possible; the empty list counts
 * as possible. The table is read once. The work area as for bev_decide, free also after 63. Refusals: 10 to 17, 62, 20, 23, 63 the goals
 * are possible together. */
bev_clashed bev_clash(const uint8_t *table, size_t table_len, const uint16_t *goals, size_t goals_len, uint16_t *work, size_t work_len);

/* Whether each goal of a list by itself is possible: the first answer bytes become 1 possible or 0 impossible, one for each goal in list
 * order, as bev_decide would say of that goal alone; the same goal may stand in the list again. Later answer bytes stay. The list has 1 to
 * BEV_ASKED literals and may be as long as the answer bytes lent. The table is read once. The work area as for bev_decide. Refusals: 10
 * to 17, 68 the list is empty, has over BEV_ASKED or is longer than the answer bytes, 20 at the index of the first goal that is none, 23. */
bev_answered bev_overview(const uint8_t *table, size_t table_len, const uint16_t *goals, size_t goals_len, uint8_t *answers, size_t answers_len,
                          uint16_t *work, size_t work_len);

/* Up to BEV_QUESTIONS questions of one table, one goal each, under one allowance. Question i has the BEV_WORK numbers of the work area
 * from BEV_WORK x i on and the 1,024 settings bytes from 1,024 x i on. bev_rooms_open sets every search up at its start. Each later
 * bev_rooms_turn goes on with the areas, table, questions and settings as the call before left them: it has an allowance of turns, which
 * go round in question order over the unfinished ones and resume after the question served last, and spends it all unless every question
 * is finished. A turn is one unit, conflict or split of the solver's order (a conflict with the right turn that it causes), or the
 * finding that all clauses are met. Answers, for the `count` questions, the turns made in this call and the verdicts: 0 impossible, 1
 * possible, 2 unfinished; the other values are 0. A verdict comes with the turn that reaches it, and with it the question's settings
 * bytes where it is possible; both are those of bev_decide for the question, however the turns are split into calls, and later calls
 * repeat the verdict. An area of other contents is safe: a verdict that stands in its number 0 (0 or 1) is repeated, whoever wrote it, and
 * with any other number there, literals that are not those of a search of its question are taken for none. Every refusal leaves the areas
 * as they were. Refusals, of both calls: 69 no questions or over BEV_QUESTIONS, before all others; 10 to 17; 20 at the index of the
 * question; 21 under 1,024 settings bytes a question; 23 under BEV_WORK numbers a question. */
bev_turned bev_rooms_open(const uint8_t *table, size_t table_len, const uint16_t *questions, size_t questions_len, const uint8_t *settings,
                          size_t settings_len, uint16_t *work, size_t work_len);
bev_turned bev_rooms_turn(const uint8_t *table, size_t table_len, const uint16_t *questions, size_t questions_len, uint8_t *settings,
                          size_t settings_len, uint16_t *work, size_t work_len, size_t allowance);

/* Writes the derivation, in the solver's order, of goals that are impossible together, and answers its step count: a G for each goal,
 * in list order, then the steps of the search. version_two says which version: 0 version one, blocks with letter 68; any other value
 * version two, blocks with letter 86 and no R. The derivation is the blocks that hold these steps, 126 in a full one; the bytes past its
 * last block stay. The work area as for bev_decide, free also after 30 and 31. Refusals: 10 to 17, 62, 20, 23, 30 the goals are possible,
 * 31 more bytes are needed than lent or than 65,536 blocks. */
bev_derived bev_derive(const uint8_t *table, size_t table_len, const uint16_t *goals, size_t goals_len, uint8_t version_two,
                       uint16_t *work, size_t work_len, uint8_t *derivation, size_t derivation_len);

/* Whether a derivation, by whatever author, shows that the goals are impossible together: number 0 accepted. One whose first step is a G
 * is accepted for the goals that it names and no other list; in version one it need not name them. The letter of its first block says
 * the version. The work area as for bev_decide, free also after 45, 46, 47 and 64. Refusals: 10 to 17, 62, 20, 23, 40 to 44 and 65 for
 * its form, then 46, 64 (a G wrong, missing or late) and 45 at the step where it fails, 64 at the step count where the steps end before
 * every goal is named, 47 there where they end with a branch open. */
bev_checked bev_check(const uint8_t *table, size_t table_len, const uint16_t *goals, size_t goals_len, uint16_t *work, size_t work_len,
                      const uint8_t *derivation, size_t derivation_len);

/* A setting that makes the goals true and, within an allowance of questions, as many of 0 to BEV_WISHES wishes as it finds; wishes are
 * literals, and one that stands twice counts twice. First the goals alone, uncounted: their setting, as bev_decide has it, is written.
 * Then questions, each the goals with some wishes behind them: all wishes, then the subsets by falling size, those of a size in
 * dictionary order of their rising index lists; the empty one is none. The first possible question replaces the setting. Answers `met`,
 * as many wishes are true for every way of filling the settings' 2s; `bound`, no setting that makes the goals true makes more of them
 * true; and the questions put, at most the allowance. It stops when met = bound or when the allowance is spent: a larger one never lowers
 * met or raises bound, and 2^wishes - 1, at most 65,535, is enough for both to be equal. The table is read and indexed once, but each
 * question is a search, unless it has a literal and its negation. The work area as for bev_decide, free also after 67. Refusals: 10 to 17, 62 for the goals, 66 over BEV_WISHES
 * wishes, 20 with the wishes indexed behind the goals, 21, 23, 67 the goals alone are impossible. */
bev_wished bev_wishes(const uint8_t *table, size_t table_len, const uint16_t *goals, size_t goals_len, const uint16_t *wishes,
                      size_t wishes_len, size_t allowance, uint8_t *settings, size_t settings_len, uint16_t *work, size_t work_len);

/* Opens a derivation: its step count and its version, 1 or 2 (0 with a refusal). Refusals: 40 to 44, and 65 an R or E in version two, step
 * by step after 44. */
bev_opened bev_open(const uint8_t *derivation, size_t derivation_len);

/* The step at an index: left 1 and the step, or left 0 where none is left, at or past the count that the blocks state. In constant time:
 * of the derivation it looks at the length (40), at the first byte, which says the version, at one block, that of the index or, behind
 * all blocks, the last (41 to 43), and at the step (44, 65). bev_open says whether every block and every step passes. Refusals: 40 to 44,
 * 65. */
bev_stepped bev_step(const uint8_t *derivation, size_t derivation_len, size_t index);

/* Reads a DIMACS text (conjunctive normal form) and builds its table in an empty buffer: answers the goal literal and the used length.
 * Variable v is point v - 1; the goal is true exactly where every clause is. Refusals: 60 heading, 61 body (no byte has changed), 51
 * and 52 as in bev_add, at the node count (the buffer is then free). */
bev_added bev_dimacs(const uint8_t *text, size_t text_len, uint8_t *buffer, size_t buffer_len);

#ifdef __cplusplus
}
#endif

#endif
