/* What each refusal means. docs/REFUSALS.md has the same rows, number by number; tools/refusals compares them. */
#ifndef BEV_REFUSALS_H
#define BEV_REFUSALS_H

#include <stdint.h>

/* Which argument of a command a refusal speaks of: the table, the goal at the place, all goals, all wishes, another file. */
enum about { ABOUT_TABLE, ABOUT_GOAL, ABOUT_GOALS, ABOUT_WISHES, ABOUT_FILE };

struct refusal {
    uint16_t number;
    enum about about;
    const char *meaning;
    const char *place; /* what the place counts; "0" where it is always 0 */
    const char *calls;
};

#define READS_TABLE "count, record, evaluate, add, decide, clash, wishes, overview, derive, check, rooms_open, rooms_turn"
#define READS_STEPS "check, open, step"

static const struct refusal refusals[] = {
    { 9, ABOUT_TABLE, "the used length is beyond the buffer", "0", "add" },
    { 10, ABOUT_TABLE, "the table's length is zero, no multiple of 512, or over 16,384", "0", READS_TABLE },
    { 11, ABOUT_TABLE, "the block's check is wrong", "block", READS_TABLE },
    { 12, ABOUT_TABLE, "the block's letter, index or count is wrong, or it is short but not the last", "block", READS_TABLE },
    { 13, ABOUT_TABLE, "a byte behind the block's records is not zero", "block", READS_TABLE },
    { 14, ABOUT_TABLE, "the record's kind is unknown, or a field that must be zero is not", "node", READS_TABLE },
    { 15, ABOUT_TABLE, "the point is over 1,023, or an operand is not an earlier node", "node", READS_TABLE },
    { 16, ABOUT_TABLE, "two operands are the same node, or they stand in the wrong order", "node", READS_TABLE },
    { 17, ABOUT_TABLE, "the record repeats an earlier one", "node", READS_TABLE },
    { 20, ABOUT_GOAL, "the literal is not below twice the node count", "goal", "record, evaluate, decide, clash, wishes, overview, derive, check, rooms_open, rooms_turn" },
    { 21, ABOUT_FILE, "the settings are under 1,024 bytes", "0", "evaluate, decide, wishes, rooms_open, rooms_turn" },
    { 22, ABOUT_FILE, "the setting is above 2", "point", "evaluate" },
    { 23, ABOUT_TABLE, "the work area is under 32,768 numbers", "0", "decide, clash, wishes, overview, derive, check, rooms_open, rooms_turn" },
    { 30, ABOUT_GOALS, "some setting makes every goal true", "0", "derive" },
    { 31, ABOUT_GOALS, "the derivation needs more bytes than were lent, or more than 65,536 blocks", "0", "derive" },
    { 40, ABOUT_FILE, "the derivation's length is zero, no multiple of 512, or over 33,554,432", "0", READS_STEPS },
    { 41, ABOUT_FILE, "the block's check is wrong", "block", READS_STEPS },
    { 42, ABOUT_FILE, "the block's letter, index or count is wrong, or it is short but not the last", "block", READS_STEPS },
    { 43, ABOUT_FILE, "a byte behind the block's steps is not zero", "block", READS_STEPS },
    { 44, ABOUT_FILE, "the step's rule is unknown, or its position is not one of the rule", "step", READS_STEPS },
    { 45, ABOUT_FILE, "the condition of the step's rule does not hold", "step", "check" },
    { 46, ABOUT_FILE, "the derivation was complete before this step", "step", "check" },
    { 47, ABOUT_FILE, "the steps end with a branch open", "step count", "check" },
    { 51, ABOUT_TABLE, "the record is new, and the table has 2,016 nodes", "node count", "add, dimacs" },
    { 52, ABOUT_TABLE, "the record needs a new block, and the buffer has no room for it", "node count", "add, dimacs" },
    { 60, ABOUT_FILE, "the heading is malformed, or has over 1,024 variables", "0", "dimacs" },
    { 61, ABOUT_FILE, "the body is malformed, a variable is over V, or the clauses are not C", "0", "dimacs" },
    { 62, ABOUT_GOALS, "the list of goals is empty or has over 64", "0", "decide, clash, wishes, derive, check" },
    { 63, ABOUT_GOALS, "the goals are possible together", "0", "clash" },
    { 64, ABOUT_FILE, "a step that names a goal is wrong, missing or late", "step", "check" },
    { 66, ABOUT_WISHES, "the list of wishes has over 16", "0", "wishes" },
    { 67, ABOUT_GOALS, "no setting makes every goal true", "0", "wishes" },
    { 68, ABOUT_GOALS, "the list of goals is empty, has over 256, or is longer than the answer bytes lent", "0", "overview" },
    { 69, ABOUT_GOALS, "there are no questions, or over 8", "0", "rooms_open, rooms_turn" },
    { 65, ABOUT_FILE, "version two has no step R or E", "step", READS_STEPS },
};

#endif
