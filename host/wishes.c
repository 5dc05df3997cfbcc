/* bev wishes: a setting that makes the goals true, and as many wishes as an allowance of questions finds. */
#include "bev.h"
#include <stdlib.h>
#include <string.h>
#include <unistd.h>

enum { ALL_QUESTIONS = (1 << BEV_WISHES) - 1, QUIET_QUESTIONS = 256 };

struct wishing {
    struct bytes table;
    struct goals goals;
    uint16_t wish[BEV_WISHES + 1];
    size_t wishes, allowance;
    uint8_t settings[BEV_POINTS];
};

/* Takes the colon out of the words behind the table, so that the wishes stand behind the goals; how many goals there are. */
static size_t join_lists(const struct words *w, size_t *wishes)
{
    size_t count = (size_t)w->count - 1, goals = 0;
    char **word = w->word + 1;
    while (goals < count && strcmp(word[goals], ":") != 0)
        goals++;
    *wishes = goals < count ? count - goals - 1 : 0;
    memmove(word + goals, word + goals + (goals < count), *wishes * sizeof *word);
    return goals;
}

static bool parse_lists(struct wishing *x, const struct words *w, struct names *of)
{
    size_t wishes, goals = join_lists(w, &wishes);
    *of = (struct names){ .table = w->word[0], .goal = w->word + 1, .goals = goals + wishes, .wishes = wishes };
    x->wishes = wishes <= BEV_WISHES ? wishes : BEV_WISHES + 1;
    x->allowance = ALL_QUESTIONS;
    if (w->questions && !parse_number(w->questions, &x->allowance)) {
        complain(w->questions, "is no number of questions");
        return false;
    }
    return parse_goals(of->goal, goals, &x->goals) && parse_literals(of->goal + goals, wishes, x->wish, x->wishes);
}

/* Never refused by 21 or 23. */
static bev_wished ask(struct wishing *x, size_t allowance)
{
    uint16_t work[BEV_WORK];
    return bev_wishes(x->table.at, x->table.len, x->goals.literal, x->goals.count, x->wish, x->wishes, allowance, x->settings, BEV_POINTS, work, BEV_WORK);
}

/* Where standard error is a terminal, a long run shows how far it is: an allowance that doubles, from which the next one starts anew,
 * so that at most twice the questions are put. The answer is that of the whole allowance. */
static bev_wished ask_with_progress(struct wishing *x)
{
    if (!isatty(STDERR_FILENO))
        return ask(x, x->allowance);
    bool shown = false;
    size_t allowance = x->allowance < QUIET_QUESTIONS ? x->allowance : QUIET_QUESTIONS;
    bev_wished v = ask(x, allowance);
    while (!v.number && v.met < v.bound && allowance < x->allowance) {
        fprintf(stderr, "\r\033[K%zu questions put, at most %zu wishes", v.questions, v.bound);
        shown = true;
        allowance = allowance < x->allowance / 2 ? 2 * allowance : x->allowance;
        v = ask(x, allowance);
    }
    if (shown)
        fputs("\r\033[K", stderr);
    return v;
}

int run_wishes(const struct words *w)
{
    struct wishing x = { .table = { .at = NULL } };
    struct names of;
    char heading[100];
    int status = FAILED;
    if (parse_lists(&x, w, &of) && load_table(of.table, &x.table)) {
        bev_wished v = ask_with_progress(&x);
        snprintf(heading, sizeof heading, "met %zu\nbound %zu\nquestions %zu", v.met, v.bound, v.questions);
        status = v.number ? refuse(v.number, v.place, &of) : tell_setting(&x.table, x.settings, heading, "", DONE, w, &of);
    }
    free(x.table.at);
    return status;
}
