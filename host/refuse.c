/* The one place where a refusal is printed. */
#include "bev.h"
#include "refusals.h"
#include <string.h>

static const struct refusal *find(uint16_t number)
{
    static const struct refusal unknown = { 0, ABOUT_TABLE, "a refusal that this command does not know", "0", "" };
    for (size_t i = 0; i < sizeof refusals / sizeof refusals[0]; i++)
        if (refusals[i].number == number)
            return &refusals[i];
    return &unknown;
}

static const char *subject(const struct refusal *r, size_t place, const struct names *of)
{
    const char *name = r->about == ABOUT_FILE ? of->file : of->table;
    if (r->about == ABOUT_GOAL)
        name = place < of->goals ? of->goal[place] : NULL;
    if (r->about == ABOUT_GOALS)
        name = of->goals - of->wishes == 1 ? of->goal[0] : "the goals";
    if (r->about == ABOUT_WISHES)
        name = "the wishes";
    return !name ? "the input" : strcmp(name, "-") == 0 ? "standard input" : name;
}

/* Prints a refusal with its meaning, and of which argument it speaks. */
int refuse(uint16_t number, size_t place, const struct names *of)
{
    const struct refusal *r = find(number);
    bool one_literal = r->about == ABOUT_GOAL && of->goals == 1;
    printf("refused %u at %zu: %s (%s", number, place, r->meaning, subject(r, place, of));
    if (strcmp(r->place, "0") != 0 && !one_literal)
        printf(", %s %zu", r->place, place);
    puts(")");
    return REFUSED;
}

/* Prints a refusal as the proved listing does, and its meaning to the side. */
int refuse_listing(uint16_t number, size_t place, const struct names *of)
{
    const struct refusal *r = find(number);
    printf("refused %u at %zu\n", number, place);
    complain(subject(r, place, of), r->meaning);
    return REFUSED;
}
