/* A tour of the calls: builds a small table record by record, decides two lists of goals, derives that the longer one is impossible, and
 * has the derivation checked. */
#include "../include/bevaridhom.h"
#include <stdio.h>

static uint8_t table[BEV_TABLE_MAX], settings[BEV_POINTS], derivation[BEV_BLOCK];
static uint16_t work[BEV_WORK];
static size_t used;

/* Adds a record and answers its literal; the same record gives the same literal again. */
static uint16_t add(uint8_t kind, uint16_t a, uint16_t b)
{
    uint8_t record[BEV_RECORD] = { kind, 0, (uint8_t)a, (uint8_t)(a >> 8), (uint8_t)b, (uint8_t)(b >> 8), 0, 0 };
    bev_added v = bev_add(table, sizeof table, used, record);
    if (v.number)
        printf("refused %u at %zu\n", v.number, v.place);
    used = v.number ? used : v.used;
    return (uint16_t)v.literal;
}

static const char *word(bev_decided d)
{
    return d.number ? "refused" : d.possible ? "possible" : "impossible";
}

int main(void)
{
    uint16_t storm = add(BEV_ATOM, 0, 0), go_around = add(BEV_ATOM, 1, 0);
    uint16_t rule = add(BEV_OR, (uint16_t)(storm + 1), go_around);  /* no storm, or a go-around */
    uint16_t goals[] = { rule, storm, (uint16_t)(go_around + 1) };  /* the rule, and a storm; and no go-around */
    bev_decided d = bev_decide(table, used, goals, 2, settings, sizeof settings, work, BEV_WORK);
    printf("%s: storm %d, go-around %d\n", word(d), settings[0], settings[1]);
    d = bev_decide(table, used, goals, 3, settings, sizeof settings, work, BEV_WORK);
    puts(word(d));
    bev_derived steps = bev_derive(table, used, goals, 3, 0, work, BEV_WORK, derivation, sizeof derivation);
    for (size_t k = 0; k < steps.steps; k++) {
        bev_stepped s = bev_step(derivation, sizeof derivation, k);
        printf("%c%u%s ", s.rule, s.value, s.rule != BEV_RULE_R ? "" : s.position ? ".1" : ".0");
    }
    bev_checked c = bev_check(table, used, goals, 3, work, BEV_WORK, derivation, sizeof derivation);
    printf("\n%s\n", c.number ? "refused" : "accepted");
    return c.number != 0;
}
