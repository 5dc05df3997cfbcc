/* evaluate TABLE LITERAL [POINT ..]: the truth of a literal of a table file, where the points named are yes, those
 * with a ? behind them may go either way, and all others are no. */
#include "../include/bevaridhom.h"
#include <stdio.h>
#include <stdlib.h>

int main(int argc, char **argv)
{
    static uint8_t table[BEV_TABLE_MAX + 1], settings[BEV_POINTS];
    FILE *file = argc < 3 ? NULL : fopen(argv[1], "rb");
    if (!file) {
        fprintf(stderr, "usage: evaluate TABLE LITERAL [POINT ..]\n");
        return 2;
    }
    size_t len = fread(table, 1, sizeof table, file);
    if (ferror(file)) {
        perror(argv[1]);
        return 2;
    }
    fclose(file);
    for (int i = 3; i < argc; i++) {
        char *end;
        unsigned long point = strtoul(argv[i], &end, 10);
        if (point >= BEV_POINTS) {
            fprintf(stderr, "points are 0 to %d\n", BEV_POINTS - 1);
            return 2;
        }
        settings[point] = *end == '?' ? 2 : 1;
    }
    bev_truth v = bev_evaluate(table, len, strtoul(argv[2], NULL, 10), settings, sizeof settings);
    if (v.number) {
        printf("refused %u at %zu\n", v.number, v.place);
        return 1;
    }
    static const char *const truths[] = { "no", "yes", "unknown" };
    puts(truths[v.truth]);
    return fflush(stdout) ? 2 : 0;
}
