/* Repeats among records of one hash: two that differ in one operand alone are no repeat, and a repeat of either, next to it or far away, is 17
 * at its place, by calls that read with chains of their own and with lent ones. Beside a comparison with all records before. */
#include "tables.h"

enum { FILL = 1980, MOST = 30 };

/* The library's hash, so that records of one chain can be looked for. Were it another, the tests would hold too, but tell less. */
static unsigned hash_of(const uint8_t *r)
{
    uint64_t low = r[0] | (uint64_t)r[1] << 8 | (uint64_t)r[2] << 16 | (uint64_t)r[3] << 24;
    uint64_t high = r[4] | (uint64_t)r[5] << 8 | (uint64_t)r[6] << 16 | (uint64_t)r[7] << 24;
    return (unsigned)((3266489917u * low + 668265263u * high) / 1048576 % 4096);
}

static uint8_t records[2016][8], table[16384];
static size_t count;

/* 1,024 points, and conditions of two points next to each other: all different. */
static void fill(void)
{
    for (count = 0; count < FILL; count++)
        if (count < 1024)
            rec(records[count], 2, (unsigned)count, 0);
        else
            rec(records[count], 3, 2 * (unsigned)(count - 1024), 2 * (unsigned)(count - 1023));
}

/* The first record behind these that repeats an earlier one, or how many records there are. */
static size_t first_repeat(void)
{
    for (size_t i = FILL; i < count; i++)
        for (size_t k = 0; k < i; k++)
            if (memcmp(records[i], records[k], 8) == 0)
                return i;
    return count;
}

/* What calls that read say of the records. */
static void say(void)
{
    uint8_t settings[1024] = { 0 }, told[1];
    uint16_t goal[1] = { 0 };
    size_t n = first_repeat(), len = o_build(table, (const uint8_t (*)[8])records, count);
    unsigned no = n < count ? 17 : 0;
    size_t at = n < count ? n : 0;
    bev_counted c = bev_count(table, len);
    EXPECT(c.number == no && c.place == at && c.nodes == (no ? 0 : count));
    bev_decided d = bev_decide(table, len, goal, 1, settings, 1024, work, BEV_WORK);
    EXPECT(d.number == no && d.place == at);
    bev_answered o = bev_overview(table, len, goal, 1, told, 1, work, BEV_WORK);
    EXPECT(o.number == no && o.place == at);
    bev_checked k = bev_check(table, len, goal, 1, work, BEV_WORK, table, 0);
    EXPECT(k.number == (no ? no : 40) && k.place == at);
    EXPECT(whole());
}

/* A literal for operand a, b or c of a record that differs from others in one operand alone: that one has most of the range. */
static unsigned some(unsigned operand, unsigned one)
{
    unsigned from = operand == one ? 10 : operand < one ? 4 * operand : 1960 + 4 * operand, many = operand == one ? 1950 : 4;
    return 2 * (from + pick(many)) + pick(2);
}

/* Pairs of records of one hash that differ in one operand alone. How many records. */
static size_t pairs(unsigned one)
{
    fill();
    for (int tries = 0; count < FILL + MOST && tries < 4000; tries++) {
        unsigned kind = 7 + pick(2), l[3] = { some(0, one), some(1, one), some(2, one) };
        uint8_t r[2][8];
        rec3(r[0], kind, l[0], l[1], l[2]);
        for (int again = 0; again < 8000; again++) {
            l[one] = some(one, one);
            rec3(r[1], kind, l[0], l[1], l[2]);
            if (hash_of(r[0]) == hash_of(r[1]) && memcmp(r[0], r[1], 8)) {
                memcpy(records[count], r, sizeof r);
                count += 2;
                if (first_repeat() < count)
                    count -= 2;
                break;
            }
        }
    }
    return count - FILL;
}

int main(void)
{
    guard();
    for (unsigned one = 0; one < 3; one++)
        for (int round = 0; round < 4; round++) {
            EXPECT(pairs(one) == MOST);
            say();
            size_t all = count;
            for (size_t k = FILL; k < all; k++) { /* a repeat of each at the end, and one place behind it */
                uint8_t kept[8];
                memcpy(records[all], records[k], 8);
                count = all + 1;
                say();
                memcpy(kept, records[k + 1], 8);
                memcpy(records[k + 1], records[k], 8);
                count = all;
                if (k + 1 < all)
                    say();
                memcpy(records[k + 1], kept, 8);
            }
        }
    for (size_t first = 0; first < 2015; first += 403) { /* one of the first records again, as far away as it goes */
        fill();
        while (count < 2015)
            rec(records[count], 4, 2 * (unsigned)(count - FILL), 2 * (unsigned)(count - FILL + 1)), count++;
        memcpy(records[count++], records[first], 8);
        say();
    }
    printf("repeats: %lu checks, %lu failed\n", checks, failed);
    return failed != 0;
}
