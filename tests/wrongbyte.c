/* One wrong byte: every byte of tables and derivations of several blocks is set to every other value, and each call that gets as far as
 * its block says 11 or 41 there, changes no lent byte, and answers as before once the byte is back. */
#include "rules.h"
#include "tables.h"

enum { ROOM = 1 << 16, SOME = 64 };
static uint8_t settings[1024], settings_before[1024], buffer[4096], buffer_before[4096], lent[SOME], lent_before[SOME];

typedef struct { uint8_t bytes[4096]; size_t len, nodes; o_list goals; } a_table;

/* Two questions, their settings and work areas. */
static uint16_t rooms[2 * BEV_WORK], rooms_before[2 * BEV_WORK];
static uint8_t room_settings[2 * 1024], room_settings_before[2 * 1024];

static int is(unsigned number, size_t place, unsigned right, size_t j) { return number == right && place == j; }

/* Every call that reads a table, of one with a byte of block j wrong. */
static int table_refused(const a_table *t, size_t j)
{
    const uint16_t *g = t->goals.goal;
    size_t n = t->goals.count;
    bev_counted counted = bev_count(t->bytes, t->len);
    bev_node node = bev_record(t->bytes, t->len, 0);
    bev_truth truth = bev_evaluate(t->bytes, t->len, 0, settings, 1024);
    bev_decided decided = bev_decide(t->bytes, t->len, g, n, settings, 1024, work, BEV_WORK);
    bev_clashed clashed = bev_clash(t->bytes, t->len, g, n, work, BEV_WORK);
    bev_wished wished = bev_wishes(t->bytes, t->len, g, n, g, n, 3, settings, 1024, work, BEV_WORK);
    bev_answered overview = bev_overview(t->bytes, t->len, g, n, lent, SOME, work, BEV_WORK);
    bev_derived derived = bev_derive(t->bytes, t->len, g, n, 0, work, BEV_WORK, lent, SOME);
    bev_checked checked = bev_check(t->bytes, t->len, g, n, work, BEV_WORK, lent, SOME);
    return is(counted.number, counted.place, 11, j) && counted.nodes == 0 && is(node.number, node.place, 11, j) && node.kind == 0
        && is(truth.number, truth.place, 11, j) && truth.truth == 0 && is(decided.number, decided.place, 11, j) && decided.possible == 0
        && is(clashed.number, clashed.place, 11, j) && clashed.count == 0 && is(wished.number, wished.place, 11, j) && wished.met == 0
        && wished.bound == 0 && wished.questions == 0 && is(overview.number, overview.place, 11, j)
        && is(derived.number, derived.place, 11, j) && derived.steps == 0 && is(checked.number, checked.place, 11, j);
}

/* Both calls of questions under one allowance, of a list that passes 69. */
static int rooms_refused(const a_table *t, size_t j)
{
    static const uint16_t g[2] = { 1, 6 };
    bev_turned opened = bev_rooms_open(t->bytes, t->len, g, 2, room_settings, sizeof room_settings, rooms, 2 * BEV_WORK);
    bev_turned turned = bev_rooms_turn(t->bytes, t->len, g, 2, room_settings, sizeof room_settings, rooms, 2 * BEV_WORK, 9);
    return is(opened.number, opened.place, 11, j) && opened.count == 0 && is(turned.number, turned.place, 11, j) && turned.count == 0
        && turned.turns[0] == 0 && turned.verdicts[0] == 0;
}

/* Add, of a buffer whose used part has a wrong byte, with a record that is there or a new one: no byte changes. */
static int add_refused(const a_table *t, size_t k, uint8_t value, const uint8_t *record)
{
    buffer[k] = value;
    bev_added added = bev_add(buffer, sizeof buffer, t->len, record);
    int stays = buffer[k] == value;
    buffer[k] = buffer_before[k];
    return stays && memcmp(buffer, buffer_before, sizeof buffer) == 0 && is(added.number, added.place, 11, k / 512) && added.literal == 0
        && added.used == 0;
}

static void wrong_table(a_table *t)
{
    uint8_t fresh[8];
    rec(fresh, 2, 1023, 0);
    memset(buffer_before, 170, sizeof buffer);
    memcpy(buffer_before, t->bytes, t->len);
    memcpy(buffer, buffer_before, sizeof buffer);
    memset(settings, 7, 1024);
    memcpy(settings_before, settings, 1024);
    memset(lent, 5, SOME);
    memcpy(lent_before, lent, SOME);
    for (size_t i = 0; i < 2 * BEV_WORK; i++)
        rooms_before[i] = rooms[i] = (uint16_t)pick(65536);
    memset(room_settings, 7, sizeof room_settings);
    memcpy(room_settings_before, room_settings, sizeof room_settings);
    EXPECT(t->len >= 3 * 512 && t->len < sizeof buffer && bev_count(t->bytes, t->len).nodes == t->nodes);
    for (size_t k = 0; k < t->len; k++) {
        uint8_t right = t->bytes[k];
        for (unsigned value = 0; value < 256; value++)
            if (value != right) {
                t->bytes[k] = (uint8_t)value;
                EXPECT(table_refused(t, k / 512));
                EXPECT(rooms_refused(t, k / 512));
                EXPECT(add_refused(t, k, (uint8_t)value, value % 2 ? buffer_before + 4 : fresh));
            }
        t->bytes[k] = right ^ (uint8_t)(1u << k % 8);
        o_read plain = o_table(t->bytes, t->len);
        EXPECT(is(plain.number, plain.place, 11, k / 512));
        t->bytes[k] = right;
        EXPECT(bev_count(t->bytes, t->len).nodes == t->nodes);
    }
    EXPECT(memcmp(settings, settings_before, 1024) == 0 && memcmp(lent, lent_before, SOME) == 0 && whole());
    EXPECT(memcmp(rooms, rooms_before, sizeof rooms) == 0 && memcmp(room_settings, room_settings_before, sizeof room_settings) == 0);
}

static bev_checked check(const a_table *t, const uint8_t *d, size_t size)
{
    return bev_check(t->bytes, t->len, t->goals.goal, t->goals.count, work, BEV_WORK, d, size);
}

/* Every call that reads a derivation, of one with a byte of block j wrong. */
static int derivation_refused(const a_table *t, const uint8_t *d, size_t size, size_t j)
{
    bev_opened opened = bev_open(d, size);
    bev_stepped step = bev_step(d, size, 126 * j + 125);
    bev_checked checked = check(t, d, size);
    return is(opened.number, opened.place, 41, j) && opened.steps == 0 && is(step.number, step.place, 41, j) && step.left == 0
        && step.rule == 0 && is(checked.number, checked.place, 41, j);
}

/* Of a derivation whose blocks pass 40 to 43, and of which check says a number: every nth block. A step of another block is read. */
static void wrong_derivation(const a_table *t, uint8_t *d, size_t size, unsigned number, size_t nth)
{
    EXPECT(size >= 3 * 512 && check(t, d, size).number == number);
    for (size_t k = 0; k < size; k++) {
        size_t j = k / 512;
        uint8_t right = d[k];
        if (j % nth && j != size / 512 - 1)
            continue;
        for (unsigned value = 0; value < 256; value++)
            if (value != right) {
                d[k] = (uint8_t)value;
                EXPECT(derivation_refused(t, d, size, j));
            }
        EXPECT(bev_step(d, size, 126 * (j ? j - 1 : 1)).number != 41);
        d[k] = right ^ (uint8_t)(1u << k % 8);
        EXPECT(o_form(d, size, &(size_t){ 0 }).number == 41);
        d[k] = right;
    }
    EXPECT(check(t, d, size).number == number && whole());
}

/* Records as they are made: a record on two literals, the lower node first; the literal of its node. */
static uint8_t made[300][8];
static size_t nodes;

static unsigned join(unsigned kind, unsigned a, unsigned b)
{
    rec(made[nodes], kind, a < b ? a : b, a < b ? b : a);
    return 2 * (unsigned)nodes++;
}

/* One bird more than holes, every bird in a hole and no two in one: impossible. Point h of bird i is literal 2 * (i * holes + h). */
static void pigeonhole(a_table *t, unsigned holes)
{
    nodes = 0;
    for (unsigned p = 0; p < (holes + 1) * holes; p++)
        rec(made[nodes++], 2, p, 0);
    unsigned goal = 0;
    for (unsigned bird = 0; bird <= holes; bird++) {
        unsigned any = 2 * bird * holes;
        for (unsigned h = 1; h < holes; h++)
            any = join(4, any, 2 * (bird * holes + h));
        goal = bird ? join(3, goal, any) : any;
    }
    for (unsigned h = 0; h < holes; h++)
        for (unsigned bird = 0; bird <= holes; bird++)
            for (unsigned other = bird + 1; other <= holes; other++)
                goal = join(3, goal, join(3, 2 * (bird * holes + h), 2 * (other * holes + h)) + 1);
    t->len = o_build(t->bytes, (const uint8_t (*)[8])made, nodes);
    t->nodes = nodes;
    t->goals = o_one(goal);
}

int main(void)
{
    static a_table table, birds;
    static uint8_t d[ROOM], any[400][4];
    guard();
    table.nodes = 150;
    table.len = random_table(table.bytes, 20, table.nodes);
    table.goals = o_one(2 * table.nodes - 1);
    wrong_table(&table);
    printf("tables: %zu bytes, %lu checks\n", table.len, checks);

    pigeonhole(&birds, 4);
    for (uint8_t two = 0; two < 2; two++) {
        bev_derived ours = bev_derive(birds.bytes, birds.len, birds.goals.goal, 1, two, work, BEV_WORK, d, ROOM);
        EXPECT(ours.number == 0);
        wrong_derivation(&birds, d, 512 * ((ours.steps + 125) / 126), 0, 5);
        printf("a derivation of ours, version %d: %zu steps, %lu checks\n", two + 1, ours.steps, checks);
    }

    for (size_t k = 0; k < 400; k++)
        for (int i = 0; i < 4; i++)
            any[k][i] = (uint8_t)(i ? pick(256) : 1 + pick(60));
    wrong_derivation(&table, d, o_steps_build(d, 68, (const uint8_t (*)[4])any, 400), 44, 1);
    wrong_derivation(&table, d, o_steps_build(d, 86, (const uint8_t (*)[4])any, 400), 44, 1);
    printf("steps of no rule in blocks that pass\n");
    printf("%lu checks, %lu failed\n", checks, failed);
    return failed != 0;
}
