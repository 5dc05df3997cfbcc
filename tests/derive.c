/* bev_derive, bev_check, bev_open and bev_step as a host calls them, with single goals and lists: every byte that derive writes against
 * the solver's order in plain C, round trips, derivations of other authors and damaged ones against the rules in plain C (number and
 * place), every refusal, canaries, the deepest table in a thread of 1 MiB, 17 nested IFFs, and a derivation of the full 65,536 blocks. */
#include "../include/bevaridhom.h"
#include "rules.h"
#include "tables.h"
#include <pthread.h>

enum { ROOM = 1 << 20, STEPS = 200000 };
static uint8_t lent[ROOM + GUARD], expected[ROOM + GUARD];
static uint8_t taken[STEPS][4];
static unsigned long others;

static void fill(uint8_t *p, size_t n)
{
    for (size_t i = 0; i < n; i++)
        p[i] = (uint8_t)(i * 37 + 11);
}

static int told(bev_checked v, o_told right) { return v.number == right.number && v.place == right.place; }

/* The calls with a full work area. */
static bev_checked check(const uint8_t *t, size_t len, const o_list *g, const uint8_t *d, size_t size)
{
    return bev_check(t, len, g->goal, g->count, work, BEV_WORK, d, size);
}

/* The version at work: its letter, and a byte that asks for it. */
static int letter = 68;

static uint8_t asked(void) { return letter == 68 ? 0 : (uint8_t)(1 + pick(255)); }

static bev_derived derive(const uint8_t *t, size_t len, const o_list *g, uint8_t *d, size_t room)
{
    return bev_derive(t, len, g->goal, g->count, asked(), work, BEV_WORK, d, room);
}

/* What the reader says at an index, against the plain reading of the length, one block and the step. */
static void step_is(const uint8_t *d, size_t size, size_t k)
{
    bev_stepped v = bev_step(d, size, k);
    if (o_size_bad(size)) {
        EXPECT(v.number == 40 && v.place == 0 && v.left == 0);
        return;
    }
    size_t last = size / 512 - 1, j = k / 126 < last ? k / 126 : last;
    unsigned number = o_block_bad(d, j, j == last);
    if (number) {
        EXPECT(v.number == number && v.place == j && v.left == 0 && v.rule == 0 && v.position == 0 && v.value == 0);
    } else if (k / 126 > last || k % 126 >= d[512 * j + 1]) {
        EXPECT(v.number == 0 && v.place == 0 && v.left == 0 && v.rule == 0 && v.position == 0 && v.value == 0);
    } else {
        const uint8_t *s = o_step_at(d, k);
        unsigned bad = o_step_bad(o_letter(d), s);
        EXPECT(bad ? v.number == bad && v.place == k && v.left == 0 && v.rule == 0
                   : v.number == 0 && v.place == 0 && v.left == 1 && v.rule == s[0] && v.position == s[1] && v.value == o_word(s + 2));
    }
}

/* What open and the reader say of bytes, and check, against the plain reading. */
static void bytes_are(const uint8_t *t, size_t len, const o_list *g, const uint8_t *d, size_t size)
{
    size_t steps;
    o_told form = o_form(d, size, &steps);
    bev_opened v = bev_open(d, size);
    EXPECT(v.number == form.number && v.place == form.place && v.steps == (form.number ? 0 : steps));
    EXPECT(v.version == (form.number ? 0 : d[0] == 86 ? 2 : 1));
    for (size_t k = 0; k < 126 * (size / 512) + 2; k += 1 + pick(40))
        step_is(d, size, k);
    step_is(d, size, SIZE_MAX);
    EXPECT(told(check(t, len, g, d, size), o_checked(t, o_table(t, len).nodes, g, d, size)) && whole());
}

/* Bytes that name their goals are accepted for no other list. */
static void named(const uint8_t *t, size_t len, size_t nodes, const o_list *g, const uint8_t *d, size_t size)
{
    o_list other = *g;
    size_t i = pick((unsigned)g->count);
    switch (pick(4)) {
    case 0:
        other.goal[i] = (uint16_t)pick(2 * (unsigned)nodes);
        break;
    case 1:
        other.count = 1 + i;
        break;
    case 2:
        if (other.count < 64)
            other.goal[other.count++] = g->goal[i];
        break;
    default:
        other.goal[i] = g->goal[0];
        other.goal[0] = g->goal[i];
    }
    int same = other.count == g->count && memcmp(other.goal, g->goal, sizeof *g->goal * g->count) == 0;
    bev_checked v = check(t, len, &other, d, size);
    EXPECT(v.number == (same ? 0 : 64) && told(v, o_checked(t, nodes, &other, d, size)));
    others += !same;
}

/* The steps that the reader hands out of bytes. */
static void read_back(const uint8_t *d, size_t size, const o_steps *right)
{
    for (size_t k = 0; k < right->count; k++) {
        bev_stepped s = bev_step(d, size, k);
        EXPECT(s.number == 0 && s.left == 1 && s.rule == right->step[k][0] && s.position == right->step[k][1] && s.value == o_word(right->step[k] + 2));
    }
    bev_stepped past = bev_step(d, size, right->count), far = bev_step(d, size, SIZE_MAX);
    EXPECT(past.number == 0 && past.left == 0 && far.number == 0 && far.left == 0);
}

/* Derive of impossible goals: each byte, the bytes past the last block, a byte too few; then the reader and check. */
static void derived(const uint8_t *t, size_t len, const o_list *g, const o_steps *right)
{
    size_t size = o_steps_build(expected, letter, (const uint8_t (*)[4])right->step, right->count);
    size_t room = size + pick(3) * 200;
    fill(expected + size, room + GUARD - size);
    fill(lent, room + GUARD);
    memcpy(lent + size, expected + size, room + GUARD - size);
    bev_derived v = derive(t, len, g, lent, room);
    EXPECT(v.number == 0 && v.place == 0 && v.steps == right->count);
    EXPECT(memcmp(lent, expected, room + GUARD) == 0 && whole());
    bytes_are(t, len, g, lent, size);
    EXPECT(check(t, len, g, lent, size).number == 0);
    named(t, len, o_table(t, len).nodes, g, lent, size);
    read_back(lent, size, right);
    fill(lent, room);
    v = derive(t, len, g, lent, size - 1);
    fill(expected, size);
    EXPECT(v.number == 31 && v.place == 0 && v.steps == 0 && memcmp(lent, expected, size) == 0);
}

/* One change to a list of steps, as often as not near its head: another letter, position, value, a step left out, twice, or two exchanged. */
static size_t changed(uint8_t (*s)[4], size_t n)
{
    static const uint8_t letters[] = { 85, 82, 69, 67, 83, 71, 0 };
    unsigned among = pick(2) || n < 4 ? (unsigned)n : 4;
    size_t k = pick(among), m = pick(among);
    uint8_t hold[4];
    switch (pick(6)) {
    case 0:
        s[k][0] = letters[pick(7)];
        break;
    case 1:
        s[k][1] = (uint8_t)pick(3);
        break;
    case 2:
        s[k][2] = (uint8_t)pick(12);
        break;
    case 3:
        memmove(s[k], s[k + 1], 4 * (n - k - 1));
        return n - 1;
    case 4:
        memmove(s[k + 1], s[k], 4 * (n - k));
        return n + 1;
    default:
        memcpy(hold, s[k], 4);
        memcpy(s[k], s[m], 4);
        memcpy(s[m], hold, 4);
    }
    return n;
}

/* The branches of a derivation that is being made: the one at work, NULL once all are closed, and those that wait. */
typedef struct { o_branch *now, *waiting[2100]; size_t depth; } o_author;

static void split(o_author *a, const uint8_t *t, int l)
{
    o_branch *right = malloc(sizeof *right);
    if (!right)
        exit(2);
    *right = *a->now;
    o_join(&right->s, t, l ^ 1);
    o_join(&a->now->s, t, l);
    a->waiting[a->depth++] = right;
}

static void close_branch(o_author *a)
{
    free(a->now);
    a->now = a->depth ? a->waiting[--a->depth] : NULL;
}

/* One step that a rule allows, on any clause or literal, taken and written; 0 where the rule does not allow it. */
static int author_step(o_author *a, const uint8_t *t, size_t nodes, int rule, uint8_t *out)
{
    int p = rule == 'R' ? (int)pick(2) : 0, k = (int)pick((unsigned)a->now->s.clauses), kind;
    if (rule == 'S') {
        k = (int)pick(2 * (unsigned)nodes);
        for (int i = 0; i < 2 * (int)nodes && o_value(&a->now->s, k); i++)
            k = (k + 1) % (2 * (int)nodes);
        kind = !o_value(&a->now->s, k);
        if (kind)
            split(a, t, k);
    } else
        kind = letter == 86 ? o_apply_two(a->now, t, rule, k) : o_apply(a->now, t, rule, p, k);
    uint8_t s[4] = { (uint8_t)rule, (uint8_t)p, (uint8_t)k, (uint8_t)(k >> 8) };
    memcpy(out, s, 4);
    if (kind == 2)
        close_branch(a);
    return kind;
}

/* A derivation by another author, who may name the goals: any step that a rule allows, E steps and splits on any literal among them,
 * until it is complete. */
static size_t another(const uint8_t *t, size_t nodes, const o_list *g, uint8_t (*out)[4], size_t room)
{
    static o_author a;
    size_t n = 0, tries = 0;
    for (int names = letter == 86 || pick(2) == 0; names && n < g->count; n++) {
        uint8_t s[4] = { 71, 0, (uint8_t)g->goal[n], (uint8_t)(g->goal[n] >> 8) };
        memcpy(out[n], s, 4);
    }
    a.depth = 0;
    a.now = o_root(g);
    while (a.now && n < room && tries < 400) {
        int rule = tries == 399 ? 'S' : (letter == 86 ? "UCUCS" : "URECS")[pick(40) ? pick(4) : 4];
        if (author_step(&a, t, nodes, rule, out[n])) {
            n++;
            tries = 0;
        } else
            tries++;
    }
    size_t complete = a.now ? 0 : n;
    while (a.now)
        close_branch(&a);
    return complete;
}

static unsigned long numbers[66];
static uint8_t other[20001][4];

/* Another author's steps in the other version: without R and E and with its goals named, or with an R for each false literal before a U
 * or C. Check accepts them as well. */
static size_t to_two(const o_list *g, size_t n, uint8_t (*out)[4])
{
    size_t m = 0;
    for (size_t i = 0; other[0][0] != 71 && i < g->count; i++) {
        uint8_t s[4] = { 71, 0, (uint8_t)g->goal[i], (uint8_t)(g->goal[i] >> 8) };
        memcpy(out[m++], s, 4);
    }
    for (size_t i = 0; i < n; i++)
        if (other[i][0] != 82 && other[i][0] != 69)
            memcpy(out[m++], other[i], 4);
    return m;
}

static size_t to_one(const uint8_t *t, const o_list *g, size_t n, uint8_t (*out)[4])
{
    static o_author a;
    size_t m = 0;
    a.depth = 0;
    a.now = o_root(g);
    for (size_t i = 0; i < n; i++) {
        int rule = other[i][0], k = (int)o_word(other[i] + 2);
        if (rule == 83)
            split(&a, t, k);
        for (int p = 0; (rule == 85 || rule == 67) && p < a.now->s.clause[k].len; p++)
            if (o_value(&a.now->s, a.now->s.clause[k].lit[p]) == 2 && o_apply(a.now, t, 82, p, k)) {
                uint8_t s[4] = { 82, (uint8_t)p, (uint8_t)k, (uint8_t)(k >> 8) };
                memcpy(out[m++], s, 4);
            }
        if ((rule == 85 || rule == 67) && o_apply(a.now, t, rule, 0, k) == 2)
            close_branch(&a);
        memcpy(out[m++], other[i], 4);
    }
    EXPECT(!a.now);
    return m;
}

static void converted(const uint8_t *t, size_t len, const o_list *g, size_t n)
{
    static uint8_t out[100000][4];
    size_t m = letter == 68 ? to_two(g, n, out) : to_one(t, g, n, out);
    letter = 68 + 86 - letter;
    size_t size = o_steps_build(expected, letter, (const uint8_t (*)[4])out, m);
    letter = 68 + 86 - letter;
    EXPECT(check(t, len, g, expected, size).number == 0);
    bytes_are(t, len, g, expected, size);
    numbers[4]++;
}

/* Impossible goals: what derive writes, and what another author does. */
static void impossible(const uint8_t *t, size_t len, size_t nodes, const o_list *g, const o_steps *right)
{
    EXPECT(right->count <= STEPS);
    derived(t, len, g, right);
    numbers[0]++;
    size_t n = another(t, nodes, g, other, 20000);
    if (n) {
        converted(t, len, g, n);
        size_t size = o_steps_build(expected, letter, (const uint8_t (*)[4])other, n);
        EXPECT(check(t, len, g, expected, size).number == 0);
        bytes_are(t, len, g, expected, size);
        numbers[2] += other[0][0] == 71;
        numbers[3] += other[0][0] != 71;
        for (size_t k = 0; k < n; k++)
            numbers[1] += other[k][0] == 69;
    }
}

static void possible(const uint8_t *t, size_t len, const o_list *g)
{
    fill(lent, 2000);
    fill(expected, 2000);
    bev_derived v = derive(t, len, g, lent, pick(2000));
    EXPECT(v.number == 30 && v.place == 0 && v.steps == 0 && memcmp(lent, expected, 2000) == 0);
    numbers[30]++;
}

/* Steps with changes, and at times a byte of a block. */
static void damaged(const uint8_t *t, size_t len, size_t nodes, const o_list *g, size_t n)
{
    memcpy(other, taken, 4 * n);
    for (unsigned more = pick(3) + 1; more && n > 1; more--)
        n = changed(other, n);
    size_t size = o_steps_build(lent, letter, (const uint8_t (*)[4])other, n), steps;
    if (pick(8) == 0) {
        uint8_t *b = lent + 512 * pick((unsigned)(size / 512));
        b[0] = (uint8_t)(68 + 86 - letter);
        o_seal(b);
    } else if (pick(4) == 0) {
        lent[pick((unsigned)size)] ^= (uint8_t)(1u << pick(8));
        if (pick(2))
            o_seal(lent + 512 * pick((unsigned)(size / 512)));
    }
    o_told v = o_form(lent, size, &steps);
    numbers[v.number ? v.number : o_run(t, nodes, g, lent, steps).number]++;
    bytes_are(t, len, g, lent, size);
}

/* What derive and check say of a list, and of damaged derivations. Whether it is possible. */
static int goals_are(const uint8_t *t, size_t len, size_t nodes, const o_list *g)
{
    static uint8_t s[1024];
    o_steps right = { taken, 0, STEPS, letter };
    int is_possible = o_decide(t, g, s, &right);
    if (is_possible) {
        possible(t, len, g);
        right.count = right.count < 40 ? right.count + 1 : 40;
    } else
        impossible(t, len, nodes, g, &right);
    for (int round = 0; round < 6; round++)
        damaged(t, len, nodes, g, right.count < 20000 ? right.count : 20000);
    return is_possible;
}

/* Each literal of random tables by itself, and lists of 1 to 64 goals, with repeats and opposite literals. */
static void random_goals(void)
{
    static uint8_t t[16384];
    unsigned long lists[2] = { 0, 0 };
    memset(numbers, 0, sizeof numbers);
    others = 0;
    for (int round = 0; round < 250 && !failed; round++) {
        unsigned points = 2 + pick(5);
        size_t n = points + 1 + pick(18), len = random_table(t, points, n);
        for (size_t k = 0; k < 2 * n + 8; k++) {
            o_list g = k < 2 * n ? o_one(k) : random_list(t, points, n);
            int is_possible = goals_are(t, len, n, &g);
            lists[is_possible] += k >= 2 * n;
        }
    }
    printf("version %d, random goals: %lu derived and checked, %lu possible, of these lists %lu and %lu; other authors: %lu with and %lu without names, %lu E steps, "
           "%lu converted; %lu other lists; refused at",
        letter == 68 ? 1 : 2, numbers[0], numbers[30], lists[0], lists[1], numbers[2], numbers[3], numbers[1], numbers[4], others);
    for (int k = 41; k < 66; k = k == 47 ? 64 : k + 1) {
        printf(" %d: %lu", k, numbers[k]);
        EXPECT(numbers[k] > 20);
    }
    printf("\n");
    EXPECT(numbers[0] > 500 && numbers[30] > 1000 && lists[0] > 500 && lists[1] > 500 && numbers[2] > 200 && numbers[4] > 400 && others > 300);
    EXPECT(letter == 86 || (numbers[1] > 1000 && numbers[3] > 200));
}

static uint8_t small[512], kept[1024];

/* TRUE and a point: literals 0 to 3. */
static size_t small_table(void)
{
    static uint8_t r[2][8];
    rec(r[0], 1, 0, 0);
    rec(r[1], 2, 5, 0);
    return o_build(small, (const uint8_t (*)[8])r, 2);
}

/* Derive and check of the same list and work area, with no room and no bytes: both say the number at the place. */
static int both_say(size_t len, const uint16_t *goals, size_t count, size_t work_len, unsigned number, size_t place)
{
    bev_derived v = bev_derive(small, len, goals, count, asked(), work, work_len, kept, 0);
    bev_checked c = bev_check(small, len, goals, count, work, work_len, kept, 0);
    return v.number == number && v.place == place && v.steps == 0 && told(c, o_no(number, place));
}

/* The order of the rows up to 23, by calls that several apply to; the work area stays. */
static void first_rows(size_t len)
{
    static const uint16_t bad[65] = { 0, 3, 1, 65535, 4, 65535 };
    for (int i = 0; i < BEV_WORK; i++)
        work[i] = (uint16_t)i;
    EXPECT(bev_derive(NULL, 0, NULL, 0, asked(), NULL, 0, NULL, 0).number == 10 && bev_check(NULL, 0, NULL, 0, NULL, 0, NULL, 0).number == 10);
    EXPECT(both_say(511, NULL, 0, 0, 10, 0));
    EXPECT(both_say(len, NULL, 0, 0, 62, 0) && both_say(len, bad, 0, BEV_WORK, 62, 0) && both_say(len, bad, 65, 0, 62, 0));
    EXPECT(both_say(len, bad, 64, 0, 20, 3) && both_say(len, bad + 3, 1, BEV_WORK, 20, 0) && both_say(len, bad + 4, 2, BEV_WORK, 20, 0));
    EXPECT(both_say(len, bad + 2, 1, BEV_WORK - 1, 23, 0) && both_say(len, bad, 3, 0, 23, 0));
    small[9] ^= 1;
    EXPECT(both_say(len, NULL, 0, 0, 11, 0) && both_say(len, bad, 6, 0, 11, 0));
    small[9] ^= 1;
    for (int round = 0; round < 2000; round++) {
        o_list any = any_list(2);
        o_told v = o_goals(&any, 2);
        EXPECT(both_say(len, any.goal, any.count, BEV_WORK - 1, v.number ? v.number : 23, v.place));
    }
    for (int i = 0; i < BEV_WORK; i++)
        if (work[i] != (uint16_t)i) {
            EXPECT(!"the work area changed before row 23 passed");
            break;
        }
}

/* The rows behind 23, and the edges of a derivation's length. */
static void refusals(void)
{
    size_t len = small_table();
    o_list yes = o_one(0), no = o_one(1), point = o_one(2), other_point = o_one(3), both = { 2, { 2, 0 } }, apart = { 3, { 2, 0, 3 } };
    fill(kept, 1024);
    first_rows(len);
    EXPECT(derive(small, len, &yes, kept, 0).number == 30 && derive(small, len, &point, NULL, 0).number == 30 && derive(small, len, &both, NULL, 0).number == 30);
    EXPECT(derive(small, len, &no, kept, 511).number == 31 && derive(small, len, &no, NULL, 0).number == 31 && derive(small, len, &apart, kept, 511).number == 31);
    for (int i = 0; i < 1024; i++)
        if (kept[i] != (uint8_t)(i * 37 + 11)) {
            EXPECT(!"the derivation bytes changed on a refusal");
            break;
        }
    EXPECT(check(small, len, &no, NULL, 0).number == 40 && bev_open(NULL, 0).number == 40 && bev_open(kept, 511).number == 40);
    EXPECT(bev_step(NULL, 0, 0).number == 40 && bev_step(kept, 511, 0).number == 40 && bev_step(kept, 512, 0).number == 41);
    EXPECT(derive(small, len, &no, kept, 1024).steps == 3 && check(small, len, &no, kept, 512).number == 0);
    EXPECT(told(check(small, len, &no, kept, 1024), o_no(42, 0)));
    EXPECT(told(check(small, len, &other_point, kept, 512), o_no(64, 0)));
    EXPECT(derive(small, len, &apart, kept, 512).steps == 6 && check(small, len, &apart, kept, 512).number == 0);
    EXPECT(told(check(small, len, &both, kept, 512), o_no(64, 2)));
    EXPECT(whole());
    printf("refusals\n");
}

/* Steps as text, such as U0 R5.0 C5. */
static size_t parse_steps(const char *p, uint8_t (*s)[4])
{
    size_t n = 0;
    for (; *p; n++) {
        int value = 0, position = 0, rule = *p++;
        while (*p >= '0' && *p <= '9')
            value = 10 * value + (*p++ - '0');
        if (*p == '.') {
            position = p[1] - '0';
            p += 2;
        }
        uint8_t step[4] = { (uint8_t)rule, (uint8_t)position, (uint8_t)value, (uint8_t)(value >> 8) };
        memcpy(s[n], step, 4);
        p += *p == ' ';
    }
    return n;
}

/* Table A and the samples of the paper, by their steps. */
static void sample(const uint8_t *t, o_list g, const char *steps, unsigned number, size_t place)
{
    static uint8_t s[64][4], d[512];
    size_t n = parse_steps(steps, s), size = o_steps_build(d, letter, (const uint8_t (*)[4])s, n);
    EXPECT(told(check(t, 512, &g, d, size), o_no(number, place)));
    if (number == 0 && s[0][0] == 'G') {
        EXPECT(derive(t, 512, &g, lent, 512).steps == n && memcmp(lent, d, 512) == 0);
    }
}

static uint8_t table_a[512];

static void make_table_a(void)
{
    static uint8_t r[10][8];
    static const unsigned a[10][3] = { { 2, 0, 0 }, { 2, 1, 0 }, { 3, 0, 2 }, { 4, 0, 2 }, { 5, 0, 2 }, { 6, 0, 2 }, { 1, 0, 0 }, { 3, 4, 7 }, { 6, 0, 3 }, { 3, 10, 16 } };
    for (int i = 0; i < 10; i++)
        rec(r[i], a[i][0], a[i][1], a[i][2]);
    o_build(table_a, (const uint8_t (*)[8])r, 10);
}

static void samples(const uint8_t *t)
{
    sample(t, o_one(13), "G13 U0 C1", 0, 0);
    sample(t, o_one(14), "G14 U0 U1 U2 U3 R5.0 C5", 0, 0);
    sample(t, o_one(18), "G18 U0 U1 U2 S1 R4.0 U4 R6.0 R6.1 C6 R3.0 U3 R5.0 R5.1 C5", 0, 0);
    sample(t, o_one(13), "U0 C1", 0, 0);
    sample(t, o_one(18), "U0 U1 U2 S1 R4.0 U4 R6.0 R6.1 C6 R3.0 U3 R5.0 R5.1 C5", 0, 0);
    sample(t, o_one(13), "C1", 45, 0);
    sample(t, o_one(13), "U0", 47, 1);
    sample(t, o_one(13), "U0 C1 C1", 46, 2);
    sample(t, o_one(6), "U0 S0 C1", 45, 2);
    sample(t, (o_list){ 2, { 10, 16 } }, "G10 G16 U0 U1 S1 R3.0 U3 R5.0 R5.1 C5 R2.0 U2 R4.0 R4.1 C4", 0, 0);
    sample(t, (o_list){ 3, { 0, 0, 1 } }, "G0 G0 G1 U0 R2.0 C2", 0, 0);
    sample(t, (o_list){ 2, { 2, 13 } }, "G2 G13 U0 U1 C2", 0, 0);
    sample(t, (o_list){ 3, { 0, 0, 1 } }, "U0 U1", 45, 1);
    sample(t, (o_list){ 3, { 0, 0, 1 } }, "U0 E1 R2.0 C2 C2", 46, 4);
    sample(t, (o_list){ 2, { 16, 10 } }, "U1 U0 S2 R3.1 U3 R5.0", 45, 5);
    printf("samples\n");
}

/* The goals that a derivation names, by number and place: a G wrong, missing, one too many, late, after the end, with a position. */
static void heads(const uint8_t *t)
{
    o_list two = { 2, { 2, 13 } };
    sample(t, two, "G13 G2 U0 U1 C2", 64, 0);
    sample(t, two, "G2 G12 U0 U1 C2", 64, 1);
    sample(t, two, "G2 G2 U0 U1 C2", 64, 1);
    sample(t, two, "G2 U0 U1 C2", 64, 1);
    sample(t, two, "G2 C9", 64, 1);
    sample(t, two, "G2", 64, 1);
    sample(t, two, "G2 G13", 47, 2);
    sample(t, two, "G2 G13 G13 U0 U1 C2", 64, 2);
    sample(t, two, "G2 G13 U0 G13 C2", 64, 3);
    sample(t, two, "G2 G13 U0 U1 C2 G2", 46, 5);
    sample(t, two, "G2 G13 C0 G2", 45, 2);
    sample(t, two, "U0 G2 U1 C2", 64, 1);
    sample(t, two, "U0 U1 C2 G2", 46, 3);
    sample(t, two, "U0 U1 G9", 64, 2);
    sample(t, two, "C0 G2", 45, 0);
    sample(t, two, "G2.1 G13 U0 U1 C2", 44, 0);
    sample(t, two, "G2 G13 U0 U1 G2.1", 44, 4);
    sample(t, o_one(13), "G13 G13 U0 C1", 64, 1);
    printf("heads\n");
}

/* Lists of one goal: without its G, a derivation's steps are those of the calls that took one goal, here as a sum over their blocks and
 * random tables. */
static void as_before(void)
{
    static uint8_t t[16384];
    uint64_t sum = 0;
    seed = 1;
    for (int round = 0; round < 60; round++) {
        size_t n = 8 + pick(18), len = pair_table(t, 2 + pick(5), n);
        for (size_t l = 0; l < 2 * n; l++) {
            o_list g = o_one(l);
            bev_derived v = derive(t, len, &g, lent, ROOM);
            size_t steps = v.number ? 0 : v.steps - 1;
            for (size_t i = 0; i < steps; i++)
                memcpy(taken[i], o_step_at(lent, i + 1), 4);
            size_t size = o_steps_build(expected, letter, (const uint8_t (*)[4])taken, steps);
            sum = 31 * (31 * sum + v.number) + steps;
            for (size_t i = 0; i < size; i++)
                sum = 31 * sum + expected[i];
        }
    }
    EXPECT(sum == 0xd72b1944e672547d);
    printf("as before\n");
}

/* Version two: the samples without R, what it refuses, and mixed letters. */
static void samples_two(const uint8_t *t)
{
    static uint8_t s[300][4], d[1536];
    o_list g13 = o_one(13), g18 = o_one(18);
    sample(t, g13, "G13 U0 C1", 0, 0);
    sample(t, o_one(14), "G14 U0 U1 U2 U3 C5", 0, 0);
    sample(t, g18, "G18 U0 U1 U2 S1 U4 C6 U3 C5", 0, 0);
    sample(t, g13, "U0 C1", 64, 0);
    sample(t, g13, "C1", 64, 0);
    sample(t, g13, "G13 R0.0 U0 C1", 65, 1);
    sample(t, g13, "G13 U0 E0 C1", 65, 2);
    sample(t, g13, "R0.0", 65, 0);
    sample(t, g13, "R0.3 E0", 44, 0);
    sample(t, g13, "R0.2 E0", 65, 0);
    sample(t, g13, "E0 R0.2", 65, 0);
    sample(t, g13, "E0.1", 44, 0);
    sample(t, g13, "U0 X0 R0.0", 44, 1);
    sample(t, g13, "G13 U0 U0 C1", 45, 2);
    sample(t, g13, "G13 U0 C0 C1", 45, 2);
    sample(t, g13, "G13 U0 C1 C1", 46, 3);
    sample(t, g18, "G18 U0 U1 U2 U3", 45, 4);
    sample(t, g18, "G18 U0 U1 U2 S1 C3", 45, 5);
    for (size_t i = 0; i < 300; i++)
        memcpy(s[i], (uint8_t[4]){ 83, 0, 0, 0 }, 4);
    size_t size = o_steps_build(d, 86, (const uint8_t (*)[4])s, 300);
    d[1024] = 68;
    o_seal(d + 1024);
    EXPECT(told(check(t, 512, &g13, d, size), o_no(42, 2)) && bev_open(d, size).number == 42 && bev_step(d, size, 299).number == 42);
    EXPECT(bev_step(d, size, 0).number == 0 && bev_step(d, size, 252).place == 2);
    d[0] = 68;
    o_seal(d);
    EXPECT(told(check(t, 512, &g13, d, size), o_no(42, 1)) && bev_step(d, size, 299).number == 0);
    printf("version two\n");
}

static uint8_t deep[16384];
static bev_derived deep_steps;
static bev_checked deep_check;

static const o_list deep_goals = { 3, { 2 * 2015, 2, 2 * 2015 } };

static void *derive_deep(void *unused)
{
    deep_steps = derive(deep, 16384, &deep_goals, lent, ROOM);
    deep_check = check(deep, 16384, &deep_goals, lent, 512 * ((deep_steps.steps + 125) / 126));
    return unused;
}

static void deepest(void)
{
    static uint8_t s[1024];
    pthread_attr_t stack;
    pthread_t thread;
    deep_table(deep);
    pthread_attr_init(&stack);
    EXPECT(pthread_attr_setstacksize(&stack, 1 << 20) == 0);
    EXPECT(pthread_create(&thread, &stack, derive_deep, NULL) == 0);
    pthread_join(thread, NULL);
    o_steps right = { taken, 0, STEPS, letter };
    EXPECT(o_decide(deep, &deep_goals, s, &right) == 0 && deep_steps.number == 0 && deep_steps.steps == right.count);
    size_t size = o_steps_build(expected, letter, (const uint8_t (*)[4])taken, right.count);
    EXPECT(memcmp(lent, expected, size) == 0 && deep_check.number == 0);
    printf("deepest: %zu steps\n", right.count);
}

/* IFF(p0, IFF(p1, .. pn)) and the chain that starts from the other end are the same; that they differ is impossible. */
static size_t chains(uint8_t *t, unsigned n, o_list *g)
{
    static uint8_t r[200][8];
    unsigned k = 0, up, down;
    for (; k < n; k++)
        rec(r[k], 2, k, 0);
    up = 0;
    for (unsigned i = 1; i < n; i++, k++) {
        rec(r[k], 6, 2 * (up < i ? up : i), 2 * (up < i ? i : up));
        up = k;
    }
    down = n - 1;
    for (unsigned i = n - 1; i-- > 0; k++) {
        rec(r[k], 6, 2 * (down < i ? down : i), 2 * (down < i ? i : down));
        down = k;
    }
    rec(r[k], 6, 2 * up, 2 * down);
    *g = o_one(2 * k + 1);
    return o_build(t, (const uint8_t (*)[8])r, k + 1);
}

static void nested(uint8_t *big)
{
    static uint8_t t[16384];
    o_list g;
    size_t len = chains(t, 9, &g);
    bev_derived v = derive(t, len, &g, big, BEV_DERIVATION_MAX);
    EXPECT(v.number == 0 && check(t, len, &g, big, 512 * ((v.steps + 125) / 126)).number == 0);
    size_t nine = v.steps;
    memset(big, 5, BEV_DERIVATION_MAX);
    len = chains(t, 17, &g);
    v = derive(t, len, &g, big, BEV_DERIVATION_MAX);
    EXPECT(v.number == 31 && v.place == 0 && v.steps == 0 && big[0] == 5 && big[BEV_DERIVATION_MAX - 1] == 5);
    printf("nested: 9 in %zu steps, 17 is 31\n", nine);
}

/* The goal TRUE negated, by splits on points alone: as many leaves as wanted, each U0 and a C. */
static size_t made;
static uint8_t *full;

static void put(int rule, unsigned value)
{
    uint8_t *b = full + 512 * (made / 126);
    uint8_t s[4] = { (uint8_t)rule, 0, (uint8_t)value, (uint8_t)(value >> 8) };
    memcpy(b + 4 + 4 * (made % 126), s, 4);
    b[1]++;
    made++;
}

static void leaves(size_t n, unsigned point, unsigned empty)
{
    if (n == 1) {
        put('U', 0);
        put('C', empty);
        return;
    }
    put('S', 2 * point);
    leaves(n / 2, point + 1, empty);
    leaves(n - n / 2, point + 1, empty);
}

/* 65,536 full blocks: 3 leaves - 1 steps and one U more, in the left branch of the first split. */
static void fullest(void)
{
    static uint8_t t[512], r[40][8];
    rec(r[0], 1, 0, 0);
    for (unsigned i = 1; i < 39; i++)
        rec(r[i], 2, i, 0);
    rec(r[39], 3, 2 * 37, 2 * 38);
    size_t len = o_build(t, (const uint8_t (*)[8])r, 40), n = 126u * 65536u / 3;
    o_list g = o_one(1);
    memset(full, 0, BEV_DERIVATION_MAX);
    put('S', 2 * 39);
    put('U', 1);
    leaves(n / 2, 1, 3);
    leaves(n - n / 2, 1, 2);
    EXPECT(made == 126 * 65536);
    for (unsigned j = 0; j < 65536; j++) {
        uint8_t *b = full + 512 * j;
        b[0] = 68;
        b[2] = (uint8_t)j;
        b[3] = (uint8_t)(j >> 8);
        o_seal(b);
    }
    EXPECT(told(check(t, len, &g, full, BEV_DERIVATION_MAX), o_no(0, 0)));
    EXPECT(bev_open(full, BEV_DERIVATION_MAX).steps == 126 * 65536);
    EXPECT(told(check(t, len, &g, full, BEV_DERIVATION_MAX + 512), o_no(40, 0)));
    EXPECT(told(check(t, len, &g, full, BEV_DERIVATION_MAX - 512), o_no(47, 126 * 65535)));
    full[BEV_DERIVATION_MAX - 4] ^= 1;
    EXPECT(told(check(t, len, &g, full, BEV_DERIVATION_MAX), o_no(41, 65535)));
    printf("fullest: %zu steps\n", made);
}

int main(void)
{
    guard();
    full = malloc(BEV_DERIVATION_MAX + 512);
    if (!full)
        return 2;
    refusals();
    make_table_a();
    samples(table_a);
    heads(table_a);
    random_goals();
    letter = 86;
    samples_two(table_a);
    random_goals();
    letter = 68;
    as_before();
    deepest();
    nested(full);
    fullest();
    free(full);
    EXPECT(whole());
    printf("%lu checks, %lu failed\n", checks, failed);
    return failed ? 1 : 0;
}
