/* Whether the plain implementation is what the library is: both asked the same, of small random tables, texts and derivations, many of them
 * damaged, and of lists and lengths that are refused. Every answer and every byte lent is compared. */
#include "asks.h"

enum { TABLES = 6000 };
static a_case now;
static unsigned long compared, refused;

static void compare(const char *what)
{
    compared++;
    refused += said[LIB].number != 0;
    if (memcmp(&said[LIB], &said[PLAIN], sizeof(answer)) == 0 && memcmp(&lent[LIB], &lent[PLAIN], sizeof lent[LIB]) == 0)
        return;
    printf("%s after %lu answers: the library says %zu at %zu, %zu, %zu; plain says %zu at %zu, %zu, %zu; or the bytes differ\n", what, compared,
        said[LIB].number, said[LIB].place, said[LIB].value, said[LIB].more, said[PLAIN].number, said[PLAIN].place, said[PLAIN].value, said[PLAIN].more);
    exit(1);
}

static void both(operation f, const char *what)
{
    f(&now, LIB);
    f(&now, PLAIN);
    compare(what);
}

/* A table of any kinds. */
static void some_table(void)
{
    unsigned points = 2 + pick(9), n = points + 1 + pick(pick(8) ? 60 : 200), tries = 0;
    for (unsigned i = 0; i < points; i++)
        atom(i);
    while (b_nodes < n && tries++ < 1000) {
        unsigned m = (unsigned)b_nodes, x = pick(m), y = pick(m), z = pick(m), kind = pick(40) ? 3 + pick(6) : 1;
        if (kind == 1)
            node(IS_TRUE, 0, 0);
        else if (kind < 7 && x != y)
            any_signs(kind, x, y);
        else if (kind > 6 && x != y && y != z && x != z)
            node3(kind, 2 * x + 1, 2 * y, 2 * z + (tries & 1));
    }
    write_list(&now, "some", 0, one(0));
}

static void some_goals(void)
{
    now.goals.count = pick(9) ? 1 + pick(4) : pick(66);
    if (now.goals.count > P_GOALS)
        now.goals.count = 0;
    for (size_t i = 0; i < now.goals.count; i++)
        now.goals.goal[i] = (uint16_t)pick(pick(30) ? 2 * (unsigned)now.nodes : 5000);
    asked.count = pick(12) ? 1 + pick(8) : pick(20);
    for (size_t i = 0; i < asked.count; i++)
        asked.goals[i] = (uint16_t)pick(pick(60) ? 2 * (unsigned)now.nodes : 5000);
    asked.wished = pick(12) ? pick(7) : pick(19);
    asked.wished = asked.wished > BEV_WISHES ? BEV_WISHES : asked.wished;
    for (size_t i = 0; i < asked.wished; i++)
        asked.wishes[i] = (uint16_t)pick(pick(60) ? 2 * (unsigned)now.nodes : 5000);
    asked.questions = pick(200);
    asked.first = pick(30);
    asked.allowance = pick(3) ? 1 + pick(20) : SIZE_MAX;
    asked.most = 200;
}

/* Some byte of a block changes; mostly its check is made anew, so that what is behind it is looked at. */
static void damage(uint8_t *bytes, size_t *len, size_t most)
{
    if (pick(12) == 0)
        *len = pick(2) ? pick((unsigned)*len + 1) : *len + 512 <= most ? *len + 512 : *len;
    if (*len < 512)
        return;
    for (unsigned k = 1 + pick(2); k > 0; k--) {
        uint8_t *b = bytes + 512 * pick((unsigned)(*len / 512));
        unsigned i = pick(6) ? 4 + pick(b[1] ? 8u * b[1] : 8u) : pick(512);
        b[i & 511] = (uint8_t)(pick(2) ? pick(10) : b[i & 511] ^ 1u << pick(8));
        if (pick(5))
            p_seal(b);
    }
}

static void asks_of_tables(void)
{
    unsigned odd = pick(6) ? 1024 : pick(1024);
    for (int side = LIB; side <= PLAIN; side++) {
        memset(lent[side].settings, (int)(compared % 3), sizeof lent[side].settings);
        lent[side].settings[odd] = 3;
    }
    both(count, "read");
    both(record, "record");
    if (now.goals.count)
        both(evaluate, "evaluate");
    both(decide, "decide");
    both(clash, "clash");
    both(overview, "overview");
    both(wishes, "wishes");
    asked.count = asked.count > BEV_QUESTIONS + 1 ? BEV_QUESTIONS + 1 : asked.count;
    both(rooms, "rooms");
    both(adds, "add");
}

/* Areas of any contents: the call comes back, whatever it says. */
static void any_areas(void)
{
    p_turned v;
    for (int side = LIB; side <= PLAIN; side++) {
        for (size_t i = 0; i < BEV_QUESTIONS * BEV_WORK; i += i % BEV_WORK < 40 ? 1 : 1 + pick(50))
            work[side][i] = (uint16_t)(pick(3) ? pick(2 * (unsigned)now.nodes + 3) : pick(65536));
        room_call(&now, side, 0, pick(2) ? 10 : 100000, &v);
    }
    memcpy(lent[LIB].settings, lent[PLAIN].settings, sizeof lent[LIB].settings);
}

/* The last step of a block goes, stays or comes again. */
static void one_step(uint8_t *b, int more)
{
    unsigned count = b[1];
    if (more < 0 && count > 1)
        memset(b + 4 * count, 0, 4);
    if (more > 0 && count < 126)
        memcpy(b + 4 + 4 * count, b + 4 * count, 4);
    b[1] = (uint8_t)(more < 0 && count > 1 ? count - 1 : more > 0 && count < 126 ? count + 1 : count);
    p_seal(b);
}

/* Derive in both versions; check of what it wrote, as it is and damaged, against these goals and others. */
static void asks_of_steps(void)
{
    static uint8_t whole[1 << 20];
    asked.letter = pick(2) ? 68 : 86;
    derive(&now, LIB);
    derive(&now, PLAIN);
    steps = said[PLAIN].value;
    compare("derive");
    if (said[LIB].number || size_of_steps() + 512 > sizeof whole)
        return;
    if (memcmp(derivation[LIB], derivation[PLAIN], size_of_steps()))
        fprintf(stderr, "the derivations differ\n"), exit(1);
    size_t len = size_of_steps();
    memcpy(whole, derivation[PLAIN], len);
    for (int k = 0; k < 12; k++) {
        size_t size = len;
        memcpy(derivation[PLAIN], whole, len);
        if (k < 3)
            one_step(derivation[PLAIN] + len - 512, k - 1);
        else
            damage(derivation[PLAIN], &size, sizeof whole);
        steps = size / 512 * 126;
        both(check, "check");
        both(opens, "open");
        both(each_step, "step");
    }
}

/* A text of few variables, with any fault. */
static void asks_of_texts(void)
{
    static const char faults[] = "0-9 c\np\t1";
    unsigned n = pick(9) ? 1 + pick(6) : pick(1030), clauses = pick(pick(9) ? 8 : 600);
    asked.dimacs_len = 0;
    if (pick(3) == 0)
        write_text("c any\nc %d\n", 1, 0);
    write_text("p cnf %d %u\n", (int)n, pick(20) ? clauses : clauses + 1);
    for (unsigned k = 0; k < clauses; k++) {
        for (unsigned size = pick(5); size > 0; size--)
            write_text(pick(5) ? "%d " : "%d\n", (1 + (int)pick(n)) * (pick(2) ? 1 : -1), 0);
        write_text(pick(5) ? "0\n" : " 0 ", 0, 0);
    }
    if (pick(3) == 0 && asked.dimacs_len)
        asked.dimacs[pick((unsigned)asked.dimacs_len)] = faults[pick(sizeof faults - 1)];
    if (pick(15) == 0)
        asked.dimacs_len = pick((unsigned)asked.dimacs_len + 1);
    asked.room = pick(8) ? 16384 : pick(1100);
    dimacs(&now, LIB);
    dimacs(&now, PLAIN);
    if (said[LIB].number - 51 < 2) /* the buffer is free */
        memcpy(lent[PLAIN].buffer, lent[LIB].buffer, sizeof lent[LIB].buffer);
    compare("dimacs");
}

int main(void)
{
    derivation[LIB] = calloc(2, ROOM);
    if (!derivation[LIB])
        return 2;
    derivation[PLAIN] = derivation[LIB] + ROOM;
    b_seed = 88172645463325252u;
    for (int k = 0; k < TABLES; k++) {
        some_table();
        if (pick(3) == 0)
            damage(now.table, &now.len, sizeof now.table);
        some_goals();
        asks_of_tables();
        if (k % 10 == 0)
            any_areas();
        asks_of_steps();
        asks_of_texts();
    }
    printf("the library and plain agree in %lu answers, %lu of them refusals\n", compared, refused);
    return 0;
}
