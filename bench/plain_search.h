/* Plain C: the search.
 *
 * Nothing is stored of clauses. What those of a held literal come to (a unit, all false, open; which clause, which literal) is one look into
 * a table, by its kind and sign and its operands' values. A literal that joins looks at the held parents of its node, through edges that lie
 * one after the other: each has the parent, the other operand and how the parent sees this one, and a table says whether a clause of the
 * parent is now a unit or all false. Positions with a unit are bits of 32 words under a summary word; a bit may be out of date and is looked
 * at again when its turn comes. The first position with an all false clause is one number. At a split no clause is a unit or all false, so
 * going back to it empties both, and nothing is noted. Only what was open as it joined can be open later: these positions are a list, and a
 * split looks on from where the last one found its clause.
 *
 * Only nodes below the goals are linked. All functions are written once for tables with and without conditions of three literals. */
#ifndef PLAIN_SEARCH_H
#define PLAIN_SEARCH_H

#include "plain_table.h"

#define P_INLINE static inline __attribute__((always_inline))

enum { P_MET, P_UNIT, P_CONFLICT, P_OPEN, P_NEVER = 4096 };

/* A set of splits. */
typedef uint64_t p_set __attribute__((vector_size(16)));

typedef struct { uint16_t held, opens, cursor, depth; } p_level;

/* A search that can be left and taken up. */
typedef struct {
    uint8_t value[4096];          /* by literal: 0 undecided, 1 true, 2 false */
    uint16_t at[2048];            /* by node: 4 x position + 2 x sign + 1; 0 not held */
    uint64_t row[P_NODES + 1];    /* by position: the operands, and in the low bits where the row's codes begin */
    uint16_t trail[P_NODES + 2];  /* by position */
    uint16_t forced[P_NODES + 2]; /* by position: the literal of its first unit clause, where it has the bit of one */
    uint16_t open[P_NODES + 2];   /* positions whose clause was open as they joined */
    uint16_t number[P_NODES + 2]; /* by position: the number of its first clause, for derive alone */
    p_level level[P_NODES];
    uint64_t unit[32], summary;
    unsigned held, opens, cursor, levels, conflict;
} p_state;

static p_state ps;
static uint64_t p_moves, p_made; /* moves and splits of the last call */
static p_set p_rests[P_NODES + 1]; /* by position; 0 rests on nothing */

/* Codes: class, which operand joins (bit 2) or its negation (4), which operands are in the clause and held false (5), which clause (8),
 * whether it has one literal (10). For tables of pairs by 16 row + a + 4 b; else by 64 row + a + 4 b + 16 c, of values. */
static uint16_t p_code[14 * 16], p_code3[18 * 64];
static uint8_t p_count[18];

/* Classes after an operand got its value, by its sign, then 16 times kind, side and sign of the edge, 4 times how the parent is held, and the
 * other's value (of three operands, the others' values). In the higher bits of a unit: whether its literal is the other's negation (4), and
 * whether it is the second of the others (8). */
static uint8_t p_edge_class[2][16 * 16], p_edge_class3[2][4 * 4 * 16];

/* Clauses of a row, as operands 2 i + sign, -1 behind the last. */
static unsigned p_template(unsigned row, int clause[3][3])
{
    unsigned kind = row / 2, no = row & 1;
    memset(clause, -1, 9 * sizeof(int));
    if (kind == 6) {
        clause[0][0] = !no, clause[0][1] = 2, clause[1][0] = no, clause[1][1] = 3;
        return 2;
    }
    if (kind < 3)
        return kind == 1 && no;
    int size = kind > 6 ? 3 : 2, joint = (kind == 3 || kind == 7) != no;
    if (kind == 5)
        joint = (int)no;
    for (int i = 0; i < size; i++)
        clause[joint ? i : 0][joint ? 0 : i] = 2 * i + (int)(kind == 5 ? (i == 0) != no : no);
    return joint ? (unsigned)size : 1;
}

/* The class of a clause under values: its literals that are undecided, the first of them, and those that are false. */
static unsigned p_classify(const int *clause, const unsigned *v, unsigned j)
{
    unsigned met = 0, undecided = 0, first = 0, gone = 0, size = 0;
    for (; size < 3 && clause[size] >= 0; size++) {
        unsigned x = (unsigned)clause[size], is = v[x / 2] && x & 1 ? 3 - v[x / 2] : v[x / 2];
        met |= is == 1;
        if (is == 0 && !undecided++)
            first = x;
        gone |= (is == 2) << x / 2;
    }
    unsigned class = met ? P_MET : !undecided ? P_CONFLICT : undecided == 1 ? P_UNIT : P_OPEN;
    return class | first / 2 << 2 | (first & 1) << 4 | gone << 5 | j << 8 | (unsigned)(size == 1) << 10;
}

/* The code of a row: of its first all false clause, else unit, else open one. */
static unsigned p_code_of(unsigned row, unsigned i)
{
    static const unsigned worth[4] = { 0, 2, 3, 1 };
    unsigned v[3] = { i & 3, i >> 2 & 3, i >> 4 }, best = 0;
    int clause[3][3];
    for (unsigned j = 0, count = p_template(row, clause); j < count; j++) {
        unsigned code = p_classify(clause[j], v, j);
        best = worth[code & 3] > worth[best & 3] ? code : best;
    }
    return best;
}

/* What an edge makes of a code; of three operands, this one is taken for the first. */
static uint8_t p_edge_code(unsigned code)
{
    unsigned class = code & 3;
    return (uint8_t)(class == P_UNIT ? P_UNIT | (code >> 4 & 1) << 2 | (unsigned)((code >> 2 & 3) == 2) << 3 : class == P_CONFLICT ? P_CONFLICT : P_MET);
}

static void p_codes(void)
{
    for (unsigned row = 2; row < 18; row++) {
        int clause[3][3];
        p_count[row] = (uint8_t)p_template(row, clause);
        for (unsigned i = 0; i < 64; i++) {
            p_code3[64 * row + i] = (uint16_t)p_code_of(row, row < 14 ? i & 15 : i);
            if (row < 14 && i < 16)
                p_code[16 * row + i] = (uint16_t)p_code_of(row, i);
        }
    }
    for (unsigned k = 0; k < 2 * 16 * 16; k++) {
        unsigned no = k >> 8, kind = 3 + (k >> 4 & 3), side = k >> 6 & 1, sign = k >> 7 & 1, held = k >> 2 & 3, other = k & 3;
        unsigned mine = 1 + (no != sign), i = side ? other + 4 * mine : mine + 4 * other;
        p_edge_class[no][k & 255] = held & 1 && other < 3 ? p_edge_code(p_code[16 * (2 * kind + held / 2) + i]) : P_MET;
    }
    for (unsigned k = 0; k < 2 * 4 * 4 * 16; k++) {
        unsigned no = k >> 8, kind = 7 + (k >> 6 & 1), sign = k >> 7 & 1, held = k >> 4 & 3, others = k & 15;
        unsigned row = 64 * (2 * kind + held / 2) + 1 + (no != sign);
        p_edge_class3[no][k & 255] = held & 1 && (others & 3) < 3 && others < 12 ? p_edge_code(p_code3[row + 4 * others]) : P_MET;
    }
}

/* The index: edges of the nodes below the goals */

static struct {
    uint16_t first[2048], end[2048], first3[2048], end3[2048];
    uint32_t edge[2 * P_NODES];  /* parent, the other operand from bit 11, kind, side and sign from bit 28 */
    uint64_t edge3[3 * P_NODES]; /* parent, the others from bits 16 and 32, kind and sign from bit 54 */
    uint16_t below[P_NODES];
    uint8_t marked[2048];
} px;

P_INLINE void p_edge(unsigned parent, unsigned kind, unsigned side, unsigned mine, unsigned other)
{
    px.edge[px.end[mine / 2]++] = parent | other << 11 | (kind - 3 + 4 * side + 8 * (mine & 1)) << 28;
}

P_INLINE void p_edge3(uint64_t parent, uint64_t kind, unsigned mine, uint64_t x, uint64_t y)
{
    px.edge3[px.end3[mine / 2]++] = parent | x << 16 | y << 32 | (kind - 7 + 2 * (mine & 1)) << 54;
}

/* Marks a node's operands and counts their edges: in the ends, until they are placed. */
P_INLINE void p_mark(uint64_t r)
{
    unsigned kind = r & 255, a = r >> 17 & 32767, b = r >> 33 & 32767;
    if (kind > 6) {
        unsigned c = (unsigned)(r >> 49);
        px.marked[a] = px.marked[b] = px.marked[c] = 1;
        px.end3[a]++, px.end3[b]++, px.end3[c]++;
    } else if (kind > 2) {
        px.marked[a] = px.marked[b] = 1;
        px.end[a]++, px.end[b]++;
    }
}

/* The edges of all that is below marked nodes. A node comes behind all its parents, so its edges are counted when it is met. */
static void p_link_marked(size_t top)
{
    size_t count = 0;
    unsigned sum = 0, sum3 = 0;
    for (size_t n = top; n-- > 0;) {
        if (!px.marked[n])
            continue;
        unsigned edges = px.end[n], edges3 = px.end3[n];
        px.below[count++] = (uint16_t)n;
        px.first[n] = px.end[n] = (uint16_t)sum;
        px.first3[n] = px.end3[n] = (uint16_t)sum3;
        sum += edges;
        sum3 += edges3;
        p_mark(p_table.node[n]);
    }
    for (size_t i = 0; i < count; i++) {
        unsigned n = px.below[i];
        uint64_t r = p_table.node[n];
        unsigned kind = r & 255, a = r >> 16 & 65535, b = r >> 32 & 65535, c = (unsigned)(r >> 48);
        if (kind > 6) {
            p_edge3(n, kind, a, b, c);
            p_edge3(n, kind, b, a, c);
            p_edge3(n, kind, c, a, b);
        } else if (kind > 2) {
            p_edge(n, kind, 0, a, b);
            p_edge(n, kind, 1, b, a);
        }
    }
}

/* Links what is below the goals of two lists, and clears the values. */
static void p_link(const uint16_t *goals, size_t count, const uint16_t *more, size_t others)
{
    size_t top = 0;
    if (!p_count[6])
        p_codes();
    memset(px.marked, 0, p_table.nodes);
    memset(px.end, 0, 2 * p_table.nodes);
    memset(px.end3, 0, 2 * p_table.nodes);
    for (size_t i = 0; i < count + others; i++) {
        size_t n = (i < count ? goals[i] : more[i - count]) / 2u;
        px.marked[n] = 1;
        top = n >= top ? n + 1 : top;
    }
    p_link_marked(top);
}

static void p_start(p_state *s)
{
    memset(s->value, 0, 2 * p_table.nodes);
    memset(s->at, 0, 2 * p_table.nodes);
    memset(s->unit, 0, sizeof s->unit);
    s->held = s->opens = s->cursor = s->levels = 0;
    s->conflict = P_NEVER;
    s->summary = 0;
}

/* Moves */

P_INLINE unsigned p_code_at(const p_state *s, uint64_t r, const int threes)
{
    unsigned a = r >> 16 & 65535, b = r >> 32 & 65535, i = (r & 65535) + s->value[a] + 4u * s->value[b];
    return threes ? p_code3[i + 16u * s->value[r >> 48]] : p_code[i];
}

P_INLINE void p_flag(p_state *s, unsigned q, unsigned class, unsigned literal)
{
    if (class & P_UNIT) {
        s->forced[q] = (uint16_t)literal;
        s->unit[q / 64] |= (uint64_t)1 << q % 64;
        s->summary |= (uint64_t)1 << q / 64;
    } else if (q < s->conflict)
        s->conflict = q;
}

/* The operand that a code chooses. */
P_INLINE unsigned p_chosen(uint64_t r, unsigned code) { return (unsigned)(r >> (16 + 16 * (code >> 2 & 3)) & 65535) ^ (code >> 4 & 1); }

P_INLINE void p_join(p_state *s, unsigned l, const int threes, const int numbered)
{
    unsigned q = ++s->held, n = l / 2, no = l & 1;
    uint64_t r = p_table.node[n];
    unsigned row = 2 * (r & 255) + no;
    s->value[l] = 1;
    s->value[l ^ 1] = 2;
    s->trail[q] = (uint16_t)l;
    s->at[n] = (uint16_t)(4 * q + 2 * no + 1);
    s->row[q] = r = (r & ~(uint64_t)65535) | (threes ? 64 * row : 16 * row);
    if (numbered)
        s->number[q + 1] = (uint16_t)(s->number[q] + p_count[row]);
    unsigned code = p_code_at(s, r, threes), class = code & 3;
    s->open[s->opens] = (uint16_t)q;
    s->opens += class == P_OPEN;
    if (class - 1 < 2)
        p_flag(s, q, class, p_chosen(r, code));
    const uint8_t *classes = p_edge_class[no];
    for (const uint32_t *e = px.edge + px.first[n], *end = px.edge + px.end[n]; e < end; e++) {
        unsigned at = s->at[*e & 2047];
        class = classes[(*e >> 28) * 16 + (at & 3) * 4 + s->value[*e >> 11 & 4095]];
        if (class)
            p_flag(s, at / 4, class, (*e >> 11 & 4095) ^ class >> 2);
    }
    if (!threes)
        return;
    classes = p_edge_class3[no];
    for (const uint64_t *e = px.edge3 + px.first3[n], *end = px.edge3 + px.end3[n]; e < end; e++) {
        unsigned at = s->at[*e & 2047];
        class = classes[(*e >> 54) * 64 + (at & 3) * 16 + s->value[*e >> 16 & 4095] + 4u * s->value[*e >> 32 & 4095]];
        if (class)
            p_flag(s, at / 4, class, (unsigned)(*e >> (class & 8 ? 32 : 16) & 4095) ^ (class >> 2 & 1));
    }
}

/* Back to so many literals. */
P_INLINE void p_back(p_state *s, unsigned held)
{
    for (unsigned q = s->held; q > held; q--) {
        unsigned l = s->trail[q];
        s->value[l] = s->value[l ^ 1] = 0;
        s->at[l / 2] = 0;
    }
    s->held = held;
    s->conflict = P_NEVER;
    for (; s->summary; s->summary &= s->summary - 1)
        s->unit[__builtin_ctzll(s->summary)] = 0;
}

/* Back to so many literals that joined with no conflict and before any split: what they come to is worked out again. */
static void p_again(p_state *s, unsigned held)
{
    p_back(s, held);
    s->opens = s->cursor = s->levels = 0;
    for (unsigned q = 1; q <= held; q++) {
        unsigned code = p_table.threes ? p_code_at(s, s->row[q], 1) : p_code_at(s, s->row[q], 0);
        s->open[s->opens] = (uint16_t)q;
        s->opens += (code & 3) == P_OPEN;
        if ((code & 3) == P_UNIT)
            p_flag(s, q, P_UNIT, p_chosen(s->row[q], code));
    }
}

/* Where steps go: counted, and written from the second search on. A block is sealed when it is full. */
typedef struct { uint64_t steps; uint8_t *out, *at, *end; int letter; } p_sink;

/* Seals the block of so many steps that ends at `at`; its index is that of the last step's block. */
static void p_seal_steps(p_sink *s, unsigned count)
{
    uint8_t *b = s->at - 4 * count - 4;
    uint64_t j = (s->steps - 1) / 126;
    b[0] = (uint8_t)s->letter;
    b[1] = (uint8_t)count;
    b[2] = (uint8_t)j;
    b[3] = (uint8_t)(j >> 8);
    memset(s->at, 0, 506 - 4 * count);
    p_seal(b);
    s->at = b + 516;
    s->end = s->at + 504;
}

P_INLINE void p_step(p_sink *s, unsigned rule, unsigned position, unsigned value)
{
    s->steps++;
    if (!s->out)
        return;
    uint32_t step = rule | position << 8 | value << 16;
    memcpy(s->at, &step, 4);
    s->at += 4;
    if (s->at == s->end)
        p_seal_steps(s, 126);
}

/* The steps of a UNIT or CONFLICT: in version one the false literals, then the clause. */
P_INLINE void p_steps(p_sink *sink, const p_state *s, unsigned rule, unsigned q, unsigned code)
{
    unsigned gone = sink->letter == 68 ? code >> 5 & 7 : 0, k = s->number[q] + (code >> 8 & 3);
    if (!sink->out) {
        sink->steps += 1 + (gone & 1) + (gone >> 1 & 1) + (gone >> 2);
        return;
    }
    for (unsigned i = 0; gone; i++, gone >>= 1)
        if (gone & 1)
            p_step(sink, 'R', code >> 10 ? 0 : i, k);
    p_step(sink, rule, 0, k);
}

/* What the clause of a code rests on: the literal that gave it, and its false literals. */
P_INLINE p_set p_why(const p_state *s, unsigned q, uint64_t r, unsigned code, const int threes)
{
    p_set why = p_rests[q];
    why |= p_rests[s->at[r >> 17 & 2047] / 4 & -(code >> 5 & 1)];
    why |= p_rests[s->at[r >> 33 & 2047] / 4 & -(code >> 6 & 1)];
    if (threes)
        why |= p_rests[s->at[r >> 49 & 2047] / 4 & -(code >> 7 & 1)];
    return why;
}

/* Leaves out the splits that a conflict does not rest on; of the one it goes back to, it takes the mark off. */
P_INLINE void p_leap(p_state *s, p_set *why)
{
    uint64_t w[2] = { (*why)[0], (*why)[1] };
    unsigned d = 128;
    while (s->levels && (d = s->level[s->levels - 1].depth) < 128 && !(w[d / 64] >> d % 64 & 1))
        s->levels--;
    if (s->levels && d < 128)
        w[d / 64] &= ~((uint64_t)1 << d % 64);
    *why = (p_set){ w[0], w[1] };
}

P_INLINE p_set p_own(unsigned depth)
{
    uint64_t bit = (uint64_t)1 << depth % 64;
    return depth < 64 ? (p_set){ bit, 0 } : depth < 128 ? (p_set){ 0, bit } : (p_set){ 0, 0 };
}

/* The search goes on for so many moves: 1 possible, 0 impossible, 2 not known yet. */
P_INLINE int p_run(p_state *s, uint64_t most, p_sink *sink, const int threes, const int jumps)
{
    const int numbered = sink != NULL;
    uint64_t moves = 0;
    unsigned depth = 0;
    int found = 2;
    while (moves < most) {
        if (s->conflict != P_NEVER) {
            unsigned q = s->conflict, code = p_code_at(s, s->row[q], threes);
            p_set why = { 0, 0 };
            moves++;
            if (numbered)
                p_steps(sink, s, 'C', q, code);
            if (jumps) {
                why = p_why(s, q, s->row[q], code, threes);
                p_leap(s, &why);
            }
            if (!s->levels) {
                found = 0;
                break;
            }
            p_level level = s->level[--s->levels];
            unsigned l = s->trail[level.held + 1];
            p_back(s, level.held);
            s->opens = level.opens;
            s->cursor = level.cursor;
            if (jumps) {
                depth = level.depth + 1u;
                p_rests[level.held + 1] = why;
            }
            p_join(s, l ^ 1, threes, numbered);
        } else if (s->summary) {
            unsigned w = (unsigned)__builtin_ctzll(s->summary), q = 64 * w + (unsigned)__builtin_ctzll(s->unit[w]);
            uint64_t rest = s->unit[w] & (s->unit[w] - 1);
            unsigned l = s->forced[q];
            s->unit[w] = rest;
            s->summary ^= (uint64_t)(rest == 0) << w;
            if (s->value[l]) /* met or all false by now */
                continue;
            moves++;
            if (numbered)
                p_steps(sink, s, 'U', q, p_code_at(s, s->row[q], threes));
            if (jumps)
                p_rests[s->held + 1] = s->levels ? p_why(s, q, s->row[q], p_code_at(s, s->row[q], threes), threes) : (p_set){ 0, 0 };
            p_join(s, l, threes, numbered);
        } else {
            unsigned i = s->cursor, code = 0;
            while (i < s->opens && ((code = p_code_at(s, s->row[s->open[i]], threes)) & 3) != P_OPEN)
                i++;
            moves++;
            if (i == s->opens) {
                found = 1;
                break;
            }
            unsigned l = p_chosen(s->row[s->open[i]], code);
            s->level[s->levels++] = (p_level){ (uint16_t)s->held, (uint16_t)s->opens, (uint16_t)i, (uint16_t)depth };
            s->cursor = i;
            if (numbered)
                p_step(sink, 'S', 0, l);
            if (jumps) {
                p_made++;
                p_rests[s->held + 1] = p_own(depth++);
            }
            p_join(s, l, threes, numbered);
        }
    }
    p_moves += moves;
    return found;
}

/* The same for a table of either sort: with jumps, with steps, or turn by turn. */
static int p_run_jumps(void) { return p_table.threes ? p_run(&ps, UINT64_MAX, NULL, 1, 1) : p_run(&ps, UINT64_MAX, NULL, 0, 1); }
static int p_run_steps(p_sink *sink) { return p_table.threes ? p_run(&ps, UINT64_MAX, sink, 1, 0) : p_run(&ps, UINT64_MAX, sink, 0, 0); }
static int p_run_turns(p_state *s, uint64_t most) { return p_table.threes ? p_run(s, most, NULL, 1, 0) : p_run(s, most, NULL, 0, 0); }

static void p_join_literal(p_state *s, unsigned l)
{
    if (p_table.threes)
        p_join(s, l, 1, 0);
    else
        p_join(s, l, 0, 0);
}

/* A goal joins by its own clause, before any other clause is looked at: whether the search goes on. */
static int p_join_goal(unsigned goal)
{
    if (ps.value[goal])
        return ps.value[goal] == 1;
    p_rests[ps.held + 1] = (p_set){ 0, 0 };
    p_moves++;
    p_join_literal(&ps, goal);
    return ps.conflict == P_NEVER;
}

#endif
