/* Tables and their records, read by the library and written as text: TRUE, ATOM 5, AND(0,2), OR(1,2,4). */
#include "bev.h"
#include <stdlib.h>
#include <string.h>

static const char *const kind_names[] = {
    [BEV_TRUE] = "TRUE", [BEV_ATOM] = "ATOM", [BEV_AND] = "AND", [BEV_OR] = "OR", [BEV_IMP] = "IMP", [BEV_IFF] = "IFF",
    [BEV_AND3] = "AND", [BEV_OR3] = "OR",
};

enum { KINDS = sizeof kind_names / sizeof kind_names[0] };

/* The bytes of a table file; of a longer one as many as show that it is too long. */
bool load_table(const char *path, struct bytes *into)
{
    return load(path, BEV_TABLE_MAX + 1, into);
}

/* The nodes of a table; NULL after a refusal or a message, with its status. */
struct nodes *read_nodes(const struct bytes *table, const struct names *of, int *status)
{
    bev_counted c = bev_count(table->at, table->len);
    if (c.number) {
        *status = refuse(c.number, c.place, of);
        return NULL;
    }
    struct nodes *nodes = malloc(sizeof *nodes);
    if (!nodes) {
        *status = complain_errno(of->table);
        return NULL;
    }
    nodes->count = c.nodes;
    for (size_t n = 0; n < c.nodes; n++)
        nodes->node[n] = bev_record(table->at, table->len, 2 * n);
    return nodes;
}

void print_record(const bev_node *n)
{
    fputs(kind_names[n->kind], stdout);
    if (n->kind == BEV_ATOM)
        printf(" %u", n->a);
    else if (n->kind > BEV_IFF)
        printf("(%u,%u,%u)", n->a, n->b, n->c);
    else if (n->kind != BEV_TRUE)
        printf("(%u,%u)", n->a, n->b);
}

/* The number that digits name, up to `most`; where they end, or NULL. */
static const char *parse_digits(const char *text, size_t most, size_t *number)
{
    const char *start = text;
    for (*number = 0; *text >= '0' && *text <= '9'; text++) {
        size_t digit = (size_t)(*text - '0');
        if (*number > (most - digit) / 10)
            return NULL;
        *number = 10 * *number + digit;
    }
    return text > start ? text : NULL;
}

bool parse_number(const char *text, size_t *number)
{
    const char *end = parse_digits(text, SIZE_MAX, number);
    return end && *end == '\0';
}

/* The kind that the capitals at the start of a text name, and how many these are; 0 for none. */
static uint8_t parse_kind(const char *text, size_t *len)
{
    *len = strspn(text, "ABCDEFGHIJKLMNOPQRSTUVWXYZ");
    for (uint8_t k = BEV_TRUE; k < KINDS; k++)
        if (strlen(kind_names[k]) == *len && memcmp(kind_names[k], text, *len) == 0)
            return k;
    return 0;
}

/* The fields of `(a,b)` or `(a,b,c)` and how many these are; where they end, or NULL. A space may follow a comma. */
static const char *parse_operands(const char *text, size_t field[3], int *count)
{
    text = *text == '(' ? parse_digits(text + 1, UINT16_MAX, &field[0]) : NULL;
    for (*count = 1; text && *text == ',' && *count < 3; ++*count)
        text = parse_digits(text + 1 + (text[1] == ' '), UINT16_MAX, &field[*count]);
    return text && *text == ')' && *count > 1 ? text + 1 : NULL;
}

/* The kind that a name has with three operands; 0 for none. */
static uint8_t of_three(uint8_t kind)
{
    return kind == BEV_AND ? BEV_AND3 : kind == BEV_OR ? BEV_OR3 : 0;
}

/* The 8 bytes of a node's record. */
void write_record(const bev_node *n, uint8_t record[BEV_RECORD])
{
    memset(record, 0, BEV_RECORD);
    record[0] = n->kind;
    record[2] = (uint8_t)n->a;
    record[3] = (uint8_t)(n->a >> 8);
    record[4] = (uint8_t)n->b;
    record[5] = (uint8_t)(n->b >> 8);
    record[6] = (uint8_t)n->c;
    record[7] = (uint8_t)(n->c >> 8);
}

/* The 8 bytes of a record written as text; NULL, or why it is no record. */
const char *parse_record(const char *text, uint8_t record[BEV_RECORD])
{
    size_t field[3] = { 0, 0, 0 }, len;
    int count = 0;
    uint8_t kind = parse_kind(text, &len);
    if (!kind)
        return "is no record: it starts with none of TRUE, ATOM, AND, OR, IMP, IFF";
    const char *rest = text + len;
    if (kind == BEV_ATOM)
        rest = *rest == ' ' ? parse_digits(rest + 1, UINT16_MAX, &field[0]) : NULL;
    else if (kind != BEV_TRUE)
        rest = parse_operands(rest, field, &count);
    if (count == 3)
        kind = of_three(kind);
    if (!rest || *rest || !kind)
        return "is no record: they are written TRUE, ATOM 5, AND(0,2), OR(1,2,4), with numbers up to 65,535";
    write_record(&(bev_node){ .kind = kind, .a = (uint16_t)field[0], .b = (uint16_t)field[1], .c = (uint16_t)field[2] }, record);
    return NULL;
}
