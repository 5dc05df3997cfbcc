/* DIMACS texts before the library reads them: mending what other schools' files have, and naming what a refused text has wrong. */
#include "bev.h"
#include <stdlib.h>
#include <string.h>

/* ---- mending ---- */

/* A text as it is written anew. */
struct writing {
    uint8_t *at;
    size_t len;
};

static void put(struct writing *w, uint8_t byte)
{
    w->at[w->len++] = byte;
}

static bool is_blank(uint8_t byte)
{
    return byte == ' ' || byte == '\t';
}

/* Line ends as one line feed each. */
static size_t mend_returns(const uint8_t *text, size_t len, uint8_t *into, struct mended *m)
{
    size_t n = 0;
    for (size_t i = 0; i < len; i++) {
        m->returns += text[i] == '\r';
        if (text[i] == '\r' && i + 1 < len && text[i + 1] == '\n')
            continue;
        into[n++] = text[i] == '\r' ? '\n' : text[i];
    }
    return n;
}

static size_t blanks_before(const uint8_t *line, size_t len)
{
    size_t n = 0;
    while (n < len && is_blank(line[n]))
        n++;
    return n;
}

static size_t without_blanks_behind(const uint8_t *line, size_t len)
{
    while (len > 0 && is_blank(line[len - 1]))
        len--;
    return len;
}

/* The heading with single spaces. */
static void mend_heading(const uint8_t *line, size_t len, struct writing *w, struct mended *m)
{
    size_t start = blanks_before(line, len), end = without_blanks_behind(line, len);
    m->spaces += start + (len - end);
    for (size_t i = start; i < end; i++) {
        if (!is_blank(line[i])) {
            put(w, line[i]);
            continue;
        }
        bool first = !is_blank(line[i - 1]);
        m->tabs += line[i] == '\t';
        m->spaces += !first;
        if (first)
            put(w, ' ');
    }
}

/* A line before the heading, or the heading; whether it was the heading. */
static bool mend_head_line(const uint8_t *line, size_t len, struct writing *w, struct mended *m)
{
    size_t start = blanks_before(line, len);
    if (start == len) {
        m->blanks++;
        put(w, 'c');
        return false;
    }
    if (line[start] != 'c') {
        mend_heading(line, len, w, m);
        return true;
    }
    m->spaces += start;
    for (size_t i = start; i < len; i++)
        put(w, line[i]);
    return false;
}

/* A line behind the heading; whether the text goes on. A comment leaves an empty line, so that lines keep their numbers. */
static bool mend_body_line(const uint8_t *line, size_t len, struct writing *w, struct mended *m)
{
    size_t start = blanks_before(line, len), end = without_blanks_behind(line, len);
    if (start < len && line[start] == 'c') {
        m->comments++;
        return true;
    }
    if (end == start + 1 && line[start] == '%') {
        m->ends++;
        return false;
    }
    for (size_t i = 0; i < len; i++) {
        m->tabs += line[i] == '\t';
        put(w, line[i] == '\t' ? ' ' : line[i]);
    }
    return true;
}

/* A text with line by line what the reader would turn away mended, in memory of its own; NULL where there is none. */
uint8_t *clean_cnf(const uint8_t *text, size_t len, size_t *cleaned, struct mended *m)
{
    uint8_t *lines = malloc(len + 1);
    struct writing w = { malloc(2 * len + 1), 0 };
    *m = (struct mended){ 0 };
    if (!lines || !w.at) {
        free(lines);
        free(w.at);
        return NULL;
    }
    bool in_body = false, goes_on = true;
    len = mend_returns(text, len, lines, m);
    for (size_t i = 0; i < len && goes_on; i++) {
        const uint8_t *end = memchr(lines + i, '\n', len - i);
        size_t width = (end ? (size_t)(end - lines) : len) - i;
        if (in_body)
            goes_on = mend_body_line(lines + i, width, &w, m);
        else
            in_body = mend_head_line(lines + i, width, &w, m);
        if (end && goes_on)
            put(&w, '\n');
        i += width;
    }
    free(lines);
    *cleaned = w.len;
    return w.at;
}

/* ---- what is wrong ---- */

enum { DIGITS_MAX = 9 };

/* A place in a text, with its line from 1, and what the heading said. */
struct scan {
    const uint8_t *at, *end;
    size_t line;
    size_t variables, clauses;
};

static struct fault fault(const struct scan *s, const char *cause)
{
    struct fault f = { .line = s->line };
    snprintf(f.cause, sizeof f.cause, "%s", cause);
    return f;
}

static struct fault fault_number(const struct scan *s, const char *before, size_t number, const char *behind)
{
    struct fault f = { .line = s->line };
    snprintf(f.cause, sizeof f.cause, "%s%zu%s", before, number, behind);
    return f;
}

/* A byte that may not stand where it does. */
static struct fault fault_byte(const struct scan *s, const char *where)
{
    struct fault f = { .line = s->line };
    uint8_t b = s->at < s->end ? *s->at : 0;
    const char *name = s->at == s->end ? "the end of the text" : b == '\r' ? "a carriage return" : b == '\t' ? "a tab" :
                       b == '\n' ? "a line feed" : b == ' ' ? "a space" : NULL;
    if (name)
        snprintf(f.cause, sizeof f.cause, "%s %s", name, where);
    else if (b > ' ' && b < 127)
        snprintf(f.cause, sizeof f.cause, "the character %c %s", b, where);
    else
        snprintf(f.cause, sizeof f.cause, "the byte %u %s", b, where);
    return f;
}

static bool no_fault(const struct fault *f)
{
    return f->line == 0;
}

/* The number at the place, and how many digits it has. */
static size_t scan_digits(struct scan *s, size_t *number)
{
    const uint8_t *start = s->at;
    for (*number = 0; s->at < s->end && *s->at >= '0' && *s->at <= '9'; s->at++)
        if (s->at - start < DIGITS_MAX)
            *number = 10 * *number + (size_t)(*s->at - '0');
    return (size_t)(s->at - start);
}

static void skip_comments(struct scan *s)
{
    while (s->at < s->end && *s->at == 'c') {
        const uint8_t *end = memchr(s->at, '\n', (size_t)(s->end - s->at));
        s->line += end != NULL;
        s->at = end ? end + 1 : s->end;
    }
}

/* One number of the heading, and the byte that must follow it. */
static struct fault scan_heading_number(struct scan *s, size_t *number, uint8_t next, const char *where)
{
    size_t digits = scan_digits(s, number);
    if (digits == 0)
        return fault_byte(s, "where the heading p cnf V C needs a number");
    if (digits > DIGITS_MAX)
        return fault_number(s, "a number of ", digits, " digits in the heading; 9 are the most");
    if (s->at == s->end || *s->at != next)
        return fault_byte(s, where);
    s->at++;
    return (struct fault){ .line = 0 };
}

static struct fault scan_heading(struct scan *s)
{
    static const char opening[] = "p cnf ";
    skip_comments(s);
    if (s->at == s->end)
        return fault(s, "the text ends before the heading p cnf V C");
    for (const char *c = opening; *c; c++, s->at++)
        if (s->at == s->end || *s->at != (uint8_t)*c)
            return fault_byte(s, "where the heading p cnf V C is due, with single spaces");
    struct fault f = scan_heading_number(s, &s->variables, ' ', "behind V in the heading, where one space is due");
    if (no_fault(&f))
        f = scan_heading_number(s, &s->clauses, '\n', "behind C in the heading, where a line feed is due");
    if (no_fault(&f) && s->variables > BEV_POINTS)
        f = fault_number(s, "V is ", s->variables, "; 1,024 are the most");
    s->line += no_fault(&f);
    return f;
}

static void skip_separators(struct scan *s)
{
    for (; s->at < s->end && (*s->at == ' ' || *s->at == '\n'); s->at++)
        s->line += *s->at == '\n';
}

/* One number of the body; `ends` is set where it is the 0 that ends a clause. */
static struct fault scan_literal(struct scan *s, bool *ends)
{
    size_t variable;
    bool negative = *s->at == '-';
    if (*s->at == 'c')
        return fault(s, "a comment behind the heading");
    s->at += negative;
    size_t digits = scan_digits(s, &variable);
    *ends = variable == 0;
    if (digits == 0)
        return fault_byte(s, "where a number is due");
    if (digits > DIGITS_MAX)
        return fault_number(s, "a number of ", digits, " digits; 9 are the most");
    if (s->at < s->end && *s->at != ' ' && *s->at != '\n')
        return fault_byte(s, "behind a number");
    if (negative && *ends)
        return fault(s, "-0");
    if (variable > s->variables)
        return fault_number(s, "variable ", variable, " is over V");
    return (struct fault){ .line = 0 };
}

static struct fault scan_body(struct scan *s)
{
    size_t clauses = 0;
    bool ended = true;
    for (skip_separators(s); s->at < s->end; skip_separators(s)) {
        if (clauses == s->clauses)
            return fault_byte(s, "behind the last of the heading's C clauses");
        struct fault f = scan_literal(s, &ended);
        if (!no_fault(&f))
            return f;
        clauses += ended;
    }
    if (!ended)
        return fault(s, "the last clause does not end in 0");
    if (clauses < s->clauses)
        return fault_number(s, "the text ends after ", clauses, " clauses, fewer than the heading's C");
    return (struct fault){ .line = 0 };
}

struct fault find_fault(const uint8_t *text, size_t len)
{
    struct scan s = { .at = text, .end = text + len, .line = 1 };
    struct fault f = scan_heading(&s);
    return no_fault(&f) ? scan_body(&s) : f;
}
