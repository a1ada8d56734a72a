/*
 * The path-counting program of a routine as fixed MPS, with nothing proved: what a C programmer would write. The tables keep 201 to 207 and 209, which
 * bench/straight.rs asks. A first pass over the edges adds up the length, so that nothing is written where the text does not fit.
 */
#include <stddef.h>
#include <stdint.h>
#include <string.h>

#define MISSING 65535u

/* `around` has the set of the loops around each loop. */
struct routine {
    const uint32_t *cost;
    const uint16_t *loops, *first, *second;
    size_t n;
    const uint64_t *around;
    const uint16_t *header;
    const uint32_t *limit;
    size_t m;
};

static uint16_t successor(const struct routine *t, size_t edge)
{
    return edge % 2 == 0 ? t->first[edge / 2] : t->second[edge / 2];
}

/* The number of the edge from u to v in the row of the loop that v heads, 0 where there is none. */
static int32_t loop_number(const struct routine *t, size_t u, uint16_t v)
{
    uint16_t l = t->loops[v];
    if (l == 0 || t->header[l] != v)
        return 0;
    return t->around[t->loops[u]] >> l & 1 ? 1 : 1 - (int32_t)t->limit[l];
}

static uint32_t size_of(int32_t number)
{
    return number < 0 ? -(uint32_t)number : (uint32_t)number;
}

/* The bytes of a line with a number of at most seven digits: 24 in front of it and the line end. There is none for 0. */
static size_t line_length(int32_t number)
{
    uint32_t k = size_of(number);
    size_t digits = 1 + (k >= 10) + (k >= 100) + (k >= 1000) + (k >= 10000) + (k >= 100000) + (k >= 1000000);
    return k == 0 ? 0 : 24 + (number < 0) + digits + 1;
}

static size_t text_length(const struct routine *t)
{
    size_t length = 91 + 10 * t->n + 8 * (t->m - 1);
    for (size_t edge = 0; edge < 2 * t->n; edge++) {
        uint16_t v = successor(t, edge);
        if (v == MISSING)
            continue;
        length += line_length(-(int32_t)t->cost[v]) + line_length(loop_number(t, edge / 2, v));
        if (v != edge / 2)
            length += line_length(1) + line_length(-1);
    }
    return length;
}

static char *put(char *at, const char *text)
{
    size_t length = strlen(text);
    memcpy(at, text, length);
    return at + length;
}

static void four_digits(char *at, unsigned k)
{
    at[0] = (char)('0' + k / 1000);
    at[1] = (char)('0' + k / 100 % 10);
    at[2] = (char)('0' + k / 10 % 10);
    at[3] = (char)('0' + k % 10);
}

static void two_digits(char *at, unsigned k)
{
    at[0] = (char)('0' + k / 10);
    at[1] = (char)('0' + k % 10);
}

static char *put_number(char *at, int32_t number)
{
    char digits[8];
    size_t start = sizeof digits;
    uint32_t k = size_of(number);
    do {
        digits[--start] = (char)('0' + k % 10);
        k /= 10;
    } while (k > 0);
    if (number < 0)
        *at++ = '-';
    for (size_t i = start; i < sizeof digits; i++)
        *at++ = digits[i];
    return at;
}

/* A line: 14 bytes up to the row's name, 10 bytes up to the number. */
static char *put_line(char *at, const char *column, const char *row, int32_t number)
{
    if (number == 0)
        return at;
    memcpy(at, column, 14);
    memcpy(at + 14, row, 10);
    at = put_number(at + 24, number);
    *at++ = '\n';
    return at;
}

static char *put_column(char *at, const struct routine *t, size_t edge, uint16_t v)
{
    char column[] = "    E0000     ", source[] = "B0000     ", target[] = "B0000     ", loop[] = "L00       ";
    size_t u = edge / 2;
    four_digits(column + 5, (unsigned)edge);
    four_digits(source + 1, (unsigned)u);
    four_digits(target + 1, v);
    two_digits(loop + 1, t->loops[v]);
    at = put_line(at, column, "COST      ", -(int32_t)t->cost[v]);
    if (u < v) {
        at = put_line(at, column, source, 1);
        at = put_line(at, column, target, -1);
    } else if (u > v) {
        at = put_line(at, column, target, -1);
        at = put_line(at, column, source, 1);
    }
    return put_line(at, column, loop, loop_number(t, u, v));
}

static char *put_rows(char *at, const struct routine *t)
{
    char block[] = " E  B0000\n", loop[] = " L  L00\n";
    at = put(at, "NAME\nROWS\n N  COST\n");
    for (size_t u = 0; u < t->n; u++) {
        four_digits(block + 5, (unsigned)u);
        at = put(at, block);
    }
    for (size_t l = 1; l < t->m; l++) {
        two_digits(loop + 5, (unsigned)l);
        at = put(at, loop);
    }
    return at;
}

/* Gives the length of the text, or -1 where the buffer has no room for it. */
int64_t mps_straight(
    const uint32_t *cost, const uint16_t *loops, const uint16_t *first, const uint16_t *second, size_t n,
    const uint64_t *around, const uint16_t *header, const uint32_t *limit, size_t m, char *text, size_t room)
{
    struct routine t = {cost, loops, first, second, n, around, header, limit, m};
    char exit[] = "    RHS       B0000     -1\nENDATA\n";
    if (text_length(&t) > room)
        return -1;
    char *at = put(put_rows(text, &t), "COLUMNS\n");
    for (size_t edge = 0; edge < 2 * n; edge++)
        if (successor(&t, edge) != MISSING)
            at = put_column(at, &t, edge, successor(&t, edge));
    at = put(at, "RHS\n    RHS       B0000     1\n");
    four_digits(exit + 15, (unsigned)(n - 1));
    return put(at, exit) - text;
}
