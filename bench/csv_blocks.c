/* A block table read by libcsv, with its numbers parsed into five columns: what a C programmer would write over that library. */
#include <csv.h>
#include <stdbool.h>
#include <stdint.h>

struct columns {
    uint32_t *cost;
    uint16_t *loops, *first, *second;
    int64_t *figure;
    size_t rows, room;
    int field;
    bool bad;
};

/* The number of the field, at most `most`; false where it is none. */
static bool number(const char *s, size_t n, uint64_t most, uint64_t *value)
{
    uint64_t v = 0;
    if (n == 0 || n > 19 || (n > 1 && s[0] == '0'))
        return false;
    for (size_t i = 0; i < n; i++) {
        unsigned d = (unsigned char)s[i] - (unsigned)'0';
        if (d > 9)
            return false;
        v = v * 10 + d;
    }
    *value = v;
    return v <= most;
}

static bool successor(const char *s, size_t n, uint16_t *to)
{
    uint64_t v = 65535;
    if (n != 0 && !number(s, n, 65534, &v))
        return false;
    *to = (uint16_t)v;
    return true;
}

static bool figure(const char *s, size_t n, int64_t *to)
{
    bool minus = n > 0 && s[0] == '-';
    uint64_t v;
    if (!number(s + minus, n - minus, INT64_MAX, &v))
        return false;
    *to = minus ? -(int64_t)v : (int64_t)v;
    return true;
}

static void on_field(void *field, size_t n, void *to)
{
    struct columns *c = to;
    const char *s = field;
    size_t k = c->rows;
    uint64_t v = 0;
    bool good = k < c->room;
    if (good)
        switch (c->field) {
        case 0: good = number(s, n, 65535, &v) && v == k; break;
        case 1: good = number(s, n, UINT32_MAX, &v); c->cost[k] = (uint32_t)v; break;
        case 2: good = number(s, n, 65535, &v); c->loops[k] = (uint16_t)v; break;
        case 3: good = successor(s, n, &c->first[k]); break;
        case 4: good = successor(s, n, &c->second[k]); break;
        case 5: good = figure(s, n, &c->figure[k]); break;
        default: good = false;
        }
    c->field++;
    c->bad |= !good;
}

static void on_record(int end, void *to)
{
    struct columns *c = to;
    (void)end;
    c->bad |= c->field != 6;
    c->field = 0;
    c->rows++;
}

/* The count of rows, or -1. */
int64_t csv_blocks(const uint8_t *text, size_t length, uint32_t *cost, uint16_t *loops, uint16_t *first, uint16_t *second, int64_t *figures, size_t room)
{
    struct columns c = {cost, loops, first, second, figures, 0, room, 0, false};
    struct csv_parser parser;
    if (csv_init(&parser, CSV_STRICT) != 0)
        return -1;
    bool parsed = csv_parse(&parser, text, length, on_field, on_record, &c) == length;
    parsed = csv_fini(&parser, on_field, on_record, &c) == 0 && parsed;
    csv_free(&parser);
    return parsed && !c.bad ? (int64_t)c.rows : -1;
}
