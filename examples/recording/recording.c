/*
 * Reads a recording of a run, tallies it and walks it, by the C library: recording FOLDER FILE CODE. The folder has blocks.csv and loops.csv, without
 * headers. FILE is a VCD file, and CODE the identifier code of the vector that has the block number: the third word after its $var. The blocks of the
 * walk are printed, then a row for each loop with its stays, the greatest number of header visits in one stay and the limit in the table, then the
 * walk's cost and steps. The exit status is 0 if the walk was accepted, 1 if something was refused, 2 where there is no reply.
 */
#include "../tables.h"

#include <inttypes.h>
#include <string.h>

/* The blocks of the recording: none has more than this, so there is no 433. */
static uint16_t walk[ROLKEYDA_VCD_MOST];

/* What the tally fills. */
static uint32_t stays[ROLKEYDA_MOST_LOOPS], greatest[ROLKEYDA_MOST_LOOPS];

static size_t accepted(const char *stage, rolkeyda_reply reply)
{
    if (reply.number != 0) {
        printf("refused %s %" PRIu32 " %" PRIu32 "\n", stage, reply.number, reply.place);
        exit(1);
    }
    return (size_t)reply.value;
}

/* The line of a recording in which byte `place` stands, for a reply with such a place. */
static void show_line(size_t place, size_t length)
{
    size_t line = 1, start = 0, end = place;
    for (size_t i = 0; i < place; i++)
        if (text[i] == '\n') {
            line++;
            start = i + 1;
        }
    while (end < length && text[end] != '\n' && text[end] != '\r')
        end++;
    printf("line %zu of the recording: %.*s%s\n", line, (int)(end - start), (const char *)&text[start], place == length ? " (its end)" : "");
}

static size_t read_walk(const char *file, const char *code)
{
    size_t length = read_text(file);
    rolkeyda_reply reply = rolkeyda_vcd(
        cost, n, loops, n, first, n, second, n, figure, n,
        parent, m, header, m, limit, m, multiplier, m,
        text, length, (const uint8_t *)code, strlen(code), walk, sizeof walk / sizeof walk[0]);
    if (reply.number == 432 || reply.number == 433)
        show_line(reply.place, length);
    return accepted(reply.number == 101 || reply.number > 431 ? "recording" : "table", reply);
}

static void print_tally(size_t length)
{
    accepted("walk", rolkeyda_tally(
        cost, n, loops, n, first, n, second, n, figure, n,
        parent, m, header, m, limit, m, multiplier, m,
        walk, length, stays, m, greatest, m));
    printf("loop  stays  greatest  limit\n");
    for (size_t l = 0; l < m; l++)
        printf("%4zu %6" PRIu32 " %9" PRIu32 " %6" PRIu32 "\n", l, stays[l], greatest[l], limit[l]);
}

int main(int count, char **arguments)
{
    if (count != 4)
        stop("usage: recording", "FOLDER FILE CODE");
    read_tables(arguments[1]);
    size_t length = read_walk(arguments[2], arguments[3]);
    printf("%zu blocks:", length);
    for (size_t i = 0; i < length; i++)
        printf(" %" PRIu16, walk[i]);
    printf("\n");
    print_tally(length);
    rolkeyda_reply reply = rolkeyda_walk(
        cost, n, loops, n, first, n, second, n, figure, n,
        parent, m, header, m, limit, m, multiplier, m,
        walk, length);
    accepted("walk", reply);
    printf("walk %" PRId64 " in %" PRIu64 " steps\n", reply.value, reply.more);
    return fclose(stdout) == 0 ? 0 : 2;
}
