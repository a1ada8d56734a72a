/*
 * Routine A of document 01 through the C library: reads its two tables, one with CR LF and one with LF line ends, checks them and follows a
 * walk. Then it shows two refusals: a multiplier that is too small, and a walk with one round too many.
 */
#include "rolkeyda.h"

#include <inttypes.h>
#include <stdio.h>
#include <string.h>

static const char blocks_csv[] =
    "0,2,0,1,,28\r\n"
    "1,3,1,2,3,1\r\n"
    "2,5,1,1,,-4\r\n"
    "3,1,0,,,0\r\n";

static const char loops_csv[] =
    "0,0,0,1,0\n"
    "1,0,1,4,8\n";

static const uint16_t three_rounds[] = {0, 1, 2, 1, 2, 1, 2, 1, 3};
static const uint16_t four_rounds[] = {0, 1, 2, 1, 2, 1, 2, 1, 2, 1, 3};

static uint32_t cost[ROLKEYDA_MOST_BLOCKS];
static uint16_t loops[ROLKEYDA_MOST_BLOCKS], first[ROLKEYDA_MOST_BLOCKS], second[ROLKEYDA_MOST_BLOCKS];
static int64_t figure[ROLKEYDA_MOST_BLOCKS];

static uint16_t parent[ROLKEYDA_MOST_LOOPS], header[ROLKEYDA_MOST_LOOPS];
static uint32_t limit[ROLKEYDA_MOST_LOOPS];
static uint64_t multiplier[ROLKEYDA_MOST_LOOPS];

/* The rows that were read. Only these places of the columns are handed on. */
static size_t n, m;

/* Says which rule an input breaks and where. */
static int refused(const char *stage, rolkeyda_reply reply)
{
    printf("refused %s %" PRIu32 " %" PRIu32 "\n", stage, reply.number, reply.place);
    return 1;
}

/* The line end of a text's first record. */
static const char *line_end(rolkeyda_reply reply)
{
    return reply.more == ROLKEYDA_CR_LF ? "CR LF" : reply.more == ROLKEYDA_LF ? "LF" : "no";
}

static int read_tables(void)
{
    rolkeyda_reply blocks = rolkeyda_read_blocks(
        (const uint8_t *)blocks_csv, strlen(blocks_csv), false,
        cost, ROLKEYDA_MOST_BLOCKS, loops, ROLKEYDA_MOST_BLOCKS, first, ROLKEYDA_MOST_BLOCKS,
        second, ROLKEYDA_MOST_BLOCKS, figure, ROLKEYDA_MOST_BLOCKS);
    if (blocks.number != 0)
        return refused("blocks", blocks);
    n = (size_t)blocks.value;

    rolkeyda_reply table = rolkeyda_read_loops(
        (const uint8_t *)loops_csv, strlen(loops_csv), false,
        parent, ROLKEYDA_MOST_LOOPS, header, ROLKEYDA_MOST_LOOPS,
        limit, ROLKEYDA_MOST_LOOPS, multiplier, ROLKEYDA_MOST_LOOPS);
    if (table.number != 0)
        return refused("loops", table);
    m = (size_t)table.value;
    printf("%zu blocks, %s line ends\n%zu loops, %s line ends\n", n, line_end(blocks), m, line_end(table));
    return 0;
}

static int check(void)
{
    rolkeyda_reply reply = rolkeyda_check(
        cost, n, loops, n, first, n, second, n, figure, n,
        parent, m, header, m, limit, m, multiplier, m);
    if (reply.number != 0)
        return refused("table", reply);
    printf("accepted %" PRId64 "\n", reply.value);
    return 0;
}

static int follow(const uint16_t *walk, size_t length)
{
    rolkeyda_reply reply = rolkeyda_walk(
        cost, n, loops, n, first, n, second, n, figure, n,
        parent, m, header, m, limit, m, multiplier, m,
        walk, length);
    if (reply.number != 0)
        return refused("walk", reply);
    printf("walk %" PRId64 " in %" PRIu64 " steps\n", reply.value, reply.more);
    return 0;
}

int main(void)
{
    if (read_tables() != 0 || check() != 0 || follow(three_rounds, sizeof three_rounds / sizeof three_rounds[0]) != 0)
        return 1;
    /* a round costs 8: the loop's multiplier must not be less */
    multiplier[1] = 7;
    check();
    /* the loop's header, block 1, may be visited four times: the fifth visit is at index 9 */
    follow(four_rounds, sizeof four_rounds / sizeof four_rounds[0]);
    return 0;
}
