/*
 * Prints the shortest and the longest time of the routine in a folder, by the C library: shortest FOLDER. The folder has two pairs of tables of one form,
 * without headers. blocks.csv and loops.csv are for the longest time. low-blocks.csv and low-loops.csv are for the shortest: the same blocks, edges and
 * loops, with the time that a block takes at least in the cost column, the least number of header visits in one stay in the limit column, and the figures
 * and multipliers of the second certificate. These names and this use of the columns are the example's own: the library takes the second certificate as
 * columns in memory. The exit status is 0 if both times are accepted, 1 if something is refused, 2 where there is no reply.
 */
#include "../tables.h"

#include <inttypes.h>
#include <string.h>

/* The tables for the shortest time. Their figures, limits and multipliers are the second certificate. */
static uint32_t low_cost[ROLKEYDA_MOST_BLOCKS];
static uint16_t low_loops[ROLKEYDA_MOST_BLOCKS], low_first[ROLKEYDA_MOST_BLOCKS], low_second[ROLKEYDA_MOST_BLOCKS];
static int64_t low_figure[ROLKEYDA_MOST_BLOCKS];

static uint16_t low_parent[ROLKEYDA_MOST_LOOPS], low_header[ROLKEYDA_MOST_LOOPS];
static uint32_t least[ROLKEYDA_MOST_LOOPS];
static uint64_t low_multiplier[ROLKEYDA_MOST_LOOPS];

static size_t low_n, low_m;

/* The line that ./check would print of a reply, after a word. Gives whether it is a refusal. */
static bool say(const char *word, const char *stage, rolkeyda_reply reply)
{
    if (reply.number == 0)
        printf("%s: accepted %" PRId64 "\n", word, reply.value);
    else
        printf("%s: refused %s %" PRIu32 " %" PRIu32 "\n", word, stage, reply.number, reply.place);
    return reply.number != 0;
}

/* Gives the value of a reply that accepts; a refused text ends the program. */
static size_t accepted(const char *stage, rolkeyda_reply reply)
{
    if (reply.number != 0) {
        say(strncmp(stage, "low-", 4) == 0 ? "shortest" : "longest", stage, reply);
        exit(1);
    }
    return (size_t)reply.value;
}

static void read_low_tables(const char *folder)
{
    size_t length = read_text(in_folder(folder, "low-blocks.csv"));
    low_n = accepted("low-blocks", rolkeyda_read_blocks(
        text, length, false,
        low_cost, ROLKEYDA_MOST_BLOCKS, low_loops, ROLKEYDA_MOST_BLOCKS, low_first, ROLKEYDA_MOST_BLOCKS,
        low_second, ROLKEYDA_MOST_BLOCKS, low_figure, ROLKEYDA_MOST_BLOCKS));
    length = read_text(in_folder(folder, "low-loops.csv"));
    low_m = accepted("low-loops", rolkeyda_read_loops(
        text, length, false,
        low_parent, ROLKEYDA_MOST_LOOPS, low_header, ROLKEYDA_MOST_LOOPS,
        least, ROLKEYDA_MOST_LOOPS, low_multiplier, ROLKEYDA_MOST_LOOPS));
}

/* Whether both pairs of tables have the same blocks, edges and loops. Pairs of other sizes are left to the library, which says 201. */
static bool same_graph(void)
{
    return n != low_n || m != low_m
        || (memcmp(loops, low_loops, n * sizeof *loops) == 0 && memcmp(first, low_first, n * sizeof *first) == 0
            && memcmp(second, low_second, n * sizeof *second) == 0 && memcmp(parent, low_parent, m * sizeof *parent) == 0
            && memcmp(header, low_header, m * sizeof *header) == 0);
}

/* The tables' own figures, limits and multipliers are handed on with the second certificate; they count only for their ranges. */
static rolkeyda_reply shortest(void)
{
    return rolkeyda_shortest(
        low_cost, low_n, loops, n, first, n, second, n, figure, n,
        parent, m, header, m, limit, m, multiplier, m,
        low_figure, low_n, low_multiplier, low_m, least, low_m);
}

static rolkeyda_reply longest(void)
{
    return rolkeyda_check(
        cost, n, loops, n, first, n, second, n, figure, n,
        parent, m, header, m, limit, m, multiplier, m);
}

int main(int count, char **arguments)
{
    if (count != 2)
        stop("usage: shortest", "FOLDER");
    read_tables(arguments[1]);
    read_low_tables(arguments[1]);
    if (!same_graph())
        stop("the two pairs of tables differ in their blocks, edges or loops:", arguments[1]);
    bool refused = say("shortest", "table", shortest());
    refused |= say("longest", "table", longest());
    if (fclose(stdout) != 0)
        stop("cannot write", "the times");
    return refused ? 1 : 0;
}
