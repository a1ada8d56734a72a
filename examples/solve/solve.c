/*
 * Makes the figures and multipliers of the routine in a folder anew, by the C library: solve FOLDER [TO]. It prints what the checker says of the
 * tables as they are given and then the bound of the ones that are made. These go to blocks.csv and loops.csv of the folder TO, or to the screen.
 * The tables have no header. The exit status is 0 if the routine was solved, 1 if it was refused, 2 where there is no reply.
 */
#include "../tables.h"

#include <inttypes.h>

/* The line that ./check would print of a reply, after a word. Gives whether it is a refusal. */
static bool say(const char *word, const char *stage, rolkeyda_reply reply)
{
    if (reply.number == 0)
        printf("%s: accepted %" PRId64 "\n", word, reply.value);
    else
        printf("%s: refused %s %" PRIu32 " %" PRIu32 "\n", word, stage, reply.number, reply.place);
    return reply.number != 0;
}

static size_t accepted(const char *stage, rolkeyda_reply reply)
{
    if (reply.number != 0) {
        say("given", stage, reply);
        exit(1);
    }
    return (size_t)reply.value;
}

static rolkeyda_reply check(void)
{
    return rolkeyda_check(
        cost, n, loops, n, first, n, second, n, figure, n,
        parent, m, header, m, limit, m, multiplier, m);
}

/* Both columns are written, or none. */
static rolkeyda_reply solve(void)
{
    return rolkeyda_solve(
        cost, n, loops, n, first, n, second, n, figure, n,
        parent, m, header, m, limit, m, multiplier, m);
}

static void successor(FILE *to, uint16_t v)
{
    if (v != ROLKEYDA_MISSING)
        fprintf(to, "%" PRIu16, v);
    fputc(',', to);
}

static void write_blocks(FILE *to)
{
    for (size_t u = 0; u < n; u++) {
        fprintf(to, "%zu,%" PRIu32 ",%" PRIu16 ",", u, cost[u], loops[u]);
        successor(to, first[u]);
        successor(to, second[u]);
        fprintf(to, "%" PRId64 "\n", figure[u]);
    }
}

static void write_loops(FILE *to)
{
    for (size_t l = 0; l < m; l++)
        fprintf(to, "%zu,%" PRIu16 ",%" PRIu16 ",%" PRIu32 ",%" PRIu64 "\n", l, parent[l], header[l], limit[l], multiplier[l]);
}

static void finish(FILE *file)
{
    int failed = ferror(file);
    if (fclose(file) != 0 || failed)
        stop("cannot write", "the tables");
}

int main(int count, char **arguments)
{
    if (count != 2 && count != 3)
        stop("usage: solve", "FOLDER [TO]");
    read_tables(arguments[1]);
    say("given", "table", check());
    if (say("solved", "table", solve()))
        return 1;
    /* the library proves this; a program that is copied from here need not ask again */
    if (check().number != 0)
        return 2;
    FILE *blocks = count == 3 ? open_file(in_folder(arguments[2], "blocks.csv"), "wb") : stdout;
    write_blocks(blocks);
    if (count == 3)
        finish(blocks);
    FILE *table = count == 3 ? open_file(in_folder(arguments[2], "loops.csv"), "wb") : stdout;
    if (count == 2)
        fputc('\n', table);
    write_loops(table);
    finish(table);
    return 0;
}
