/*
 * Writes the path-counting program of the routine in a folder to standard output, as fixed MPS for a linear solver: mps FOLDER. The tables have no
 * header. The figures and multipliers count only for their ranges. The exit status is 0 if the text was written, 1 if the tables were refused, 2
 * where there is no reply.
 */
#include "../tables.h"

#include <inttypes.h>

/* The program: no text is longer than this, so there is no 411. */
static uint8_t program[ROLKEYDA_MPS_MOST];

/* Gives the value of a reply that accepts; a refusal ends the program with the line that ./check would print. */
static size_t accepted(const char *stage, rolkeyda_reply reply)
{
    if (reply.number != 0) {
        fprintf(stderr, "refused %s %" PRIu32 " %" PRIu32 "\n", stage, reply.number, reply.place);
        exit(1);
    }
    return (size_t)reply.value;
}

int main(int count, char **arguments)
{
    if (count != 2)
        stop("usage: mps", "FOLDER");
    read_tables(arguments[1]);
    size_t length = accepted("table", rolkeyda_mps(
        cost, n, loops, n, first, n, second, n, figure, n,
        parent, m, header, m, limit, m, multiplier, m,
        program, sizeof program));
    if (fwrite(program, 1, length, stdout) != length || fclose(stdout) != 0)
        stop("cannot write", "the program");
    return 0;
}
