/*
 * Prints the limits that a recording shows, by the C library: limits FOLDER [-]. The folder has blocks.csv and loops.csv, without headers, and
 * walk.txt: the numbers of the blocks that were run, from the entry to the exit, with white space between them. With `-` the walk comes from standard
 * input. For each loop there is a row: its stays, the greatest number of header visits in one stay, the limit in the table, and the limit to put in.
 * The exit status is 0 if the walk was tallied, 1 if something was refused, 2 where there is no reply.
 */
#include "../tables.h"

#include <ctype.h>
#include <inttypes.h>
#include <string.h>

/* The walk. One block too many is read too: the library then says 301. */
static uint16_t walk[ROLKEYDA_LONGEST_WALK + 1];

/* What the tally fills. */
static uint32_t stays[ROLKEYDA_MOST_LOOPS], greatest[ROLKEYDA_MOST_LOOPS];

/* The greatest limit that a table may have. */
#define MOST_LIMIT 65535u

/* What each number means. 421 does not come up here: both columns are as long as the loop table. */
static const struct {
    uint32_t number;
    const char *text;
} meanings[] = {
    {101, "the file has more than 65,536 bytes"},
    {102, "a quote mark, a CR or a field over 64 bytes where none may stand"},
    {103, "too few or too many fields"},
    {104, "a field is no number of its column, or is empty"},
    {105, "the row number is out of turn"},
    {106, "too many rows"},
    {108, "the line end is not that of record 1"},
    {201, "too few or too many blocks or loops"},
    {202, "a parent, a header, a limit or a multiplier is out of its range"},
    {203, "a cost, a loop, a successor or a figure is out of its range"},
    {204, "the loop's header is in another loop"},
    {205, "more than 16 loops are around the loop's header"},
    {206, "an edge leads into block 0 or out of the last block"},
    {207, "an edge leads into a loop, and not to its header"},
    {301, "the walk has no block, or more than 1,048,576"},
    {302, "there is no such block"},
    {303, "the first block is not block 0"},
    {311, "a block follows the last block"},
    {312, "no edge leads from the block before to this one"},
    {314, "the walk ends before the last block"},
    {421, "a lent column has another length than the loop table"},
};

/* Gives the value of a reply that accepts; a refusal ends the program with the number, the place and what they mean. */
static size_t accepted(const char *stage, rolkeyda_reply reply)
{
    if (reply.number == 0)
        return (size_t)reply.value;
    const char *meaning = "";
    for (size_t i = 0; i < sizeof meanings / sizeof meanings[0]; i++)
        if (meanings[i].number == reply.number)
            meaning = meanings[i].text;
    printf("refused %s %" PRIu32 " %" PRIu32 ": %s\n", stage, reply.number, reply.place, meaning);
    exit(1);
}

/* Reads the walk and gives its length. A number over 65,534 is no block, and 65,535 can stand for it. */
static size_t read_walk(FILE *file)
{
    size_t length = 0;
    bool space = true;
    int byte;
    while (length <= ROLKEYDA_LONGEST_WALK && (byte = getc(file)) != EOF) {
        if (isspace(byte)) {
            space = true;
            continue;
        }
        if (!isdigit(byte))
            stop("neither a digit nor white space", "in the walk");
        if (space)
            walk[length++] = 0;
        space = false;
        uint32_t block = walk[length - 1] * UINT32_C(10) + (uint32_t)(byte - '0');
        walk[length - 1] = (uint16_t)(block < ROLKEYDA_MISSING ? block : ROLKEYDA_MISSING);
    }
    if (ferror(file))
        stop("cannot read", "the walk");
    return length;
}

static void print_row(size_t l)
{
    printf("%4zu %6" PRIu32 " %9" PRIu32 " %6" PRIu32, l, stays[l], greatest[l], limit[l]);
    if (greatest[l] > MOST_LIMIT)
        printf("    none  no limit is so high\n");
    else
        printf(" %7" PRIu32 "%s\n", greatest[l] == 0 ? 1 : greatest[l],
            stays[l] == 0 ? "  never entered" : greatest[l] > limit[l] ? "  over the limit" : "");
}

int main(int count, char **arguments)
{
    if (count != 2 && (count != 3 || strcmp(arguments[2], "-") != 0))
        stop("usage: limits", "FOLDER [-]");
    read_tables(arguments[1]);
    size_t length = read_walk(count == 3 ? stdin : open_file(in_folder(arguments[1], "walk.txt"), "rb"));
    rolkeyda_reply reply = rolkeyda_tally(
        cost, n, loops, n, first, n, second, n, figure, n,
        parent, m, header, m, limit, m, multiplier, m,
        walk, length, stays, m, greatest, m);
    size_t steps = accepted(reply.number < 300 ? "table" : "walk", reply);
    printf("%zu steps\nloop  stays  greatest  limit  put in\n", steps);
    for (size_t l = 0; l < m; l++)
        print_row(l);
    return fclose(stdout) == 0 ? 0 : 2;
}
