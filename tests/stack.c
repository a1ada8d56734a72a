/*
 * The stack of every function of the C library. Each call is measured on a painted stack: the deepest byte that it changed. Then it runs
 * again on a stack of the size that rolkeyda.h states, with a guard page below: going over ends in a fault. The stacks are mapped here and
 * entered by swapcontext, so that nothing but the call stands on them.
 *
 * The first call in a process may take more than the next: there the dynamic linker binds memcpy and memset, on the caller's stack. So every
 * call runs in a process of its own, and nothing here calls these two before. The last line is 'N passed, M failed'.
 */
#define _GNU_SOURCE
#include "rolkeyda.h"

#include <inttypes.h>
#include <stdio.h>
#include <stdlib.h>
#include <string.h>
#include <sys/mman.h>
#include <sys/wait.h>
#include <ucontext.h>
#include <unistd.h>

#define BLOCKS ROLKEYDA_MOST_BLOCKS
#define LOOPS ROLKEYDA_MOST_LOOPS
#define BYTES ROLKEYDA_MOST_TEXT_BYTES
#define FIELD ROLKEYDA_MOST_FIELD_BYTES
#define LENGTH ROLKEYDA_LONGEST_WALK

/* The most that a reader of tables and the reader of recordings may take, and the least headroom: a frame may reserve more than these inputs use. */
#define MOST_READER 40960u
#define MOST_VCD 49152u
#define HEADROOM 512u
/* The stack of a measurement, its paint, and the guard below every stack. */
#define LARGE (1u << 20)
#define PAINT 0xa5
#define GUARD 65536u

_Static_assert(ROLKEYDA_STACK_READ_BLOCKS <= MOST_READER, "a reader takes at most 40 KiB");
_Static_assert(ROLKEYDA_STACK_READ_LOOPS <= MOST_READER, "a reader takes at most 40 KiB");
_Static_assert(ROLKEYDA_STACK_VCD <= MOST_VCD, "the reader of recordings takes at most 48 KiB");

/* The line ends of texts, each with what a reader says where record 1 ends in it; and the one that is in use. */
static const struct line_end {
    const char *text;
    size_t length;
    uint64_t more;
} line_ends[] = {{"\r\n", 2, 0}, {"\n", 1, 1}};
static const struct line_end *line_end = line_ends;

/* The input, one place more than is allowed in each part, and the reply. */
static char text[BYTES + 1];
static size_t text_length;
static bool header_row;
static uint32_t cost[BLOCKS + 1], limit[LOOPS + 1];
static uint16_t loops[BLOCKS + 1], first[BLOCKS + 1], second[BLOCKS + 1], parent[LOOPS + 1], header[LOOPS + 1];
static int64_t figure[BLOCKS + 1];
static uint64_t multiplier[LOOPS + 1];
static size_t n, m;
/* The second certificate: these figures, the multipliers of the tables, and the least visits, of which the last ones may be left out. */
static const int64_t *low_figure = figure;
static uint32_t least[LOOPS + 1];
static size_t least_missing;
static uint16_t list[LENGTH + 1];
static size_t list_length;
static uint32_t stays[LOOPS + 1], greatest[LOOPS + 1];
static size_t stays_length, greatest_length;
static uint8_t program[ROLKEYDA_MPS_MOST];
static size_t program_length;
static uint8_t code[BYTES];
static size_t code_length;
static uint16_t changed[ROLKEYDA_VCD_MOST];
static size_t changed_length;
static rolkeyda_reply reply;

static void read_blocks(void)
{
    reply = rolkeyda_read_blocks((const uint8_t *)text, text_length, header_row, cost, n, loops, n, first, n, second, n, figure, n);
}

static void read_loops(void)
{
    reply = rolkeyda_read_loops((const uint8_t *)text, text_length, header_row, parent, m, header, m, limit, m, multiplier, m);
}

static void check(void)
{
    reply = rolkeyda_check(cost, n, loops, n, first, n, second, n, figure, n, parent, m, header, m, limit, m, multiplier, m);
}

static void shortest(void)
{
    reply = rolkeyda_shortest(cost, n, loops, n, first, n, second, n, figure, n, parent, m, header, m, limit, m, multiplier, m,
        low_figure, n, multiplier, m, least, m - least_missing);
}

static void walk(void)
{
    reply = rolkeyda_walk(cost, n, loops, n, first, n, second, n, figure, n, parent, m, header, m, limit, m, multiplier, m, list, list_length);
}

static void solve(void)
{
    reply = rolkeyda_solve(cost, n, loops, n, first, n, second, n, figure, n, parent, m, header, m, limit, m, multiplier, m);
}

static void mps(void)
{
    reply = rolkeyda_mps(
        cost, n, loops, n, first, n, second, n, figure, n, parent, m, header, m, limit, m, multiplier, m, program, program_length);
}

static void tally(void)
{
    reply = rolkeyda_tally(cost, n, loops, n, first, n, second, n, figure, n, parent, m, header, m, limit, m, multiplier, m, list, list_length,
        stays, stays_length, greatest, greatest_length);
}

static void vcd(void)
{
    reply = rolkeyda_vcd(cost, n, loops, n, first, n, second, n, figure, n, parent, m, header, m, limit, m, multiplier, m,
        (const uint8_t *)text, text_length, code, code_length, changed, changed_length);
}

struct function {
    const char *name;
    void (*call)(void);
    size_t stated;
    size_t first;
    size_t again;
};

static struct function functions[] = {
    {"rolkeyda_read_blocks", read_blocks, ROLKEYDA_STACK_READ_BLOCKS, 0, 0},
    {"rolkeyda_read_loops", read_loops, ROLKEYDA_STACK_READ_LOOPS, 0, 0},
    {"rolkeyda_check", check, ROLKEYDA_STACK_CHECK, 0, 0},
    {"rolkeyda_shortest", shortest, ROLKEYDA_STACK_SHORTEST, 0, 0},
    {"rolkeyda_walk", walk, ROLKEYDA_STACK_WALK, 0, 0},
    {"rolkeyda_solve", solve, ROLKEYDA_STACK_SOLVE, 0, 0},
    {"rolkeyda_mps", mps, ROLKEYDA_STACK_MPS, 0, 0},
    {"rolkeyda_tally", tally, ROLKEYDA_STACK_TALLY, 0, 0},
    {"rolkeyda_vcd", vcd, ROLKEYDA_STACK_VCD, 0, 0},
};
enum { READ_BLOCKS, READ_LOOPS, CHECK, SHORTEST, WALK, SOLVE, MPS, TALLY, VCD };

/* What a process of a call hands back: the reply, and the stack of a first call and of the next. */
static struct outcome {
    rolkeyda_reply reply;
    size_t first, again;
} *outcome;

static unsigned passed, failed;

static void stop(const char *what)
{
    perror(what);
    printf("%u passed, %u failed\n", passed, failed + 1);
    exit(1);
}

/* A stack of `size` bytes, right above its guard. */
static unsigned char *make_stack(size_t size)
{
    unsigned char *low = mmap(NULL, GUARD + size, PROT_READ | PROT_WRITE, MAP_PRIVATE | MAP_ANONYMOUS, -1, 0);
    if (low == MAP_FAILED || mprotect(low, GUARD, PROT_NONE) != 0)
        stop("a stack");
    return low + GUARD;
}

/* Calls a function on the stack of `size` bytes at `stack`. */
static void call_on(unsigned char *stack, size_t size, void (*call)(void))
{
    static ucontext_t here, there;
    if (getcontext(&there) != 0)
        stop("getcontext");
    there.uc_stack.ss_sp = stack;
    there.uc_stack.ss_size = size;
    there.uc_link = &here;
    makecontext(&there, call, 0);
    if (swapcontext(&here, &there) != 0)
        stop("swapcontext");
}

static void paint(void *memory, size_t size)
{
    for (size_t i = 0; i < size; i++)
        ((unsigned char *)memory)[i] = PAINT;
}

/* The bytes of stack that a call uses. */
static size_t used_by(void (*call)(void))
{
    static unsigned char *stack;
    if (stack == NULL)
        stack = make_stack(LARGE);
    paint(stack, LARGE);
    call_on(stack, LARGE, call);
    size_t untouched = 0;
    while (untouched < LARGE && stack[untouched] == PAINT)
        untouched++;
    return LARGE - untouched;
}

static void measure(const struct function *function)
{
    outcome->first = used_by(function->call);
    outcome->again = used_by(function->call);
}

static void run_on_stated(const struct function *function)
{
    call_on(make_stack(function->stated), function->stated, function->call);
}

/* Whether a function, run by `how` in a process of its own, ends and gives the wanted reply. */
static bool replies(void (*how)(const struct function *), const struct function *function, rolkeyda_reply wanted)
{
    paint(outcome, sizeof *outcome);
    paint(&reply, sizeof reply);
    fflush(stdout);
    pid_t child = fork();
    if (child < 0)
        stop("fork");
    if (child == 0) {
        how(function);
        outcome->reply = reply;
        _exit(0);
    }
    int status;
    if (waitpid(child, &status, 0) != child)
        stop("waitpid");
    rolkeyda_reply got = outcome->reply;
    return WIFEXITED(status) && WEXITSTATUS(status) == 0 && got.number == wanted.number && got.place == wanted.place
        && got.value == wanted.value && got.more == wanted.more;
}

/* Tries the input with a function: its reply, the measured stack and a run on the stated one. */
static void try(int which, const char *name, rolkeyda_reply wanted)
{
    struct function *function = &functions[which];
    if (!replies(measure, function, wanted)) {
        failed++;
        printf("FAILED %s, %s: the reply is %" PRIu32 " %" PRIu32 " %" PRId64 " %" PRIu64 "\n", function->name, name,
            outcome->reply.number, outcome->reply.place, outcome->reply.value, outcome->reply.more);
        return;
    }
    size_t first = outcome->first, again = outcome->again;
    if (first > function->first)
        function->first = first;
    if (again > function->again)
        function->again = again;
    if (first + HEADROOM > function->stated || again + HEADROOM > function->stated) {
        failed++;
        printf("FAILED %s, %s: %zu bytes of stack (%zu at the first call) and %u of headroom, where %zu are stated\n", function->name, name,
            again, first, HEADROOM, function->stated);
    } else if (!replies(run_on_stated, function, wanted)) {
        failed++;
        printf("FAILED %s, %s: a fault or another reply on a stack of %zu bytes\n", function->name, name, function->stated);
    } else {
        passed++;
    }
}

static void accepted(int which, const char *name, int64_t value, uint64_t more)
{
    try(which, name, (rolkeyda_reply){0, 0, value, more});
}

static void refused(int which, const char *name, uint32_t number, uint32_t place)
{
    try(which, name, (rolkeyda_reply){number, place, 0, 0});
}

/* Starts an empty text. */
static void start(bool with_header_row)
{
    header_row = with_header_row;
    text_length = 0;
    n = BLOCKS;
    m = LOOPS;
}

static void add(const char *part)
{
    for (size_t i = 0; part[i] != '\0' && text_length < sizeof text; i++)
        text[text_length++] = part[i];
}

static void add_bytes(char byte, size_t count)
{
    for (size_t i = 0; i < count; i++)
        text[text_length++] = byte;
}

static void fill(char byte, size_t length)
{
    text_length = 0;
    add_bytes(byte, length);
}

/* `count` rows, numbered from 0, each with the same fields after its number. */
static void rows(unsigned count, const char *rest)
{
    char row[256];
    for (unsigned i = 0; i < count; i++) {
        snprintf(row, sizeof row, "%u,%s%s", i, rest, line_end->text);
        add(row);
    }
}

/* A record of quoted fields, each as long as a field may be with its two quote marks. Inside, one byte is repeated. */
static void quoted_record(int fields, char byte)
{
    for (int i = 0; i < fields; i++) {
        add(i == 0 ? "\"" : ",\"");
        add_bytes(byte, FIELD - 2);
        add("\"");
    }
    add(line_end->text);
}

/* Puts the other line end in place of the last one. */
static void end_otherwise(void)
{
    text_length -= line_end->length;
    add(line_ends[line_end == line_ends ? 1 : 0].text);
}

/* `count` of the widest rows, below a header of that many bytes that the text has its greatest length. */
static void longest_text(unsigned count, int fields, const char *wide)
{
    start(true);
    rows(count, wide);
    size_t left = BYTES - text_length - (size_t)(fields - 1) - line_end->length;
    text_length = 0;
    for (int i = 0; i < fields; i++) {
        size_t part = left < FIELD ? left : FIELD;
        left -= part;
        add_bytes('h', part);
        add(i + 1 < fields ? "," : line_end->text);
    }
    rows(count, wide);
}

/* The accepted texts of a table: its longest fields, all its rows, one row. The first one once more, with another line end in its last row. */
static void accepted_texts(int which, unsigned most, int fields, const char *plain, const char *quoted)
{
    start(true);
    quoted_record(fields, '"');
    rows(most, quoted);
    accepted(which, "all rows quoted, below a header of quote marks", most, line_end->more);
    end_otherwise();
    refused(which, "all rows quoted, another line end in the last", 108, most + 1);
    start(true);
    quoted_record(fields, 'x');
    rows(most, plain);
    accepted(which, "all rows, below a header of 64 bytes in each field", most, line_end->more);
    start(false);
    rows(1, plain);
    accepted(which, "one row", 1, line_end->more);
    text_length -= line_end->length;
    accepted(which, "one row that ends with the text", 1, 2);
}

/* A text of one byte, and the same with a quote mark in front. */
static void uniform_texts(int which)
{
    start(false);
    fill('0', BYTES + 1);
    refused(which, "a text of 65,537 bytes", 101, 0);
    fill('"', BYTES);
    refused(which, "65,536 quote marks", 102, 1);
    fill('\n', BYTES);
    refused(which, "65,536 line feeds", 103, 1);
    fill('\r', BYTES);
    refused(which, "65,536 carriage returns", 102, 1);
    fill(',', BYTES);
    refused(which, "65,536 commas", 103, 1);
    fill('x', BYTES);
    text[0] = '"';
    refused(which, "a quote that is never closed", 102, 1);
    header_row = true;
    refused(which, "a quote that is never closed, in the header", 102, 1);
}

/* Refusals in the last field or after the last row. */
static void refused_texts(int which, unsigned most, int fields, const char *plain, const char *quoted)
{
    start(true);
    while (text_length + 6 * (FIELD + 1) + 1 <= BYTES)
        quoted_record(fields, '1');
    refused(which, "numbers of 62 digits in quotes", 104, 2);
    start(false);
    rows(most, plain);
    for (int i = 1; i < fields; i++)
        add(",");
    add("\"");
    add_bytes('0', FIELD);
    refused(which, "too long a quoted field after all rows", 102, most + 1);
    start(false);
    rows(most, plain);
    add("x");
    refused(which, "one field after all rows", 103, most + 1);
    start(false);
    rows(most, quoted);
    quoted_record(fields, '"');
    refused(which, "quote marks for numbers after all rows", 104, most + 1);
    start(false);
    rows(most, quoted);
    rows(1, quoted);
    refused(which, "row 0 after all rows", 105, most + 1);
    start(false);
    rows(most + 1, quoted);
    refused(which, "one row more", 106, most + 1);
    start(false);
    rows(most, plain);
    n = m = most - 1;
    refused(which, "one place less", 106, most);
    end_otherwise();
    refused(which, "one place less, and another line end in the last row", 106, most);
    n = m = most;
    refused(which, "another line end in the last row", 108, most);
}

static void texts(int which, unsigned most, int fields, const char *plain, const char *quoted)
{
    accepted_texts(which, most, fields, plain, quoted);
    refused_texts(which, most, fields, plain, quoted);
}

static void readers(void)
{
    uniform_texts(READ_BLOCKS);
    uniform_texts(READ_LOOPS);
    for (int i = 0; i < 2; i++) {
        line_end = &line_ends[i];
        texts(READ_BLOCKS, BLOCKS, 6, "1,0,,,5", "\"1000000\",\"63\",\"1023\",\"\",\"-4\"");
        unsigned count = i == 0 ? 1008 : 1023;
        longest_text(count, 6, "\"4294967295\",\"65535\",\"65534\",\"65534\",\"-9223372036854775808\"");
        accepted(READ_BLOCKS, "65,536 bytes", count, line_end->more);
        texts(READ_LOOPS, LOOPS, 5, "0,0,1,0", "\"65535\",\"65535\",\"4294967295\",\"18446744073709551615\"");
    }
}

/*
 * The largest tables: 1,024 blocks of cost 1, one after another. Block l is the header of loop l, and the loops are nested 16 deep.
 */
static void largest_tables(void)
{
    n = BLOCKS;
    m = LOOPS;
    for (size_t u = 0; u < n; u++) {
        cost[u] = 1;
        loops[u] = u < m ? (uint16_t)u : 0;
        first[u] = u + 1 < n ? (uint16_t)(u + 1) : ROLKEYDA_MISSING;
        second[u] = ROLKEYDA_MISSING;
        figure[u] = (int64_t)(n - 1 - u);
    }
    for (size_t l = 0; l < m; l++) {
        parent[l] = l % 15 == 1 || l == 0 ? 0 : (uint16_t)(l - 1);
        header[l] = (uint16_t)l;
        limit[l] = l == 0 ? 1 : 65535;
        multiplier[l] = 0;
        least[l] = 1;
    }
}

/* The bytes of a line of an MPS text that has a number: 24 in front of it and the line end. There is none for 0. */
static int64_t line_bytes(long number)
{
    return number == 0 ? 0 : 25 + snprintf(NULL, 0, "%ld", number);
}

/* Whether a block is inside a loop. */
static bool inside(size_t u, uint16_t l)
{
    uint16_t around = loops[u];
    while (around > l)
        around = parent[around];
    return around == l;
}

/* The length of the tables' MPS text. */
static int64_t mps_bytes(void)
{
    int64_t bytes = 91 + 10 * (int64_t)n + 8 * (int64_t)(m - 1);
    for (size_t edge = 0; edge < 2 * n; edge++) {
        size_t u = edge / 2;
        uint16_t v = edge % 2 == 0 ? first[u] : second[u];
        if (v == ROLKEYDA_MISSING)
            continue;
        bytes += line_bytes(-(long)cost[v]);
        if (u != v)
            bytes += line_bytes(1) + line_bytes(-1);
        if (loops[v] > 0 && header[loops[v]] == v)
            bytes += line_bytes(inside(u, loops[v]) ? 1 : 1 - (long)limit[loops[v]]);
    }
    return bytes;
}

/* Tables that are accepted: the reply is the bound, the length of the text, or the count of values, for which the buffer has just enough places. */
static void good_tables(int which, const char *name, int64_t bound)
{
    accepted(which, name, which == MPS ? mps_bytes() : which == VCD ? (int64_t)changed_length : bound, 0);
}

/* The largest tables, and with each of 201 to 207 broken at the last place where it can be. */
static void structures(int which)
{
    largest_tables();
    good_tables(which, "the largest tables", BLOCKS);
    n = BLOCKS + 1;
    refused(which, "one block more", 201, 0);
    largest_tables();
    limit[LOOPS - 1] = 0;
    refused(which, "a limit of 0 in the last loop", 202, LOOPS - 1);
    largest_tables();
    cost[BLOCKS - 1] = 1000001;
    refused(which, "too large a cost in the last block", 203, BLOCKS - 1);
    largest_tables();
    header[LOOPS - 1] = BLOCKS - 1;
    refused(which, "the last header outside its loop", 204, LOOPS - 1);
    largest_tables();
    for (uint16_t l = LOOPS - 16; l < LOOPS; l++)
        parent[l] = l == LOOPS - 16 ? 0 : l - 1;
    refused(which, "17 deep in the last loop", 205, LOOPS - 1);
    largest_tables();
    second[BLOCKS - 1] = 1;
    refused(which, "an edge from the exit", 206, BLOCKS - 1);
    largest_tables();
    second[BLOCKS - 2] = 15;
    refused(which, "an edge past 14 headers", 207, BLOCKS - 2);
}

static void checks(void)
{
    structures(CHECK);
    largest_tables();
    figure[BLOCKS - 2] = 0;
    refused(CHECK, "too small a figure in the last block but one", 208, BLOCKS - 2);
}

/* The largest tables where nothing costs anything, so that any edges keep 208; each block leads to its first successor twice if `doubled`. */
static void free_tables(bool doubled)
{
    largest_tables();
    for (size_t u = 0; u < n; u++) {
        cost[u] = 0;
        figure[u] = 0;
        if (doubled)
            second[u] = first[u];
    }
}

/* The blocks that head no loop in a row downwards, from the last but one to the exit. */
static void free_tables_downwards(void)
{
    free_tables(false);
    first[LOOPS - 1] = BLOCKS - 2;
    for (size_t u = LOOPS + 1; u < BLOCKS - 1; u++)
        first[u] = (uint16_t)(u - 1);
    first[LOOPS] = BLOCKS - 1;
}

/* Tables for rule 209: blocks that follow from each other and blocks that follow from none, with and without a closed walk. */
static void closed_walks(int which)
{
    free_tables(false);
    for (uint16_t l = 1; l < LOOPS; l++)
        second[l] = l;
    good_tables(which, "every header names itself", 0);
    second[BLOCKS - 2] = BLOCKS - 2;
    refused(which, "and so does the last block but one", 209, 0);
    free_tables(false);
    second[BLOCKS - 2] = 1;
    refused(which, "1,022 blocks in a cycle", 209, 0);
    free_tables(true);
    good_tables(which, "doubled edges", 0);
    first[BLOCKS - 2] = second[BLOCKS - 2] = 1;
    refused(which, "1,022 blocks with doubled edges in a cycle", 209, 0);
    free_tables_downwards();
    good_tables(which, "a row downwards", 0);
    second[LOOPS] = BLOCKS - 2;
    refused(which, "a row downwards in a cycle", 209, 0);
    free_tables(false);
    for (size_t u = 0; u < BLOCKS - 1; u++)
        first[u] = second[u] = BLOCKS - 1;
    good_tables(which, "2,046 edges to the exit", 0);
    for (size_t u = 0; u < BLOCKS - 1; u++)
        first[u] = second[u] = ROLKEYDA_MISSING;
    if (which == SOLVE)
        refused(which, "no edges", 401, 0);
    else
        good_tables(which, "no edges", 0);
    for (uint16_t u = 1; u < BLOCKS - 1; u++)
        first[u] = u;
    refused(which, "1,022 blocks that name themselves", 209, 0);
}

/* Second certificates, with the largest numbers, and with each of 451 to 453 broken at the last place where it can be. */
static void shortest_times(void)
{
    static int64_t too_large[BLOCKS];
    structures(SHORTEST);
    closed_walks(SHORTEST);
    largest_tables();
    for (size_t u = 0; u < LOOPS - 1; u++)
        figure[u] += (int64_t)(LOOPS - 1 - u) * 65534;
    for (uint16_t l = 1; l < LOOPS; l++) {
        second[l] = l;
        multiplier[l] = 1;
        least[l] = 65535;
    }
    accepted(SHORTEST, "every header names itself, at least 65,535 times", BLOCKS + 63 * 65534, 0);
    least_missing = 1;
    refused(SHORTEST, "the least visits of the last loop left out", 201, 0);
    least_missing = 0;
    figure[BLOCKS - 2] = 2;
    refused(SHORTEST, "too large a figure in the last block but one", 453, BLOCKS - 2);
    too_large[BLOCKS - 1] = ((int64_t)1 << 60) + 1;
    low_figure = too_large;
    refused(SHORTEST, "a figure over 2^60 in the last block", 452, BLOCKS - 1);
    least[LOOPS - 1] = 65536;
    refused(SHORTEST, "65,536 visits in the last loop", 451, LOOPS - 1);
}

/*
 * A walk of `length` blocks from entry to exit over the largest tables, with edges from block 2 to itself and from block 3 back to block 1:
 * rounds of 1, 2 (again and again) and 3, then 4 and so on.
 */
static void long_walk(size_t length)
{
    size_t rest = length - (BLOCKS - 4), stay = 0, last = 0;
    largest_tables();
    second[2] = 2;
    second[3] = 1;
    list[0] = 0;
    for (size_t i = 1; i < rest; i++) {
        bool enough = stay == 60000 || i + 1 == rest;
        list[i] = last == 0 || last == 3 ? 1 : last == 1 ? 2 : enough ? 3 : 2;
        stay = list[i] == 2 ? stay + 1 : 0;
        last = list[i];
    }
    for (size_t i = rest; i < length; i++)
        list[i] = (uint16_t)(4 + i - rest);
    list_length = length;
}

/* As many times as a walk may go round a cycle of 1,022 blocks that no loop declares. */
static void cycle_walk(void)
{
    free_tables(false);
    second[BLOCKS - 2] = 1;
    list_length = (LENGTH - 2) / (BLOCKS - 2) * (BLOCKS - 2) + 2;
    list[0] = 0;
    for (size_t i = 1; i + 1 < list_length; i++)
        list[i] = (uint16_t)((i - 1) % (BLOCKS - 2) + 1);
    list[list_length - 1] = BLOCKS - 1;
}

/* A walk that is accepted: the reply of a walk is its cost and its steps, that of a tally the steps alone. */
static void good_walk(int which, const char *name, int64_t cost_of_walk)
{
    uint64_t steps = list_length - 1;
    if (which == TALLY)
        accepted(which, name, (int64_t)steps, 0);
    else
        accepted(which, name, cost_of_walk, steps);
}

static void walks(int which)
{
    long_walk(LENGTH);
    good_walk(which, "1,048,576 blocks", LENGTH);
    list_length = LENGTH - 1;
    refused(which, "the exit left out", 314, LENGTH - 1);
    list_length = LENGTH + 1;
    refused(which, "1,048,577 blocks", 301, 0);
    list_length = 0;
    refused(which, "no block", 301, 0);
    long_walk(LENGTH);
    list[LENGTH - 1] = ROLKEYDA_MISSING;
    refused(which, "no such block at the end", 302, LENGTH - 1);
    list[LENGTH - 1] = 0;
    refused(which, "no such edge at the end", 312, LENGTH - 1);
    list[0] = 1;
    refused(which, "a start at block 1", 303, 0);
    long_walk(LENGTH - 1);
    list[LENGTH - 1] = 0;
    list_length = LENGTH;
    refused(which, "a block after the exit", 311, LENGTH - 1);
    for (size_t i = 2; i < LENGTH; i++)
        list[i] = 2;
    /* the limits play no part in a tally */
    if (which == TALLY)
        refused(which, "1,048,574 visits in one stay, which is not left", 314, LENGTH);
    else
        refused(which, "65,536 visits in one stay", 313, 65537);
    limit[LOOPS - 1] = 0;
    refused(which, "a limit of 0 in the last loop", 202, LOOPS - 1);
    largest_tables();
    second[BLOCKS - 2] = 15;
    refused(which, "an edge past 14 headers", 207, BLOCKS - 2);
    cycle_walk();
    good_walk(which, "a cycle of 1,022 blocks, round and round", 0);
}

/* The same, a walk that stays at every header, up to 16 loops deep, and lent columns of other lengths. */
static void tallies(void)
{
    stays_length = greatest_length = LOOPS;
    walks(TALLY);
    largest_tables();
    for (uint16_t l = 1; l < LOOPS; l++)
        second[l] = l;
    list_length = 0;
    list[list_length++] = 0;
    for (uint16_t u = 1; u < BLOCKS; u++)
        for (size_t visits = u < LOOPS ? 16384 : 1; visits > 0; visits--)
            list[list_length++] = u;
    good_walk(TALLY, "16,384 visits of each header", 0);
    greatest_length = LOOPS + 1;
    refused(TALLY, "a column that is one place too long", 421, 0);
    stays_length = 0;
    refused(TALLY, "an empty column", 421, 0);
    second[BLOCKS - 2] = 15;
    refused(TALLY, "an empty column, and an edge past 14 headers", 207, BLOCKS - 2);
}

/* The largest tables where each header that is not the first of its nest leads back to the one before. */
static void rounds(uint32_t most)
{
    largest_tables();
    for (uint16_t l = 1; l < LOOPS; l++) {
        limit[l] = most;
        if (parent[l] != 0)
            second[l] = l - 1;
    }
}

/*
 * 21 towers of three loops, in a row of blocks that cost nothing. The innermost header costs 2^19 and names itself, and each header leads back to
 * the one around it: a round of the outermost loop costs 2^40. To enter the towers with these limits costs 2^60.
 */
static void towers(void)
{
    free_tables(false);
    for (uint16_t l = 1; l < LOOPS; l += 3) {
        parent[l] = 0;
        parent[l + 1] = l;
        parent[l + 2] = l + 1;
        limit[l] = l < 48 ? 65535 : l == 49 ? 33 : 1;
        limit[l + 1] = 65;
        limit[l + 2] = 32768;
        cost[l + 2] = 524288;
        second[l] = l + 3;
        second[l + 1] = l;
        first[l + 2] = l + 2;
        second[l + 2] = l + 1;
    }
}

static void solutions(void)
{
    const int64_t most = (int64_t)1 << 60;
    structures(SOLVE);
    closed_walks(SOLVE);
    largest_tables();
    for (uint16_t l = 1; l < LOOPS; l++)
        second[l] = l;
    accepted(SOLVE, "every header names itself, 65,535 times", BLOCKS + 63 * 65534, 0);
    /* from the innermost loop outwards the rounds of a nest cost 0, 2, 4 and so on */
    rounds(2);
    accepted(SOLVE, "rounds 16 deep", BLOCKS + 4 * 210 + 6, 0);
    rounds(65535);
    refused(SOLVE, "rounds 16 deep, 65,535 times", 402, 0);
    first[BLOCKS - 2] = ROLKEYDA_MISSING;
    refused(SOLVE, "no path to the exit", 401, 0);
    first[BLOCKS - 3] = BLOCKS - 1;
    refused(SOLVE, "no path to the exit from the last block but one", 401, BLOCKS - 2);
    towers();
    accepted(SOLVE, "figures up to 2^60", most, 0);
    cost[BLOCKS - 1] = 1;
    refused(SOLVE, "a figure over 2^60", 403, 0);
    cost[61] = 1;
    refused(SOLVE, "a multiplier over 2^40 in the last tower", 402, 0);
}

/* The tables of the longest text: all edges enter a loop from outside, at a header that costs most. The last 63 blocks are the headers. */
static void longest_program(void)
{
    largest_tables();
    for (size_t u = 0; u < BLOCKS; u++) {
        uint16_t next = (uint16_t)(u <= BLOCKS - LOOPS ? BLOCKS - LOOPS + 1 : u + 1);
        cost[u] = 1000000;
        loops[u] = (uint16_t)(u <= BLOCKS - LOOPS ? 0 : u - (BLOCKS - LOOPS));
        first[u] = second[u] = u + 1 < BLOCKS ? next : ROLKEYDA_MISSING;
    }
    for (uint16_t l = 1; l < LOOPS; l++) {
        parent[l] = 0;
        header[l] = (uint16_t)(BLOCKS - LOOPS + l);
    }
}

static void programs(void)
{
    program_length = ROLKEYDA_MPS_MOST;
    structures(MPS);
    closed_walks(MPS);
    rounds(65535);
    good_tables(MPS, "rounds 16 deep", 0);
    longest_program();
    accepted(MPS, "the longest text", ROLKEYDA_MPS_MOST, 0);
    program_length--;
    refused(MPS, "a buffer that is one byte short", 411, 0);
    program_length = 0;
    refused(MPS, "no buffer", 411, 0);
}

#define DECLARED "$var 0 0 ! $end $enddefinitions $end"

/* A recording of the vector '!' that is as long as can be: one part again and again, then its end. Gives the count of these parts. */
static size_t longest_recording(const char *before, const char *part, const char *end)
{
    size_t count = 0;
    code[0] = '!';
    code_length = 1;
    changed_length = ROLKEYDA_VCD_MOST;
    text_length = 0;
    add(before);
    while (text_length + strlen(part) + strlen(end) <= BYTES) {
        add(part);
        count++;
    }
    add(end);
    return count;
}

/* The same with two values by turns, and a place for each. */
static void most_values(const char *before, const char *end)
{
    changed_length = 2 * longest_recording(before, " b0 ! b1 !", end);
}

/* The longest texts that are read. */
static void read_recordings(void)
{
    most_values(DECLARED, "");
    structures(VCD);
    largest_tables();
    accepted(VCD, "the most values", (int64_t)changed_length, 0);
    most_values(DECLARED " $dumpvars", " $end");
    accepted(VCD, "the most values in a dump", (int64_t)changed_length, 0);
    longest_recording(DECLARED, " b1 !", "");
    accepted(VCD, "one value again and again", 1, 0);
    longest_recording(DECLARED " b", "0", "1 !");
    accepted(VCD, "the longest number", 1, 0);
    longest_recording(DECLARED " $comment", " $", " $end b1 !");
    accepted(VCD, "the longest comment", 1, 0);
    longest_recording(DECLARED, " #1 $dumpon 0\" r \" bx \" $end $comment $end", " b1 !");
    accepted(VCD, "commands of all kinds", 1, 0);
    longest_recording("", "$var 0 0 ! $end ", "$enddefinitions $end b1 !");
    accepted(VCD, "the most declarations", 1, 0);
    longest_recording("$var 0 0 ", "!", " $end $enddefinitions $end");
    code_length = 0;
    while (code_length < text_length && text[9 + code_length] == '!')
        code[code_length++] = '!';
    accepted(VCD, "the longest code", 0, 0);
}

static void refused_recordings(void)
{
    const uint32_t length = BYTES;
    largest_tables();
    most_values(DECLARED, "");
    changed_length--;
    refused(VCD, "a buffer that is one place short", 433, length - 4);
    changed_length = 0;
    refused(VCD, "no buffer", 433, sizeof DECLARED);
    most_values(DECLARED, " x");
    refused(VCD, "a wrong word after the most values", 432, (uint32_t)text_length - 1);
    most_values(DECLARED, " bx !");
    refused(VCD, "an x digit after the most values", 432, (uint32_t)text_length - 4);
    most_values(DECLARED, " b1");
    refused(VCD, "a value without a code after the most values", 432, (uint32_t)text_length);
    most_values(DECLARED " $dumpall", "");
    refused(VCD, "a dump without an end", 432, (uint32_t)text_length);
    longest_recording("$var 0 0 ", "x", " $end $enddefinitions $end");
    refused(VCD, "another code", 432, length - 20);
    longest_recording(DECLARED " b", "1", " !");
    refused(VCD, "too large a number", 432, sizeof DECLARED);
    fill(' ', BYTES);
    refused(VCD, "blanks", 432, length);
    fill('$', BYTES);
    refused(VCD, "one word", 432, 0);
    fill(' ', BYTES + 1);
    refused(VCD, "65,537 bytes", 101, 0);
    second[BLOCKS - 2] = BLOCKS - 2;
    refused(VCD, "65,537 bytes, and the last block but one names itself", 431, BLOCKS - 2);
    fill(' ', 0);
    largest_tables();
    refused(VCD, "no text", 432, 0);
}

int main(void)
{
    outcome = mmap(NULL, sizeof *outcome, PROT_READ | PROT_WRITE, MAP_SHARED | MAP_ANONYMOUS, -1, 0);
    if (outcome == MAP_FAILED)
        stop("an outcome");
    readers();
    checks();
    closed_walks(CHECK);
    shortest_times();
    walks(WALK);
    solutions();
    programs();
    tallies();
    read_recordings();
    refused_recordings();
    for (size_t i = 0; i < sizeof functions / sizeof functions[0]; i++) {
        const struct function *function = &functions[i];
        printf("%-20s %6zu bytes of stack measured, %6zu at the first call, %6zu stated\n", function->name, function->again, function->first,
            function->stated);
    }
    printf("%u passed, %u failed\n", passed, failed);
    return failed == 0 ? 0 : 1;
}
