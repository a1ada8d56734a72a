/*
 * Rolkeyda: the importer, the final checker, a checker of the shortest time, a solver, a writer of MPS, a reader of VCD recordings and a tally of walks,
 * for a worst-case execution time (WCET) analysis, proved. For C11 and C++11.
 *
 * Every function takes any input, checks it and returns a rolkeyda_reply by value. No function allocates, keeps a pointer or fails in
 * another way. A column is a pointer to its first value and then its length, a count of values (of bytes for a text). A column or text that a
 * function writes must not overlap any other column or text of the call. A column of length 0 may have any pointer that is not NULL.
 *
 * Build the library with `./build library`.
 */
#ifndef ROLKEYDA_H
#define ROLKEYDA_H

#include <stdbool.h>
#include <stddef.h>
#include <stdint.h>

#ifdef __cplusplus
#define ROLKEYDA_ASSERT static_assert
extern "C" {
#else
#define ROLKEYDA_ASSERT _Static_assert
#endif

/* A missing successor. */
#define ROLKEYDA_MISSING 65535u

/* The line end of record 1 in the reply of a reader, `more`. The end of the text: there is one record with no line end, or none. */
#define ROLKEYDA_CR_LF 0u
#define ROLKEYDA_LF 1u
#define ROLKEYDA_END_OF_TEXT 2u

/*
 * The most that there may be: blocks and loops of a routine (columns of these lengths hold any table), loops around a header with loop 0
 * and its own, bytes of a field as written, bytes of a text, blocks of a walk.
 */
#define ROLKEYDA_MOST_BLOCKS 1024u
#define ROLKEYDA_MOST_LOOPS 64u
#define ROLKEYDA_MOST_DEPTH 16u
#define ROLKEYDA_MOST_FIELD_BYTES 64u
#define ROLKEYDA_MOST_TEXT_BYTES 65536u
#define ROLKEYDA_LONGEST_WALK 1048576u

/* The greatest length of an MPS text: a buffer of so many bytes is proved to hold any, and some tables have a text of this length. */
#define ROLKEYDA_MPS_MOST 250217u

/* A buffer of so many blocks is proved to hold every VCD recording: a change takes four bytes of the text and one that parts it from the next. */
#define ROLKEYDA_VCD_MOST 13107u

/*
 * The stack that a call of each function needs, in bytes, with its arguments and some headroom. It includes what a dynamic linker takes at
 * the first call to bind memcpy and memset. Measured, not proved: tests/stack runs the largest and the most deeply quoted inputs on stacks
 * of these sizes.
 */
#define ROLKEYDA_STACK_READ_BLOCKS 32768u
#define ROLKEYDA_STACK_READ_LOOPS 12288u
#define ROLKEYDA_STACK_CHECK 16384u
#define ROLKEYDA_STACK_SHORTEST 16384u
#define ROLKEYDA_STACK_WALK 8192u
#define ROLKEYDA_STACK_TALLY 8192u
#define ROLKEYDA_STACK_VCD 40960u
#define ROLKEYDA_STACK_SOLVE 81920u
#define ROLKEYDA_STACK_MPS 16384u

/*
 * The reply of every function (`Reply` in the crate `replies`).
 *
 * number   0: accepted. Else the number of the first rule that is broken:
 *          101 to 106 and 108 for a table's text, 201 to 209 for a pair of tables, 301 to 303 and 311 to 314 for a walk, 401 to 403 for the solver,
 *          411 for an MPS text that does not fit, 421 for the columns of a tally, 101 and 431 to 433 for a VCD recording, 451 to 453 for a second
 *          certificate. The rules for tables are checked in the order 201 to 207, 209, 208.
 * place    where: the record of a table's text (the first is 1), the block or loop of a table (0 for 201, 209, 402, 403, 411 and 421), the index in a
 *          walk, the byte of a VCD text (the first is 0; for 431 the block), the loop of a second certificate for 451, its block for 452 and 453. 0
 *          when accepted, and for 101.
 * value    when accepted: the count of rows, the bound, the lower bound, the cost, the length of the MPS text, the steps of a walk that is tallied,
 *          or the count of blocks in a VCD recording. Else 0.
 * more     when a table's text is accepted: the line end of record 1, a header included (ROLKEYDA_CR_LF, ROLKEYDA_LF or ROLKEYDA_END_OF_TEXT).
 *          When rolkeyda_walk accepts: the walk's steps, the length less one. Else 0.
 */
typedef struct rolkeyda_reply {
    uint32_t number;
    uint32_t place;
    int64_t value;
    uint64_t more;
} rolkeyda_reply;

/* The layout that the library is compiled for. */
ROLKEYDA_ASSERT(sizeof(rolkeyda_reply) == 24, "a reply has 24 bytes");
ROLKEYDA_ASSERT(offsetof(rolkeyda_reply, number) == 0, "number is at 0");
ROLKEYDA_ASSERT(offsetof(rolkeyda_reply, place) == 4, "place is at 4");
ROLKEYDA_ASSERT(offsetof(rolkeyda_reply, value) == 8, "value is at 8");
ROLKEYDA_ASSERT(offsetof(rolkeyda_reply, more) == 16, "more is at 16");
#undef ROLKEYDA_ASSERT

/*
 * Reads a block table (number, cost, loop, first successor, second successor, figure; RFC 4180, with CR LF or LF line ends) into five
 * columns. `header_row` says whether record 1 is a header. Accepted: the first `value` places of each column hold the rows, later places
 * keep their contents, and `more` is the line end of record 1. Refused: no column is changed. 106 where the shortest column has no place
 * for a row, 108 where a record has a line end and record 1 has another. Stack: ROLKEYDA_STACK_READ_BLOCKS.
 */
rolkeyda_reply rolkeyda_read_blocks(
    const uint8_t *text, size_t text_length,
    bool header_row,
    uint32_t *cost, size_t cost_length,
    uint16_t *loops, size_t loops_length,
    uint16_t *first, size_t first_length,
    uint16_t *second, size_t second_length,
    int64_t *figure, size_t figure_length);

/*
 * Reads a loop table (number, parent, header, limit, multiplier) into four columns, by the same rules. Stack: ROLKEYDA_STACK_READ_LOOPS.
 */
rolkeyda_reply rolkeyda_read_loops(
    const uint8_t *text, size_t text_length,
    bool header_row,
    uint16_t *parent, size_t parent_length,
    uint16_t *header, size_t header_length,
    uint32_t *limit, size_t limit_length,
    uint64_t *multiplier, size_t multiplier_length);

/*
 * Checks a pair of tables. Accepted: `value` is the bound, and no counted run from block 0 to the last block costs more, whoever proposed
 * the figures and the multipliers. A negative bound: no such run exists. 209 where edges lead from a block back to it and none of them goes
 * back to the header of a loop from inside that loop; 208, which comes after it, at the lowest block with an edge that breaks its inequality.
 * Accepted tables stay accepted if only costs and limits of loops from 1 up go down, no limit below 1. The bound then falls by what block 0
 * saves; rolkeyda_solve may give a smaller one. As before it is a bound only of code of which no block takes longer than its cost.
 * Stack: ROLKEYDA_STACK_CHECK.
 */
rolkeyda_reply rolkeyda_check(
    const uint32_t *cost, size_t cost_length,
    const uint16_t *loops, size_t loops_length,
    const uint16_t *first, size_t first_length,
    const uint16_t *second, size_t second_length,
    const int64_t *figure, size_t figure_length,
    const uint16_t *parent, size_t parent_length,
    const uint16_t *header, size_t header_length,
    const uint32_t *limit, size_t limit_length,
    const uint64_t *multiplier, size_t multiplier_length);

/*
 * Checks a second certificate, for the shortest time: `low_figure` has a figure for each block, `low_multiplier` a multiplier for each loop, and `least`
 * the least number of visits to each loop's header in one stay. The tables must keep rules 201 to 207 and 209; 208 is not checked, and their own
 * figures, limits and multipliers count only for their ranges. Accepted: `value` is the lower bound. No run from block 0 to the last block that visits
 * each header at least `least` times in every stay costs less, whether it keeps the limits or not, and whoever proposed the certificate. It may be
 * negative, and then says nothing. As a time it is right only if no block takes less than its cost: where the time of a block varies, call this with
 * the least times in `cost`, and rolkeyda_check with the greatest. And it is right only of code in which no stay has fewer visits than `least`, which
 * cannot be seen here. 0 and 1 are always right. 201 also where `low_figure` has not a place for each block or one of the other two not a place for each
 * loop. Then, after 209: 451 at the lowest loop with a `least` over 65,535 or a multiplier over 2^40, and at loop 0 if these are not 1 and 0; 452 at
 * the lowest block with a figure outside -2^60 to 2^60; 453 at the lowest block with an edge that breaks its inequality. Stack: ROLKEYDA_STACK_SHORTEST.
 */
rolkeyda_reply rolkeyda_shortest(
    const uint32_t *cost, size_t cost_length,
    const uint16_t *loops, size_t loops_length,
    const uint16_t *first, size_t first_length,
    const uint16_t *second, size_t second_length,
    const int64_t *figure, size_t figure_length,
    const uint16_t *parent, size_t parent_length,
    const uint16_t *header, size_t header_length,
    const uint32_t *limit, size_t limit_length,
    const uint64_t *multiplier, size_t multiplier_length,
    const int64_t *low_figure, size_t low_figure_length,
    const uint64_t *low_multiplier, size_t low_multiplier_length,
    const uint32_t *least, size_t least_length);

/*
 * Checks a walk, a list of block numbers, over tables that keep rules 201 to 207 (208 and 209 are not checked). Accepted: the walk is a finished
 * counted run, `value` is its cost and `more` its steps. Stack: ROLKEYDA_STACK_WALK.
 */
rolkeyda_reply rolkeyda_walk(
    const uint32_t *cost, size_t cost_length,
    const uint16_t *loops, size_t loops_length,
    const uint16_t *first, size_t first_length,
    const uint16_t *second, size_t second_length,
    const int64_t *figure, size_t figure_length,
    const uint16_t *parent, size_t parent_length,
    const uint16_t *header, size_t header_length,
    const uint32_t *limit, size_t limit_length,
    const uint64_t *multiplier, size_t multiplier_length,
    const uint16_t *blocks, size_t blocks_length);

/*
 * Tells which limits a recording shows: a walk from block 0 to the last block, over tables that keep rules 201 to 207 (208 and 209 are not checked).
 * The limits in the table count only for their range, so there is no 313. Accepted: `value` is the walk's steps. For each loop `stays` has the
 * number of stretches of the walk inside the loop, each as long as can be, and `greatest` the greatest number of visits to the header in one of them;
 * a loop that is never entered has 0 and 0, and loop 0 has 1 and 1. If all of `greatest` are at most 65,535 and are put in as limits, with 1 in place
 * of 0, rolkeyda_walk accepts the walk; with any that is 2 or more lowered, not below 1, it says 313. Refused: neither column is changed. 421 where
 * a column has a length other than the number of loops, after 207 and before 301. Stack: ROLKEYDA_STACK_TALLY.
 */
rolkeyda_reply rolkeyda_tally(
    const uint32_t *cost, size_t cost_length,
    const uint16_t *loops, size_t loops_length,
    const uint16_t *first, size_t first_length,
    const uint16_t *second, size_t second_length,
    const int64_t *figure, size_t figure_length,
    const uint16_t *parent, size_t parent_length,
    const uint16_t *header, size_t header_length,
    const uint32_t *limit, size_t limit_length,
    const uint64_t *multiplier, size_t multiplier_length,
    const uint16_t *blocks, size_t blocks_length,
    uint32_t *stays, size_t stays_length,
    uint32_t *greatest, size_t greatest_length);

/*
 * Reads a VCD text (value change dump, IEEE 1364, four-state syntax) into a walk, over tables that keep rules 201 to 207 (208 and 209 are not checked).
 * `code` is the identifier code of the vector that has the block number: the third word after $var. Accepted: the first `value` places of `blocks` hold
 * the changed values of that vector, the first included, in the order of the text, and later places keep their contents. They are not compared with the
 * number of blocks: that is for rolkeyda_walk and rolkeyda_tally. A repeated value adds no block, so no block may have an edge to itself: 431 at the
 * lowest that has one, after 207. Then 101 for a text over ROLKEYDA_MOST_TEXT_BYTES. 432 at a word that the syntax does not allow, at a change of the
 * vector that is not in b or B form, has an x or z digit or is over 65,534 (the place is that of the value), at $enddefinitions where the code is not
 * declared, and at the length of a text that ends too soon. 433 at a changed value for which there is no place; ROLKEYDA_VCD_MOST places are always
 * enough. The lowest byte decides between 432 and 433, and 432 wins at one byte. Refused: `blocks` is not changed. Stack: ROLKEYDA_STACK_VCD.
 */
rolkeyda_reply rolkeyda_vcd(
    const uint32_t *cost, size_t cost_length,
    const uint16_t *loops, size_t loops_length,
    const uint16_t *first, size_t first_length,
    const uint16_t *second, size_t second_length,
    const int64_t *figure, size_t figure_length,
    const uint16_t *parent, size_t parent_length,
    const uint16_t *header, size_t header_length,
    const uint32_t *limit, size_t limit_length,
    const uint64_t *multiplier, size_t multiplier_length,
    const uint8_t *text, size_t text_length,
    const uint8_t *code, size_t code_length,
    uint16_t *blocks, size_t blocks_length);

/*
 * Remakes the figures and the multipliers of a pair of tables that keep rules 201 to 207 and 209. The given ones must be in the ranges of 202 and
 * 203 (0 for loop 0's multiplier); apart from that they are not read, and 208 is not checked. Accepted: both columns hold the remade certificate, rolkeyda_check accepts it
 * with the bound `value`, some counted run from block 0 to the last block costs exactly that, and so no certificate gives less. Refused: neither
 * column is changed. 401 at the lowest block that has no path to the last block, 402 where a multiplier would be over 2^40, 403 where a figure
 * would be outside -2^60 to 2^60. Stack: ROLKEYDA_STACK_SOLVE.
 */
rolkeyda_reply rolkeyda_solve(
    const uint32_t *cost, size_t cost_length,
    const uint16_t *loops, size_t loops_length,
    const uint16_t *first, size_t first_length,
    const uint16_t *second, size_t second_length,
    int64_t *figure, size_t figure_length,
    const uint16_t *parent, size_t parent_length,
    const uint16_t *header, size_t header_length,
    const uint32_t *limit, size_t limit_length,
    uint64_t *multiplier, size_t multiplier_length);

/*
 * Writes the path-counting program of a pair of tables that keep rules 201 to 207 and 209 (208 is not checked), for a linear solver: fixed MPS in
 * ASCII, with LF line ends and no zero byte behind it. Accepted: the first `value` bytes of the buffer `text` are the program, and later bytes keep
 * their contents. Refused: no byte is changed. 411 where the buffer is shorter than the text; ROLKEYDA_MPS_MOST bytes are always enough. Where
 * rolkeyda_solve accepts the tables, the program's minimum is the cost of block 0 less the bound. Stack: ROLKEYDA_STACK_MPS.
 */
rolkeyda_reply rolkeyda_mps(
    const uint32_t *cost, size_t cost_length,
    const uint16_t *loops, size_t loops_length,
    const uint16_t *first, size_t first_length,
    const uint16_t *second, size_t second_length,
    const int64_t *figure, size_t figure_length,
    const uint16_t *parent, size_t parent_length,
    const uint16_t *header, size_t header_length,
    const uint32_t *limit, size_t limit_length,
    const uint64_t *multiplier, size_t multiplier_length,
    uint8_t *text, size_t text_length);

#ifdef __cplusplus
}
#endif

#endif
