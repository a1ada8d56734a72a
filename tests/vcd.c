/*
 * Reads a VCD file by the C library and prints the reply: vcd FILE CODE [ROOM]. It prints the blocks after 'accepted COUNT:', or 'refused NUMBER PLACE'.
 * The buffer has ROOM places, ROLKEYDA_VCD_MOST where none are named. With `cut` for ROOM it reads the file cut off behind each of its bytes: the
 * blocks are then the first ones of the whole, or the reply is 432 at the length or at the word that is cut off. It prints how often each came up. The
 * exit status is 0, or 2 where something is wrong: a place has changed that may not, or a reply to a text that is cut off is another.
 */
#include "rolkeyda.h"

#include <inttypes.h>
#include <stdio.h>
#include <stdlib.h>
#include <string.h>

/* Two blocks and an edge between them. Blocks of a recording are not compared with the table. */
static const uint32_t cost[2], limit[1] = {1};
static const uint16_t loops[2], first[2] = {1, ROLKEYDA_MISSING}, second[2] = {ROLKEYDA_MISSING, ROLKEYDA_MISSING}, parent[1], header[1];
static const int64_t figure[2];
static const uint64_t multiplier[1];

/* A text of one byte too many is read too: the library then says 101. */
static uint8_t text[ROLKEYDA_MOST_TEXT_BYTES + 1];

/* The blocks of the whole text and of a part. No value of a recording is UNUSED. */
#define UNUSED 65535u
static uint16_t whole[ROLKEYDA_VCD_MOST], blocks[ROLKEYDA_VCD_MOST];

static void stop(const char *what, size_t place)
{
    fprintf(stderr, "%s: %zu\n", what, place);
    exit(2);
}

static size_t read_text(const char *name)
{
    FILE *file = fopen(name, "rb");
    if (file == NULL)
        stop(name, 0);
    size_t length = fread(text, 1, sizeof text, file);
    fclose(file);
    return length;
}

/* Reads the first bytes of the text into `to`, of which no places change but the first that the reply counts. */
static rolkeyda_reply read_blocks(size_t length, const char *code, uint16_t *to, size_t room)
{
    for (size_t i = 0; i < ROLKEYDA_VCD_MOST; i++)
        to[i] = UNUSED;
    rolkeyda_reply reply = rolkeyda_vcd(
        cost, 2, loops, 2, first, 2, second, 2, figure, 2, parent, 1, header, 1, limit, 1, multiplier, 1,
        text, length, (const uint8_t *)code, strlen(code), to, room);
    if (reply.more != 0 || (reply.number != 0 && reply.value != 0) || reply.value < 0 || (size_t)reply.value > room)
        stop("a reply that cannot be", length);
    for (size_t i = 0; i < ROLKEYDA_VCD_MOST; i++)
        if ((to[i] == UNUSED) != (i >= (size_t)reply.value))
            stop("a place that may not be as it is", i);
    return reply;
}

/* The first byte of the word that ends at `length`. */
static size_t last_word(size_t length)
{
    while (length > 0 && strchr(" \t\r\n", text[length - 1]) == NULL)
        length--;
    return length;
}

static void cut(size_t length, const char *code)
{
    size_t accepted = 0, ends = 0, words = 0;
    if (read_blocks(length, code, whole, ROLKEYDA_VCD_MOST).number != 0)
        stop("the whole is refused", length);
    for (size_t i = 0; i < length; i++) {
        rolkeyda_reply reply = read_blocks(i, code, blocks, ROLKEYDA_VCD_MOST);
        if (reply.number == 0 && memcmp(blocks, whole, (size_t)reply.value * sizeof blocks[0]) == 0)
            accepted++;
        else if (reply.number == 432 && reply.place == i)
            ends++;
        else if (reply.number == 432 && reply.place == last_word(i))
            words++;
        else
            stop("another reply, cut off at", i);
    }
    printf("accepted %zu, at the length %zu, at the last word %zu\n", accepted, ends, words);
}

int main(int count, char **arguments)
{
    if (count != 3 && count != 4)
        stop("usage: vcd FILE CODE [ROOM | cut]", 0);
    size_t length = read_text(arguments[1]);
    if (count == 4 && strcmp(arguments[3], "cut") == 0) {
        cut(length, arguments[2]);
        return 0;
    }
    rolkeyda_reply reply = read_blocks(length, arguments[2], blocks, count == 4 ? strtoul(arguments[3], NULL, 10) : ROLKEYDA_VCD_MOST);
    if (reply.number != 0) {
        printf("refused %" PRIu32 " %" PRIu32 "\n", reply.number, reply.place);
        return 0;
    }
    printf("accepted %" PRId64 ":", reply.value);
    for (size_t i = 0; i < (size_t)reply.value; i++)
        printf(" %" PRIu16, blocks[i]);
    printf("\n");
    return 0;
}
