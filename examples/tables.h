/*
 * The tables of a folder, for the C examples: blocks.csv and loops.csv, without headers, are read by the library into the columns below. A program that
 * includes this has a function `accepted`, which gives the value of a reply that accepts and ends the program where a reply refuses.
 */
#ifndef TABLES_H
#define TABLES_H

#include "rolkeyda.h"

#include <stdio.h>
#include <stdlib.h>

static uint32_t cost[ROLKEYDA_MOST_BLOCKS];
static uint16_t loops[ROLKEYDA_MOST_BLOCKS], first[ROLKEYDA_MOST_BLOCKS], second[ROLKEYDA_MOST_BLOCKS];
static int64_t figure[ROLKEYDA_MOST_BLOCKS];

static uint16_t parent[ROLKEYDA_MOST_LOOPS], header[ROLKEYDA_MOST_LOOPS];
static uint32_t limit[ROLKEYDA_MOST_LOOPS];
static uint64_t multiplier[ROLKEYDA_MOST_LOOPS];

/* The rows that were read. Only these places of the columns are handed on. */
static size_t n, m;

/* The bytes of a file. One byte too many is read too: the library then says 101. */
static uint8_t text[ROLKEYDA_MOST_TEXT_BYTES + 1];

static size_t accepted(const char *stage, rolkeyda_reply reply);

/* Ends the program where there is no reply. */
static void stop(const char *what, const char *name)
{
    fprintf(stderr, "%s %s\n", what, name);
    exit(2);
}

static FILE *open_file(const char *name, const char *mode)
{
    FILE *file = fopen(name, mode);
    if (file == NULL)
        stop("cannot open", name);
    return file;
}

/* The name of a file in a folder, until the next call. */
static const char *in_folder(const char *folder, const char *name)
{
    static char path[4096];
    int length = snprintf(path, sizeof path, "%s/%s", folder, name);
    if (length < 0 || (size_t)length >= sizeof path)
        stop("too long a name:", name);
    return path;
}

/* Reads a file into `text` and gives its length. */
static size_t read_text(const char *name)
{
    FILE *file = open_file(name, "rb");
    size_t length = fread(text, 1, sizeof text, file);
    if (ferror(file))
        stop("cannot read", name);
    fclose(file);
    return length;
}

static void read_tables(const char *folder)
{
    size_t length = read_text(in_folder(folder, "blocks.csv"));
    n = accepted("blocks", rolkeyda_read_blocks(
        text, length, false,
        cost, ROLKEYDA_MOST_BLOCKS, loops, ROLKEYDA_MOST_BLOCKS, first, ROLKEYDA_MOST_BLOCKS,
        second, ROLKEYDA_MOST_BLOCKS, figure, ROLKEYDA_MOST_BLOCKS));
    length = read_text(in_folder(folder, "loops.csv"));
    m = accepted("loops", rolkeyda_read_loops(
        text, length, false,
        parent, ROLKEYDA_MOST_LOOPS, header, ROLKEYDA_MOST_LOOPS,
        limit, ROLKEYDA_MOST_LOOPS, multiplier, ROLKEYDA_MOST_LOOPS));
}

#endif
