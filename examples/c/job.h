/* A job read from a file, as program cascade_list reads it, and compiled into memory that is enough for every job. */
#ifndef JOB_H
#define JOB_H

#include "cascade.h"

#include <stdio.h>
#include <stdlib.h>

static uint16_t nodes[CASCADE_NODE_WORDS];
static uint8_t records[CASCADE_RECORD_BYTES];
static uint8_t rows[CASCADE_ROW_BYTES];
static uint16_t widths[CASCADE_WIDTHS];

/* n and m of the last job. */
static size_t inputs, outputs;

/* Compiles the job in the file: n, m, k, l, the order, then the sheet. */
static cascade_totals compile(FILE *file)
{
    uint8_t bytes[4096] = {0};
    size_t length = fread(bytes, 1, sizeof bytes, file);
    inputs = bytes[0];
    outputs = bytes[1];
    size_t end = 4 + inputs + outputs;
    size_t from = length < 4 ? length : 4;
    size_t to = length < end ? length : end;
    return cascade_compile(inputs, outputs, bytes[2], bytes[3], bytes + from, to - from, bytes + to, length - to,
                           nodes, CASCADE_NODE_WORDS, records, CASCADE_RECORD_BYTES, rows, CASCADE_ROW_BYTES, widths);
}

/* The same, of the file with that name; where it can't be opened the program ends. */
static inline cascade_totals compile_named(const char *name)
{
    FILE *file = fopen(name, "rb");
    if (file == NULL) {
        perror(name);
        exit(1);
    }
    cascade_totals made = compile(file);
    fclose(file);
    return made;
}

#endif
