/* Compiles a job with the proved compiler, moves its cascade to one byte a row, as an old panel takes it, and back up, and prints both as lines that
 * admit it (docs/REPLAY.md).
 * Build: cc -O2 -I include examples/c/move.c target/staticlib/libpanel.a -o move  (in the repository)
 *        cc -O2 -I include examples/c/move.c lib/libkawsethu.a -o move             (in a release; or by the Makefile here)
 * Run:   ./move examples/table1.job */
#include "job.h"

#include <string.h>

static uint8_t old_records[CASCADE_RECORD_BYTES];
static uint8_t old_rows[CASCADE_ROW_BYTES / CASCADE_ROW_SIZE];
static uint8_t new_records[CASCADE_RECORD_BYTES];
static uint8_t new_rows[CASCADE_ROW_BYTES];

static void print(const uint8_t *bytes, size_t length)
{
    putchar(' ');
    for (size_t i = 0; i < length; i++)
        printf("%02x", bytes[i]);
}

static void print_block(const uint8_t *block, size_t length, const uint8_t *block_rows, size_t rows_length)
{
    printf("admit");
    print(block, length);
    print(block_rows, rows_length);
    putchar('\n');
}

int main(int argc, char **argv)
{
    if (argc != 2) {
        fprintf(stderr, "move JOB\n");
        return 2;
    }
    cascade_totals made = compile_named(argv[1]);
    size_t length = 4 * (inputs + outputs);
    size_t count = made.rows;
    uint8_t refusal = made.refusal;
    if (refusal == CASCADE_ACCEPTED)
        refusal = cascade_narrow(records, length, rows, CASCADE_ROW_SIZE * count, old_records, sizeof old_records, old_rows,
                                 sizeof old_rows);
    if (refusal == CASCADE_ACCEPTED)
        refusal = cascade_widen(old_records, length, old_rows, count, new_records, sizeof new_records, new_rows,
                                sizeof new_rows);
    if (refusal != CASCADE_ACCEPTED) {
        printf("refused %u\n", (unsigned)refusal);
        return 1;
    }
    print_block(old_records, length, old_rows, count);
    print_block(new_records, length, new_rows, CASCADE_ROW_SIZE * count);
    return memcmp(new_records, records, length) != 0 || memcmp(new_rows, rows, CASCADE_ROW_SIZE * count) != 0;
}
