/* Compiles the job on standard input with the proved compiler and prints its listing, as program cascade_list does.
 * Build: cc -O2 -I include examples/c/list.c target/staticlib/libpanel.a -o list  (in the repository)
 *        cc -O2 -I include examples/c/list.c lib/libkawsethu.a -o list             (in a release; or by the Makefile here)
 * Run:   ./list < examples/table1.job */
#include "job.h"

/* The least r with 2^r at least w. */
static unsigned rails(unsigned w)
{
    unsigned r = 0;
    while ((1u << r) < w)
        r++;
    return r;
}

int main(void)
{
    cascade_totals made = compile(stdin);
    if (made.refusal != CASCADE_ACCEPTED) {
        printf("refused %u\n", (unsigned)made.refusal);
        return 0;
    }
    size_t t = inputs + outputs;
    for (size_t h = t; h-- > 0;)
        printf("%zu %u %u\n", h, (unsigned)widths[h], rails(widths[h]));

    /* A cell ends at each record with a cut below it: its inputs are its upper rails and the inputs since the last cut. */
    size_t top = t, at = 0, cell_inputs = 0;
    for (size_t i = 0; i < t; i++) {
        const uint8_t *record = records + 4 * i;
        cell_inputs += record[0] < 128;
        if (record[1] == 1) {
            size_t bottom = t - 1 - i, end = at + ((size_t)1 << cell_inputs);
            printf("cell %zu %zu", top, bottom);
            for (; at < end; at++)
                printf(" %u", (unsigned)CASCADE_ROW(rows, at));
            printf("\n");
            top = bottom;
            cell_inputs = record[2];
        }
    }
    return 0;
}
