/* Compiles a job with the proved compiler and prints which of its outputs are certain where only some inputs are known, as when a
 * sensor's cable is cut.
 * Build: cc -O2 -I include examples/c/known.c target/staticlib/libpanel.a -o known  (in the repository)
 *        cc -O2 -I include examples/c/known.c lib/libkawsethu.a -o known             (in a release; or by the Makefile here)
 * Run:   ./known examples/basket.job 7fe 2ae */
#include "job.h"

int main(int argc, char **argv)
{
    uint8_t certain[CASCADE_OUTPUTS];
    if (argc != 4) {
        fprintf(stderr, "known JOB KNOWN WORD (mask and word in base 16)\n");
        return 2;
    }
    cascade_totals made = compile_named(argv[1]);
    if (made.refusal != CASCADE_ACCEPTED) {
        printf("refused %u\n", (unsigned)made.refusal);
        return 1;
    }
    uint16_t known = (uint16_t)strtoul(argv[2], NULL, 16);
    uint16_t word = (uint16_t)strtoul(argv[3], NULL, 16);
    uint8_t refusal = cascade_known(records, 4 * (inputs + outputs), rows, CASCADE_ROW_SIZE * (size_t)made.rows, known, word,
                                    certain);
    if (refusal != CASCADE_ACCEPTED) {
        printf("refused %u\n", (unsigned)refusal);
        return 1;
    }
    for (size_t o = 0; o < outputs; o++) {
        if (certain[o] == CASCADE_UNKNOWN)
            printf("y%u unknown\n", (unsigned)o + 1);
        else
            printf("y%u %u\n", (unsigned)o + 1, (unsigned)certain[o]);
    }
    return 0;
}
