/* Compiles two jobs with the proved compiler, admits both cascades into a bank, latches a word for each and steps to Idle,
 * printing each read and in the end the outputs.
 * Build: cc -O2 -I include examples/c/scan.c target/staticlib/libpanel.a -o scan  (in the repository)
 *        cc -O2 -I include examples/c/scan.c lib/libkawsethu.a -o scan             (in a release; or by the Makefile here)
 * Run:   ./scan examples/table1.job 000d examples/basket.job 0217 */
#include "job.h"

#define JOBS 2
#define SCAN_LIMIT 255

static uint8_t bank[CASCADE_BANK_BYTES];
static uint8_t scan[CASCADE_SCAN_BYTES];
static uint8_t held_rows[CASCADE_ROW_BYTES];

/* Compiles the job in the file and admits its cascade; 0 where either is refused. */
static int admit(const char *name)
{
    cascade_totals made = compile_named(name);
    if (made.refusal != CASCADE_ACCEPTED) {
        printf("%s: refused %u\n", name, (unsigned)made.refusal);
        return 0;
    }
    uint8_t refusal = cascade_admit(bank, scan, records, 4 * (inputs + outputs), rows, CASCADE_ROW_SIZE * (size_t)made.rows,
                                    held_rows, sizeof held_rows);
    if (refusal != CASCADE_ACCEPTED) {
        printf("%s: not admitted, %u\n", name, (unsigned)refusal);
        return 0;
    }
    printf("%s: %u cells, %u rows\n", name, (unsigned)made.cells, (unsigned)made.rows);
    return 1;
}

int main(int argc, char **argv)
{
    size_t shown[JOBS];
    uint16_t words[CASCADE_PLACES] = {0};
    if (argc != 1 + 2 * JOBS) {
        fprintf(stderr, "scan JOB WORD JOB WORD (words in base 16)\n");
        return 2;
    }
    if (cascade_version() != CASCADE_VERSION || cascade_layout() != CASCADE_LAYOUT) {
        printf("the archive is not that of this header, " CASCADE_VERSION_STRING "\n");
        return 1;
    }
    if (cascade_bank_new(SCAN_LIMIT, bank, scan) != CASCADE_ACCEPTED)
        return 1;
    for (int j = 0; j < JOBS; j++) {
        if (!admit(argv[1 + 2 * j]))
            return 1;
        shown[j] = outputs;
        words[j] = (uint16_t)strtoul(argv[2 + 2 * j], NULL, 16);
    }
    if (cascade_latch(bank, scan, words) != CASCADE_ACCEPTED)
        return 1;

    cascade_step_answer answer = cascade_step(bank, scan, held_rows, sizeof held_rows);
    while (answer.kind == CASCADE_WENT) {
        printf("read block %u cell %u\n", (unsigned)answer.block, (unsigned)answer.cell);
        answer = cascade_step(bank, scan, held_rows, sizeof held_rows);
    }
    if (answer.kind == CASCADE_REFUSED) {
        printf("step refused, %u\n", (unsigned)answer.refusal);
        return 1;
    }
    for (int j = 0; j < JOBS; j++) {
        printf("block %d:", j);
        for (size_t o = 0; o < shown[j]; o++)
            printf(" %u", (unsigned)CASCADE_OUTPUT(scan, j, o));
        printf("\n");
    }
    return 0;
}
