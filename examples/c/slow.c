/* Compiles two jobs, admits the first cascade to be read in every scan and the second one in every period-th, in those whose
 * number leaves phase, latches a word for each, and runs eight scans to their end; prints for each scan what was read, and the
 * outputs after it.
 * Build: cc -O2 -I include examples/c/slow.c target/staticlib/libpanel.a -o slow  (in the repository)
 *        cc -O2 -I include examples/c/slow.c lib/libkawsethu.a -o slow             (in a release; or by the Makefile here)
 * Run:   ./slow examples/table1.job 000d examples/bearing.job 0001 8 3 */
#include "job.h"

#define JOBS 2
#define SCANS 8

static uint8_t bank[CASCADE_BANK_BYTES];
static uint8_t scan[CASCADE_SCAN_BYTES];
static uint8_t held_rows[CASCADE_ROW_BYTES];

/* Compiles the job in the file and admits its cascade; 0 where either is refused. */
static int admit(const char *name, size_t period, size_t phase)
{
    cascade_totals made = compile_named(name);
    if (made.refusal != CASCADE_ACCEPTED) {
        printf("%s: refused %u\n", name, (unsigned)made.refusal);
        return 0;
    }
    uint8_t refusal = cascade_admit_every(bank, scan, records, 4 * (inputs + outputs), rows, CASCADE_ROW_SIZE * (size_t)made.rows,
                                          period, phase, held_rows, sizeof held_rows);
    if (refusal != CASCADE_ACCEPTED) {
        printf("%s: not admitted, %u\n", name, (unsigned)refusal);
        return 0;
    }
    return 1;
}

int main(int argc, char **argv)
{
    size_t shown[JOBS];
    uint16_t words[CASCADE_PLACES] = {0};
    if (argc != 7) {
        fprintf(stderr, "slow JOB WORD JOB WORD PERIOD PHASE (words in base 16)\n");
        return 2;
    }
    if (cascade_version() != CASCADE_VERSION || cascade_layout() != CASCADE_LAYOUT) {
        printf("the archive is not that of this header, " CASCADE_VERSION_STRING "\n");
        return 1;
    }
    if (cascade_bank_new(255, bank, scan) != CASCADE_ACCEPTED)
        return 1;
    if (!admit(argv[1], 1, 0))
        return 1;
    shown[0] = outputs;
    if (!admit(argv[3], strtoul(argv[5], NULL, 10), strtoul(argv[6], NULL, 10)))
        return 1;
    shown[1] = outputs;
    for (int j = 0; j < JOBS; j++)
        words[j] = (uint16_t)strtoul(argv[2 + 2 * j], NULL, 16);

    for (int number = 0; number < SCANS; number++) {
        if (cascade_latch(bank, scan, words) != CASCADE_ACCEPTED)
            return 1;
        printf("scan %d reads", number);
        cascade_step_answer answer = cascade_step(bank, scan, held_rows, sizeof held_rows);
        while (answer.kind == CASCADE_WENT) {
            printf(" %u.%u", (unsigned)answer.block, (unsigned)answer.cell);
            answer = cascade_step(bank, scan, held_rows, sizeof held_rows);
        }
        if (answer.kind == CASCADE_REFUSED) {
            printf(", refused %u\n", (unsigned)answer.refusal);
            return 1;
        }
        for (int j = 0; j < JOBS; j++) {
            printf("%s block %d:", j == 0 ? "," : "", j);
            for (size_t o = 0; o < shown[j]; o++) {
                uint8_t value = CASCADE_OUTPUT(scan, j, o);
                putchar(value == CASCADE_NOT_SET ? '.' : '0' + value);
            }
        }
        putchar('\n');
    }
    return 0;
}
