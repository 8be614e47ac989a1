/* How much stack each exported function takes on the job on standard input, beside what the header says is enough: the call is
 * made on a stack of its own, painted before it and looked at after it. Fails where a function takes more. Where the job is
 * refused, what needs a cascade is not measured.
 * Build: cc -O2 -I include -Wl,-z,now tools/stack.c target/staticlib/libpanel.a -o stack
 * Without -z now the first call of memcpy or memset takes besides what the dynamic linker needs. */
#define _GNU_SOURCE
#include "cascade.h"

#include <stdio.h>
#include <stdlib.h>
#include <string.h>
#include <ucontext.h>

enum { STACK = 8 << 20, PAINT = 0xA5 };

static uint8_t input[4096];
static size_t length;
static uint16_t nodes[CASCADE_NODE_WORDS];
static uint8_t records[CASCADE_RECORD_BYTES];
static uint8_t rows[CASCADE_ROW_BYTES];
static uint16_t widths[CASCADE_WIDTHS];
static uint8_t bank[CASCADE_BANK_BYTES];
static uint8_t scan[CASCADE_SCAN_BYTES];
static uint8_t held_rows[CASCADE_ROW_BYTES];
static size_t made_rows;
static unsigned refusal;
static volatile unsigned answer;

static const uint8_t *order(void) { return input + 4; }
static size_t variables(void) { return (size_t)input[0] + input[1]; }
static const uint8_t *sheet(void) { return input + 4 + variables(); }
static size_t sheet_length(void) { return length - 4 - variables(); }

static void nothing(void) {}

static void version(void) { answer = cascade_version(); }
static void layout(void) { answer = cascade_layout(); }

static void refuse(void)
{
    refusal = cascade_sheet_refusal(input[0], input[1], input[2], input[3], order(), variables(), sheet(), sheet_length());
}

static void tabulate(void)
{
    static uint8_t table[CASCADE_TABLE_BYTES];
    refusal = cascade_sheet_table(input[0], input[1], input[2], input[3], order(), variables(), sheet(), sheet_length(), table);
}

static void reduce(void)
{
    refusal = cascade_reduce(input[0], input[1], input[2], input[3], order(), variables(), sheet(), sheet_length(), widths, nodes)
                  .refusal;
}

static void compile(void)
{
    cascade_totals made = cascade_compile(input[0], input[1], input[2], input[3], order(), variables(), sheet(), sheet_length(),
                                          nodes, CASCADE_NODE_WORDS, records, CASCADE_RECORD_BYTES, rows, CASCADE_ROW_BYTES,
                                          widths);
    refusal = made.refusal;
    made_rows = made.rows;
}

/* Words of no diagram, in which every walk goes all heights down: the children of node 2 are node 2, of every other node 3. */
static uint16_t loops[CASCADE_NODE_WORDS];

static void walk(void) { answer = cascade_walk(loops, 0, 255, 2); }
static void same(void) { answer = cascade_same_columns(loops, 20, 2, 3); }
static void compatible(void) { answer = cascade_compatible_columns(loops, 20, 2, 3); }

static void descend(void)
{
    static const uint8_t inputs[20];
    answer = cascade_descent(loops, inputs, sizeof inputs, 20, 0, 2, 0, 20).node;
}

static void evaluate(void)
{
    static uint8_t outputs[CASCADE_OUTPUTS];
    refusal = cascade_known(records, 4 * variables(), rows, CASCADE_ROW_SIZE * made_rows, 0, 0, outputs);
}

static uint8_t old_records[CASCADE_RECORD_BYTES];
static uint8_t old_rows[CASCADE_ROW_BYTES / CASCADE_ROW_SIZE];

static void narrow(void)
{
    refusal = cascade_narrow(records, 4 * variables(), rows, CASCADE_ROW_SIZE * made_rows, old_records, sizeof old_records,
                             old_rows, sizeof old_rows);
}

static void widen(void)
{
    refusal = cascade_widen(old_records, 4 * variables(), old_rows, made_rows, records, sizeof records, rows, sizeof rows);
}

static void make_bank(void) { refusal = cascade_bank_new(255, bank, scan); }

static void admit(void)
{
    refusal = cascade_admit(bank, scan, records, 4 * variables(), rows, CASCADE_ROW_SIZE * made_rows, held_rows, sizeof held_rows);
}

static void admit_every(void)
{
    refusal = cascade_admit_every(bank, scan, records, 4 * variables(), rows, CASCADE_ROW_SIZE * made_rows, 8, 7, held_rows,
                                  sizeof held_rows);
}

static void latch(void)
{
    static const uint16_t words[CASCADE_PLACES];
    refusal = cascade_latch(bank, scan, words);
}

static void step(void) { refusal = cascade_step(bank, scan, held_rows, sizeof held_rows).refusal; }

/* In the order in which one needs what another made; those that stand after compile need an accepted job. */
static const struct {
    const char *name;
    void (*call)(void);
    size_t enough;
} functions[] = {
    {"cascade_version", version, CASCADE_VERSION_STACK},
    {"cascade_layout", layout, CASCADE_VERSION_STACK},
    {"cascade_walk", walk, CASCADE_WALK_STACK},
    {"cascade_same_columns", same, CASCADE_WALK_STACK},
    {"cascade_compatible_columns", compatible, CASCADE_WALK_STACK},
    {"cascade_descent", descend, CASCADE_WALK_STACK},
    {"cascade_bank_new", make_bank, CASCADE_BANK_STACK},
    {"cascade_sheet_refusal", refuse, CASCADE_SHEET_REFUSAL_STACK},
    {"cascade_sheet_table", tabulate, CASCADE_SHEET_TABLE_STACK},
    {"cascade_reduce", reduce, CASCADE_REDUCE_STACK},
    {"cascade_compile", compile, CASCADE_COMPILE_STACK},
    {"cascade_known", evaluate, CASCADE_KNOWN_STACK},
    {"cascade_admit", admit, CASCADE_BANK_STACK},
    {"cascade_admit_every", admit_every, CASCADE_BANK_STACK},
    {"cascade_latch", latch, CASCADE_BANK_STACK},
    {"cascade_step", step, CASCADE_BANK_STACK},
    {"cascade_narrow", narrow, CASCADE_MOVE_STACK},
    {"cascade_widen", widen, CASCADE_MOVE_STACK},
};

static size_t used_by(void (*call)(void))
{
    static uint8_t stack[STACK];
    static ucontext_t here, there;
    size_t clean = 0;
    memset(stack, PAINT, STACK);
    if (getcontext(&there) != 0)
        abort();
    there.uc_stack.ss_sp = stack;
    there.uc_stack.ss_size = STACK;
    there.uc_link = &here;
    makecontext(&there, call, 0);
    if (swapcontext(&here, &there) != 0)
        abort();
    while (clean < STACK && stack[clean] == PAINT)
        clean++;
    return STACK - clean;
}

int main(void)
{
    int over = 0;
    length = fread(input, 1, sizeof input, stdin);
    if (length < 4 || length < 4 + variables()) {
        fputs("the input ends inside the order\n", stderr);
        return 2;
    }
    for (size_t i = 0; i < CASCADE_NODE_WORDS; i++)
        loops[i] = i < 3 ? 2 : 3;
    size_t least = used_by(nothing);
    for (size_t i = 0; i < sizeof functions / sizeof *functions; i++) {
        size_t taken = used_by(functions[i].call) - least;
        printf("%s %zu of %zu", functions[i].name, taken, functions[i].enough);
        printf(refusal ? " (refusal %u)\n" : "\n", refusal);
        over |= taken > functions[i].enough;
        if (functions[i].call == compile && refusal != CASCADE_ACCEPTED)
            break;
    }
    return over;
}
