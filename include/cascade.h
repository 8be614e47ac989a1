/* The proved compiler and stepper for C: a job and its logic sheet in, a cascade out; cascades held in a bank and
 * scanned, one read a call.
 *
 * Link with libkawsethu.a of a release (pkg-config kawsethu), or with target/staticlib/libpanel.a, which is the same archive
 * (made by `tools/archive`).
 *
 * Every function takes any numbers and any bytes, ends, and reads and writes nothing but what it is lent and its stack. On a
 * refusal it leaves all lent memory as it was.
 *
 * Memory. A slice is a pointer and its number of elements. NULL may not be lent, also not with length 0: lend the address of
 * anything. Slices lent to one call must not overlap, save that those only read (const) may be the same.
 *
 * Threads. The archive has no data that is written, so calls on different memory may run in several threads at once. A call
 * may be interrupted, and the interrupt may call any function on other memory. What a call is lent nobody else may write
 * until it returns, nor read where the call writes it; what it only reads others may read too.
 *
 * Stack. Each function has a macro CASCADE_.._STACK with as many bytes as are enough: measured on a painted stack, with
 * room to spare, also for a dynamic linker that binds memcpy or memset at the first call. Nothing is on a heap.
 *
 * Time. Nothing is proved of it. What is said of it below is what it grows with, seen in the code and in measurements.
 */
#ifndef CASCADE_H
#define CASCADE_H

#include <stdbool.h>
#include <stddef.h>
#include <stdint.h>

#ifdef __cplusplus
extern "C" {
#endif

/* Which header this is: 65536 x major + 256 x minor + patch. CASCADE_LAYOUT changes when memory that is lent is laid out
 * otherwise: nodes, records, rows, table, bank or scan state. Layout 1 had one byte a row, layout 2 a bank of 651 bytes
 * without periods and phases and a scan state of 85 without a number. What was stored with one layout must not be lent to a
 * function of another. */
#define CASCADE_VERSION 0x020000
#define CASCADE_VERSION_STRING "2.0.0"
#define CASCADE_LAYOUT 3

/* The same two numbers of the archive, so that a firmware can compare both with its header when it starts. */
#define CASCADE_VERSION_STACK 64
uint32_t cascade_version(void);
uint32_t cascade_layout(void);

/* Refusals. Each function says below which it gives. */
#define CASCADE_ACCEPTED 0
#define CASCADE_REFUSED_RANGE 1               /* n, m, k, l or the scan limit out of range */
#define CASCADE_REFUSED_ORDER 2               /* the order is not each variable once */
#define CASCADE_REFUSED_SHEET_LENGTH 3        /* no multiple of 8, or over 2,048 */
#define CASCADE_REFUSED_RECORD 4              /* bits or kind of a record */
#define CASCADE_REFUSED_CONTRADICTION 5       /* two records of one kind contradict each other */
#define CASCADE_REFUSED_DEPENDENCE 6          /* an output stands above an input on which it depends */
#define CASCADE_REFUSED_COLUMNS 7             /* over 512 columns at some height */
#define CASCADE_REFUSED_CUTS 8                /* no cut list meets k and l */
#define CASCADE_REFUSED_NODES_SHORT 9         /* memory for nodes too short */
#define CASCADE_REFUSED_RECORDS_SHORT 10      /* memory for records too short */
#define CASCADE_REFUSED_ROWS_SHORT 11         /* memory for rows too short, or over 32,768 rows in a bank */
#define CASCADE_REFUSED_NOT_WELL_FORMED 12    /* bank, scan state or cascade not well formed */
#define CASCADE_REFUSED_BANK_FULL 13          /* 8 blocks are held */
#define CASCADE_REFUSED_SCAN_LIMIT 14         /* in some scan more due cells than the scan limit */
#define CASCADE_REFUSED_OVER_EIGHT_OUTPUTS 15 /* a cell has more than 8 outputs, rails counted */
#define CASCADE_REFUSED_PERIOD 16             /* period not 1, 2, 4 or 8, or phase not below it */

/* A job: n inputs (1 to 12), m outputs (1 to 8), cell limits of k inputs (2 to 12) and l outputs (1 to 16), and an
 * order of n + m bytes, top first: input i is i, output i is 128 + i. The sheet is records of 8 bytes: 0 and 1 the mask
 * of tested inputs, 2 and 3 their values, low byte first; 4 the outputs forced to 0, 5 those forced to 1; 6 is 1 for a stop
 * record and 0 for an ordinary one; 7 is 0. Where a stop record and an ordinary one both name an output for a word, the
 * stop record decides; what no record names is free. The order of the records does not matter: the same ones, each as often,
 * give the same answer and the same bytes in any arrangement. */

/* Memory that is enough for every job. */
#define CASCADE_NODE_WORDS 30720 /* 10,240 nodes: height, child for 0, child for 1 */
#define CASCADE_RECORD_BYTES 80  /* 20 records of 4 bytes */
#define CASCADE_ROW_SIZE 2       /* bytes a row: the row memory is 16 bits wide */
#define CASCADE_ROW_BYTES 65536  /* 32,768 rows, as many as a bank holds; no job has over 12,288 */
#define CASCADE_WIDTHS 20
#define CASCADE_TABLE_BYTES 32768

/* refusal is 0 where the job was accepted, else
 *   1  n, m, k or l out of range          2  the order is not each variable once
 *   3  length of the sheet                4  bits or kind of a record
 *   5  two records of one kind contradict each other, also where a stop record would decide
 *   6  an output stands above an input on which it depends
 *   7  over 512 columns at some height    8  no cut list meets k and l
 *   9  nodes shorter than 3 words a node  10 records shorter than 4 x (n + m)
 *   11 rows shorter than 2 bytes a row
 * The lowest wins; then the other fields are 0. An output depends on an input where two words that differ in that input
 * alone give it different values among 0, 1 and free; that a record tests the input is no dependence. */
typedef struct {
    uint8_t refusal;
    uint16_t nodes;
    uint8_t cells;
    uint16_t rows;
    uint32_t bits;
} cascade_totals;

/* The compiler. On acceptance
 *   nodes    holds 3 words for each node: height, child for 0, child for 1; child 0 is constant 0, child 1 constant 1, and
 *            the first node is number 2;
 *   records  holds n + m records of 4 bytes: variable, 1 if a cut lies directly below, rails at that cut, 0;
 *   rows     holds the rows of all cells, top cell first, CASCADE_ROW_SIZE bytes each, low byte first: the field rows of
 *            the answer is their number, so CASCADE_ROW_SIZE times as many bytes are written. In a memory of odd length
 *            the last byte is no room for a row;
 *   widths   holds the widths at the heights 0 to n + m - 1, then zeros.
 * nodes, records and rows keep what lies past the part written. Time: that of cascade_sheet_table; at each of the n + m
 * heights up to the square of its columns, of which there are at most 512; then the rows x m. */
#define CASCADE_COMPILE_STACK 524288
cascade_totals cascade_compile(size_t n, size_t m, size_t k, size_t l,
                               const uint8_t *order, size_t order_length,
                               const uint8_t *sheet, size_t sheet_length,
                               uint16_t *nodes, size_t nodes_length,
                               uint8_t *records, size_t records_length,
                               uint8_t *rows, size_t rows_length,
                               uint16_t widths[CASCADE_WIDTHS]);

/* The least of refusals 1 to 6 of a job and its sheet; 0 where there is none. It makes the table for itself. Time: that of
 * cascade_sheet_table. */
#define CASCADE_SHEET_REFUSAL_STACK 65536
uint8_t cascade_sheet_refusal(size_t n, size_t m, size_t k, size_t l,
                              const uint8_t *order, size_t order_length,
                              const uint8_t *sheet, size_t sheet_length);

/* The same. Where it is 0, table holds at its front m lines of 2^n values: 0, 1, or 2 for free. The lines go up the order,
 * whatever the outputs' numbers: line 0 is that of the output that stands lowest in the order, the last one, and line i that
 * of the output with i outputs below it. The place in a line is the inputs read down the order, topmost most significant.
 * What lies past the lines is kept. Time: grows with the square of the number of records, with records x 2^n and with
 * n x 2^n. */
#define CASCADE_SHEET_TABLE_STACK 16384
uint8_t cascade_sheet_table(size_t n, size_t m, size_t k, size_t l,
                            const uint8_t *order, size_t order_length,
                            const uint8_t *sheet, size_t sheet_length,
                            uint8_t table[CASCADE_TABLE_BYTES]);

/* The reduction alone: the least of refusals 1 to 7, or 0 and the number of nodes; then widths and words are written as
 * cascade_compile writes widths and nodes, save that widths past n + m - 1 are kept. Time: as cascade_compile, without rows. */
#define CASCADE_REDUCE_STACK 458752
typedef struct {
    uint8_t refusal;
    uint16_t nodes;
} cascade_reduction;

cascade_reduction cascade_reduce(size_t n, size_t m, size_t k, size_t l,
                                 const uint8_t *order, size_t order_length,
                                 const uint8_t *sheet, size_t sheet_length,
                                 uint16_t widths[CASCADE_WIDTHS],
                                 uint16_t words[CASCADE_NODE_WORDS]);

/* Walks over the diagram. words are CASCADE_NODE_WORDS words as cascade_reduce and cascade_compile write them. A node is
 * its number: 0 and 1 are the constants, 2 is the first node, and a number over 10,241 has the children 0.
 * CASCADE_WALK_STACK is for each of the four. Time: cascade_walk and cascade_descent take a turn a height; the comparisons
 * go down both children and stop where they differ, so they take up to 2^height turns. */
#define CASCADE_WALK_STACK 8192

/* Where a walk from node at height ends: it goes from a node to a child, one height down, until height 0 or a constant.
 * Bit h - 1 of bits is the value of the variable at height h, input or output; for heights over 32 it is 0. */
uint16_t cascade_walk(const uint16_t words[CASCADE_NODE_WORDS], uint32_t bits, uint8_t height, uint16_t node);

/* The columns of nodes v and u at one height are the same; are compatible. For a height over 20 both answer false. */
bool cascade_same_columns(const uint16_t words[CASCADE_NODE_WORDS], uint8_t height, uint16_t v, uint16_t u);
bool cascade_compatible_columns(const uint16_t words[CASCADE_NODE_WORDS], uint8_t height, uint16_t v, uint16_t u);

/* From node at the cut top down to the cut bottom, or to a constant above it: the node reached, and the outputs met,
 * topmost most significant, 0 where both values are allowed. inputs holds the values of the count inputs between, topmost
 * most significant. From a top over 20 the walk stays at node and meets no output. */
typedef struct {
    uint16_t node;
    uint32_t outputs;
} cascade_reached;

cascade_reached cascade_descent(const uint16_t words[CASCADE_NODE_WORDS],
                                const uint8_t *order, size_t order_length,
                                uint8_t top, uint8_t bottom,
                                uint16_t node, uint16_t inputs, uint8_t count);

/* The value of row i of row bytes. */
#define CASCADE_ROW(rows, i) ((uint16_t)((rows)[2 * (size_t)(i)] | (rows)[2 * (size_t)(i) + 1] << 8))

/* Which outputs of a stored cascade are certain where only some inputs are known, as when a sensor's cable is cut. records and
 * rows are those of one cascade, as cascade_compile writes them or as a fitter patched them, with no byte more. Bit i of known
 * says that input i is known, and bit i of word is then its value; bits of unknown inputs in word, bits above 11 and inputs that
 * the cascade lacks have no effect. Answers 0, and outputs[o] is 0 or 1 where every filling of the unknown inputs makes the
 * cascade emit that value, else CASCADE_UNKNOWN, which an output that the cascade lacks always is; or 12 where the cascade is
 * not well formed, and then outputs are as they were. Learning one more input never turns a 0 or 1 into anything else. Time:
 * grows with records and rows, for all are tested; of a cell only rows that agree with what is known are read again. */
#define CASCADE_OUTPUTS 8
#define CASCADE_UNKNOWN 2
#define CASCADE_KNOWN_STACK 8192
uint8_t cascade_known(const uint8_t *records, size_t records_length,
                      const uint8_t *rows, size_t rows_length,
                      uint16_t known, uint16_t word,
                      uint8_t outputs[CASCADE_OUTPUTS]);

/* Moves a stored cascade with one byte a row, as every cascade had it before the row memory became 16 bits wide, to two
 * bytes a row: records are copied to the front of to_records, and each row byte is followed by a 0 at the front of to_rows;
 * both keep what lies past the part written. Answers 0, or
 *   12 records and rows are not well formed by the rules for one byte a row: cells of at most 8 outputs, as many bytes as
 *      rows, each below 2^outputs
 *   10 to_records shorter than records               11 to_rows shorter than 2 bytes a row
 * and then nothing changes. The first that holds in this order is answered. What is moved is well formed by the rules of
 * today and emits the same outputs for every word, so a bank admits it as it is. CASCADE_MOVE_STACK is for both
 * ways. Time: grows with records and rows. */
#define CASCADE_MOVE_STACK 4096
uint8_t cascade_widen(const uint8_t *records, size_t records_length,
                      const uint8_t *rows, size_t rows_length,
                      uint8_t *to_records, size_t to_records_length,
                      uint8_t *to_rows, size_t to_rows_length);

/* The way back, from two bytes a row to one, for a panel with the narrow memory. Answers 0, or
 *   12 records and rows are not well formed          10 to_records shorter than records
 *   11 to_rows shorter than a byte a row             15 some cell has more than 8 outputs, rails counted
 * and then nothing changes. The first that holds in this order is answered. Up and back returns the bytes that were there,
 * and so does back and up, wherever the way back answers 0. */
uint8_t cascade_narrow(const uint8_t *records, size_t records_length,
                       const uint8_t *rows, size_t rows_length,
                       uint8_t *to_records, size_t to_records_length,
                       uint8_t *to_rows, size_t to_rows_length);

/* The bank holds up to 8 blocks (a block is the records and rows of one cascade), and the scan state says how far a scan
 * has come and which outputs are set. Both are bytes that the caller keeps and lends to each call, with the row memory;
 * nobody else may write them between calls. Whatever they hold, a call reads and writes nothing but what it is lent: every
 * call but the first answers 12 where the bank holds an S out of range, more than 8 blocks, a block that is not well formed
 * or has a wrong period or phase, in some scan more due cells than S, or over 32,768 rows; where the scan state has a number
 * above 7; or where a scan runs and its block, cell or rail word is none of those held, or its block is not due.
 *
 * Scans are numbered 0 to 7 and round again, one number for each accepted latch; the first after an accepted admission, and
 * of a new bank, is 0. A block has a period of 1, 2, 4 or 8 and a phase below it, and is due in the scans whose number leaves
 * the phase as remainder by the period. A scan reads the cells of the due blocks alone; a block that is not due keeps its
 * word and its outputs from its last due scan.
 *
 *   bank   0-1  S, low byte first     2  blocks held      3-10  the number of records of each place
 *          11   the records, 80 bytes a place             651-658, 659-666  the period and the phase of each place
 *   scan   0    not 0 while a scan has reads left         1, 2  block and cell of the next read
 *          3-4  its rail word         5-20  the words, two bytes each, low byte first
 *          21   the outputs, 8 bytes a place: 0 or 1 where set, else CASCADE_NOT_SET
 *          85   the number of the scan that runs or ran last; 7 before the first
 *
 * Nothing in them says how many bytes a row has: a bank filled when rows had one byte must be made anew, for a step would
 * read wrong rows.
 *
 * CASCADE_BANK_STACK is for each of the five. Time: each call but the first tests the records of all blocks held, at most
 * 160, and keeps nothing of it for the next; the rows held are not tested again. An admission grows besides with the rows of
 * the block, which it tests and copies. A step reads one row. */
#define CASCADE_PLACES 8
#define CASCADE_BANK_BYTES 667
#define CASCADE_SCAN_BYTES 86
#define CASCADE_NOT_SET 2
#define CASCADE_BANK_STACK 8192
#define CASCADE_OUTPUT(scan, place, output) ((scan)[21 + 8 * (size_t)(place) + (size_t)(output)])

/* A new bank with the scan limit s, 1 to 255, and its fresh scan state. Answers 0, or 1 where s is out of range, and then
 * both are as they were. */
uint8_t cascade_bank_new(size_t s, uint8_t bank[CASCADE_BANK_BYTES], uint8_t scan[CASCADE_SCAN_BYTES]);

/* Admits a block that is read in the scans that its period and phase name: copies its records into the bank and appends its
 * rows to the row memory, two bytes a row in both. All set outputs are cleared, no scan runs, and the next one is number 0.
 * A block with one byte a row is not well formed, 12: cascade_widen makes it one. Answers 0, or
 *   12 bank, scan state or block not well formed          16 period not 1, 2, 4 or 8, or phase not below it
 *   13 8 blocks are held                                  14 in some scan of the eight the due cells would exceed S
 *   11 row memory short, or over 32,768 rows in all
 * and then nothing changes. The first that holds in this order is answered. */
uint8_t cascade_admit_every(uint8_t bank[CASCADE_BANK_BYTES], uint8_t scan[CASCADE_SCAN_BYTES],
                            const uint8_t *records, size_t records_length,
                            const uint8_t *block_rows, size_t block_rows_length,
                            size_t period, size_t phase,
                            uint8_t *rows, size_t rows_length);

/* The same with period 1 and phase 0: the block is read in every scan. */
uint8_t cascade_admit(uint8_t bank[CASCADE_BANK_BYTES], uint8_t scan[CASCADE_SCAN_BYTES],
                      const uint8_t *records, size_t records_length,
                      const uint8_t *block_rows, size_t block_rows_length,
                      uint8_t *rows, size_t rows_length);

/* Latches eight words, one for each place, and starts the scan with the next number: blocks that are due take their word, and
 * their set outputs are cleared; the others keep both. Bits above 11, and words for places that are not held or not due,
 * have no effect. With nothing due there is nothing to read. Answers 0, or 12 and nothing changes. */
uint8_t cascade_latch(const uint8_t bank[CASCADE_BANK_BYTES], uint8_t scan[CASCADE_SCAN_BYTES],
                      const uint16_t words[CASCADE_PLACES]);

/* What a step answers: kinds, for the field kind alone. CASCADE_REFUSED is no number of a refusal. */
#define CASCADE_IDLE 0    /* no scan, or all cells are read */
#define CASCADE_WENT 1    /* a cell was read: block and cell, counted from 0 */
#define CASCADE_REFUSED 2 /* refusal is 12, or 11 where the row memory is shorter than 2 bytes for each row held */
typedef struct {
    uint8_t kind;
    uint8_t block;
    uint8_t cell;
    uint8_t refusal;
} cascade_step_answer;

/* Moves the scan on by one read of the row memory: the outputs of the cell that is read become set, and no others. Unless
 * it went nothing changes. */
cascade_step_answer cascade_step(const uint8_t bank[CASCADE_BANK_BYTES], uint8_t scan[CASCADE_SCAN_BYTES],
                                 const uint8_t *rows, size_t rows_length);

#ifdef __cplusplus
}
#endif

#endif
