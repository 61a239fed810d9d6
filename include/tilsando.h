/* Tilsando, the tape maker for invoice flows. Link libtilsando.a (make lib). docs/FLOWS.md says what a flow is, with T, N, P and M.
 * A program that asks for a report, and prints 2, the distance of exit p of instruction 2:
 *
 *    #include <stdio.h>
 *    #include "tilsando.h"
 *    static uint32_t cells[4096][TILSANDO_CELL_WORDS], p[64], m[64];
 *    static uint8_t text[] = "flow,1,0,1\n1,read,1,1,2,3\n2,over,5,1,1,3\n3,stop\n", two[64];
 *    int main(void) {
 *        uint64_t answer[TILSANDO_REPORT_SIZE];
 *        if (tilsando_report(text, sizeof text - 1, cells, 4096, two, 64, p, 64, m, 64, answer, TILSANDO_REPORT_SIZE) != 0)
 *            return 1;
 *        printf("%u\n", (unsigned)p[2 - 1]);
 *    }
 *
 * ROWS. A row is passed as a pointer to its first element and the number of its elements. The caller owns every row and lends it for the
 * length of the call. A `const` row is only read. A row that is written must not overlap another row of the call. A pointer must be
 * aligned for its type and must not be null. This holds for a row of no elements too; nothing is read or written there.
 *
 * TEXT. A text of no bytes is a flow: T = 1, no outputs, one variable and the single instruction `stop`. Pass text_len 0 and any pointer
 * that is not null; it is not read. If a text could not be read, do not call: a length of 0 means this flow.
 *
 * Every function answers for every text, number and row. It keeps no state, allocates no memory and prints nothing.
 *
 * RETURN VALUE. 0 is an answer. Any other value is a refusal, place * 256 + number (TILSANDO_PLACE, TILSANDO_NUMBER). A refusal leaves
 * every row as it was, except the cells. The numbers, with their places:
 *    1 text of more than 4,096 bytes    0      10 row shorter than the distance      0
 *    3 text has bytes, the last not 10  0      11 no such instruction, or it has
 *    5 number outside its range         line      no two exits                       0
 *    6 instruction number out of turn   line   12 not T lengths, or they do not add
 *    7 N, P or M names no instruction   line      up to the row of records           0
 *    8 line 66 exists, or only line 1   66, 2  13 unknown or missing word: `1,halt`  line
 *    9 too few cells                    0      14 wrong count of fields: `1,nop`     line
 *                                              15 badly written number: `1,nop,-1`   line
 * No refusal has number 2 or 4. 7 names the lowest such line. In one line the faults are looked for in the order 13, 14, 15, 6, 5.
 *
 * RESULT ROWS are two, p, m and answer. Each may have any length. If it is shorter than its values, only the first values are written.
 * If it is longer, the elements past the values stay as they were. In two, p and m element i belongs to instruction i + 1; there are 64
 * values, and those past the last instruction are 0.
 *
 * CELLS hold the search, one configuration to a cell. At most 65,536 of them are used; tilsando_bound says how many are enough. Their
 * contents before the call do not matter. A refusal leaves 0 in every word of every cell, also past 65,536. After an answer they hold
 * nothing of use. */
#ifndef TILSANDO_H
#define TILSANDO_H

#include <stddef.h>
#include <stdint.h>

#ifdef __cplusplus
extern "C" {
#endif

/* The version of this interface. It rises by 1 with each change after which a program must be changed or compiled anew. */
#define TILSANDO_VERSION 5

/* The limits: bytes of a text; instructions, input tapes, output tapes and variables of a flow; constants; steps of a run; cells used. */
#define TILSANDO_BYTES 4096
#define TILSANDO_INSTRUCTIONS 64
#define TILSANDO_TAPES 3
#define TILSANDO_OUTPUTS 3
#define TILSANDO_VARIABLES 4
#define TILSANDO_LEAST_CONSTANT (-9999)
#define TILSANDO_GREATEST_CONSTANT 9999
#define TILSANDO_STEPS 1000000
#define TILSANDO_CELLS 65536

/* The words of a cell. */
#define TILSANDO_CELL_WORDS 10

/* The number and the place of a refusal, from the value returned. */
#define TILSANDO_NUMBER(returned) ((returned) % 256)
#define TILSANDO_PLACE(returned) ((returned) / 256)

/* The row `answer` of tilsando_run: which value stands where, and how many there are. */
#define TILSANDO_RUN_END 0
#define TILSANDO_RUN_STEPS 1
#define TILSANDO_RUN_PUTS 2
#define TILSANDO_RUN_SIZE 3

/* How a run ended: answer[TILSANDO_RUN_END]. Before each step the three are looked at in this order: the next instruction is `stop`,
 * which is no step (STOPPED); the limit is used (SPENT); the next instruction is a `put`, and no element is free (FULL). */
#define TILSANDO_STOPPED 1
#define TILSANDO_SPENT 2
#define TILSANDO_FULL 3

/* Runs a flow.
 *   text            the flow, in bytes
 *   limit           the most steps; a limit above 1,000,000 counts as 1,000,000
 *   records         the records of all tapes, tape 1 first, one after another
 *   lengths         how many records each of the T tapes has
 *   numbers, values the outputs: put number i + 1 writes the number of its output tape into numbers[i] and its value into values[i].
 *                   Only as many elements are used as the shorter row has. Elements past the puts keep their values
 *   p, m            how often exit p and exit m were taken
 *   answer          how the run ended (TILSANDO_STOPPED, TILSANDO_SPENT or TILSANDO_FULL), the steps done, the puts done */
uint32_t tilsando_run(const uint8_t *text, size_t text_len, uint64_t limit,
    const int32_t *records, size_t records_len, const size_t *lengths, size_t lengths_len,
    uint8_t *numbers, size_t numbers_len, int32_t *values, size_t values_len,
    uint32_t *p, size_t p_len, uint32_t *m, size_t m_len, uint64_t *answer, size_t answer_len);

/* The row `answer` of tilsando_bound. */
#define TILSANDO_BOUND_CELLS 0
#define TILSANDO_BOUND_SIZE 1

/* Says from the text alone how many cells are enough: a bound on the reachable configurations, which is the number of instructions, times 2
 * to the power T, times the number of patterns (docs/FLOWS.md). With so many cells tilsando_report and tilsando_sample never return refusal 9; with a row of so many records as well,
 * tilsando_sample never returns 10.
 *   answer          the bound, from 1 to TILSANDO_CELLS. 0 says over: it exceeds TILSANDO_CELLS, and so many cells may or may not be enough */
uint32_t tilsando_bound(const uint8_t *text, size_t text_len, uint64_t *answer, size_t answer_len);

/* The row `answer` of tilsando_report. */
#define TILSANDO_REPORT_INSTRUCTIONS 0
#define TILSANDO_REPORT_CONFIGURATIONS 1
#define TILSANDO_REPORT_SIZE 2

/* Reports the distance of every exit: the least number of exits taken, over all tapes, up to and with it.
 *   two             1 if the instruction has two exits, else 0
 *   p, m            the distance of exit p and of exit m. 0 says none: no tapes take the exit. It is 0 too where `two` is 0
 *   answer          the number of instructions, the number of reachable configurations */
uint32_t tilsando_report(const uint8_t *text, size_t text_len,
    uint32_t (*cells)[TILSANDO_CELL_WORDS], size_t cells_len,
    uint8_t *two, size_t two_len, uint32_t *p, size_t p_len, uint32_t *m, size_t m_len, uint64_t *answer, size_t answer_len);

/* The row `answer` of tilsando_sample; the three lengths begin at TILSANDO_SAMPLE_LENGTHS. */
#define TILSANDO_SAMPLE_DISTANCE 0
#define TILSANDO_SAMPLE_TAPES 1
#define TILSANDO_SAMPLE_LENGTHS 2
#define TILSANDO_SAMPLE_SIZE 5

/* Writes a sample for one exit: tapes whose run takes it as exit number d, d being its distance, and which hold only the records read up to
 * there. To run a sample, pass the T lengths, and their sum as records_len; it takes the exit with a limit of TILSANDO_CELLS steps, if numbers
 * and values have TILSANDO_CELLS elements each, so that no put is without room before.
 *   instruction     the number of the instruction, counted from 1
 *   exit            0 for exit m, any other value for exit p
 *   row             gets the records of the tapes, tape 1 first, one after another. It needs as many elements as the distance. Elements
 *                   past the records keep their values, and all elements do if the distance is none
 *   answer          the distance, T, and how many records tape 1, 2 and 3 have: 0 for a tape that the flow does not have. If the
 *                   distance is none, all five values are 0 */
uint32_t tilsando_sample(const uint8_t *text, size_t text_len, uint64_t instruction, uint8_t exit,
    uint32_t (*cells)[TILSANDO_CELL_WORDS], size_t cells_len,
    int32_t *row, size_t row_len, uint64_t *answer, size_t answer_len);

/* The row `answer` of tilsando_tape. */
#define TILSANDO_TAPE_START 0
#define TILSANDO_TAPE_COUNT 1
#define TILSANDO_TAPE_SIZE 2

/* Says which elements of a row hold the records of one tape. It refuses nothing: it always returns 0.
 *   row             the records of all tapes, tape 1 first, one after another; only row_len matters
 *   lengths         how many records each tape has: for a sample, the T lengths
 *   tape            the number of the tape, counted from 1
 *   answer          the index of the tape's first element, and the number of its elements. Both are 0 for a tape that does not exist,
 *                   and if the lengths add up to more than row_len */
uint32_t tilsando_tape(const int32_t *row, size_t row_len, const size_t *lengths, size_t lengths_len, size_t tape,
    uint64_t *answer, size_t answer_len);

#ifdef __cplusplus
}
#endif

#endif
