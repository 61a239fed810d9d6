/* Prints how many cells the flow in a file takes at most, lends as many, and prints its report; then for each exit a sample, and whether the
 * run on its tapes takes the exit. A file without bytes is a flow, so one that cannot be read must not be taken for it. */
#include <inttypes.h>
#include <stdio.h>
#include <stdlib.h>
#include "tilsando.h"

#define CELLS TILSANDO_CELLS
#define EACH TILSANDO_INSTRUCTIONS
static uint8_t text[TILSANDO_BYTES + 1], two[EACH], numbers[CELLS];
static uint32_t (*cells)[TILSANDO_CELL_WORDS], p[EACH], m[EACH], taken_p[EACH], taken_m[EACH];
static size_t lent;
static int32_t row[CELLS], values[CELLS];
static uint64_t answer[TILSANDO_SAMPLE_SIZE];

static void print_exit(uint64_t i, char exit, uint32_t distance) {
    printf(distance ? "%" PRIu64 ",%c,%" PRIu32 "\n" : "%" PRIu64 ",%c,none\n", i, exit, distance);
}

/* The tapes one after another, as `(6,9)()`. */
static void try_exit(size_t n, uint64_t i, char exit) {
    uint32_t why = tilsando_sample(text, n, i, exit == 'p', cells, lent, row, CELLS, answer, TILSANDO_SAMPLE_SIZE);
    printf("sample,%" PRIu64 ",%c,", i, exit);
    uint64_t part[TILSANDO_TAPE_SIZE];
    if (why || !answer[TILSANDO_SAMPLE_DISTANCE]) {
        printf(why ? "refused,%" PRIu32 "\n" : "none\n", TILSANDO_NUMBER(why));
        return;
    }
    size_t tapes = answer[TILSANDO_SAMPLE_TAPES], lengths[TILSANDO_TAPES], total = 0;
    for (size_t a = 0; a < TILSANDO_TAPES; a++)
        total += lengths[a] = answer[TILSANDO_SAMPLE_LENGTHS + a];
    for (size_t tape = 1; tape <= tapes; tape++) {
        tilsando_tape(row, total, lengths, tapes, tape, part, TILSANDO_TAPE_SIZE);
        putchar('(');
        for (uint64_t k = 0; k < part[TILSANDO_TAPE_COUNT]; k++)
            printf(k ? ",%" PRId32 : "%" PRId32, row[part[TILSANDO_TAPE_START] + k]);
        putchar(')');
    }
    /* a sample takes its exit within as many steps as there are configurations, and so within as many as there can be cells, and with no more puts */
    why = tilsando_run(text, n, CELLS, row, total, lengths, tapes, numbers, CELLS, values, CELLS, taken_p, EACH, taken_m, EACH, answer,
        TILSANDO_RUN_SIZE);
    puts(!why && (exit == 'p' ? taken_p : taken_m)[i - 1] ? ",taken" : ",NOT TAKEN");
}

int main(int argc, char **argv) {
    FILE *file = argc == 2 ? fopen(argv[1], "rb") : NULL;
    size_t n = file ? fread(text, 1, sizeof text, file) : 0;
    if (!file || ferror(file))
        return fputs("the flow cannot be read\n", stderr), 2;
    uint32_t why = tilsando_bound(text, n, answer, TILSANDO_BOUND_SIZE);
    if (why)
        return printf("refused,%" PRIu32 ",%" PRIu32 "\n", TILSANDO_NUMBER(why), TILSANDO_PLACE(why)), 0;
    uint64_t bound = answer[TILSANDO_BOUND_CELLS];
    printf(bound ? "bound,%" PRIu64 "\n" : "bound,over\n", bound);
    lent = bound ? bound : CELLS;
    cells = malloc(lent * sizeof *cells);
    if (!cells)
        return fputs("the cells cannot be had\n", stderr), 2;
    why = tilsando_report(text, n, cells, lent, two, EACH, p, EACH, m, EACH, answer, TILSANDO_REPORT_SIZE);
    if (why)
        return printf("refused,%" PRIu32 ",%" PRIu32 "\n", TILSANDO_NUMBER(why), TILSANDO_PLACE(why)), 0;
    printf("report,%" PRIu64 ",%" PRIu64 "\n", answer[TILSANDO_REPORT_INSTRUCTIONS], answer[TILSANDO_REPORT_CONFIGURATIONS]);
    for (int i = 0; i < EACH; i++)
        if (two[i])
            print_exit(i + 1, 'p', p[i]), print_exit(i + 1, 'm', m[i]);
    for (int i = 0; i < EACH; i++)
        if (two[i])
            try_exit(n, i + 1, 'p'), try_exit(n, i + 1, 'm');
}
