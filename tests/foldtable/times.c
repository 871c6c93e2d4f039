/*
 * Times CrystalFold's fold of two libraries by turns, on the same cells: of the sources as they are, and of a test copy whose known table has four
 * times the entries. `run` makes both, and names the fold of the one fold_plain, of the other fold_fourfold.
 */
#include <stdio.h>
#include <stdlib.h>
#include <string.h>
#include <time.h>

#include "matchdesk.h"

/* The cells of a row: as many instructions as a function may have. */
#define CELLS MATCHDESK_MAX_INSTRUCTIONS
/* The fold of loads may take as many times as long with the longer table. */
#define MOST 2.0

typedef size_t fold_of(unsigned char *instrs, size_t length);

fold_of fold_plain, fold_fourfold;

static fold_of *const folds_of[2] = {fold_plain, fold_fourfold};

static unsigned char cells[CELLS * MATCHDESK_CELL], work[2][sizeof cells];

static void put(unsigned char *c, size_t at, size_t half)
{
    c[at] = (unsigned char)half;
    c[at + 1] = (unsigned char)(half >> 8);
}

static unsigned char *cell(size_t i, unsigned char command)
{
    unsigned char *c = cells + i * MATCHDESK_CELL;
    memset(c, 0, MATCHDESK_CELL);
    c[0] = command;
    return c;
}

static void load_i32(size_t i, size_t dst)
{
    unsigned char *c = cell(i, 0x2B);
    put(c, 1, dst);
    put(c, 3, i);
}

static void add_i32(size_t i, size_t dst, size_t lhs, size_t rhs)
{
    unsigned char *c = cell(i, 0x13);
    put(c, 1, dst);
    put(c, 3, lhs);
    put(c, 5, rhs);
}

static void label(size_t i)
{
    put(cell(i, 0x0A), 1, i);
}

/* The rows. */
static void loads(void)
{
    for (size_t i = 0; i < CELLS; i++)
        load_i32(i, 1);
}

static void loads_into_all(void)
{
    for (size_t i = 0; i < CELLS; i++)
        load_i32(i, i % MATCHDESK_REGISTERS);
}

static void folds(void)
{
    load_i32(0, 0);
    for (size_t i = 1; i < CELLS; i++)
        add_i32(i, i % MATCHDESK_REGISTERS, 0, 0);
}

static void labels(void)
{
    for (size_t i = 0; i < CELLS; i++)
        label(i);
}

/* a label after every n loads */
static void blocks(size_t n)
{
    for (size_t i = 0; i < CELLS; i++)
        if (i % (n + 1) == n)
            label(i);
        else
            load_i32(i, i % MATCHDESK_REGISTERS);
}

static void blocks_of_1(void) { blocks(1); }
static void blocks_of_7(void) { blocks(7); }
static void blocks_of_63(void) { blocks(63); }
static void blocks_of_255(void) { blocks(255); }
static void blocks_of_256(void) { blocks(256); }

/* functions of one load: a head before each */
static void functions_of_one(void)
{
    for (size_t i = 0; i < CELLS; i++)
        if (i % 2)
            load_i32(i, i % MATCHDESK_REGISTERS);
        else
            put(cell(i, 0xF0), 3, 1);
}

/* The first row is the one that is judged. */
static const struct {
    const char *name;
    void (*make)(void);
    size_t folds;
} rows[] = {
    {"loads into one register", loads, 0},
    {"loads into all registers", loads_into_all, 0},
    {"a load and folds", folds, CELLS - 1},
    {"labels", labels, 0},
    {"a label after each load", blocks_of_1, 0},
    {"a label after 7 loads", blocks_of_7, 0},
    {"a label after 63 loads", blocks_of_63, 0},
    {"a label after 255 loads", blocks_of_255, 0},
    {"a label after 256 loads", blocks_of_256, 0},
    {"functions of one load", functions_of_one, 0},
};

static double now(void)
{
    struct timespec t;
    clock_gettime(CLOCK_MONOTONIC, &t);
    return 1e9 * (double)t.tv_sec + (double)t.tv_nsec;
}

int main(int arguments, char **argument)
{
    long rounds = arguments == 2 ? atol(argument[1]) : 0;
    if (rounds < 1) {
        fprintf(stderr, "times ROUNDS\n");
        return 2;
    }
    double judged[2] = {0, 0};
    printf("| %d cells | %d entries | %d entries | ratio |\n|---|---|---|---|\n", CELLS, MATCHDESK_REGISTERS, 4 * MATCHDESK_REGISTERS);
    for (size_t row = 0; row < sizeof rows / sizeof *rows; row++) {
        double least[2] = {1e18, 1e18};
        rows[row].make();
        for (long round = 0; round < rounds; round++) {
            for (int turn = 0; turn < 2; turn++) {
                int k = (int)(round % 2) ^ turn;
                memcpy(work[k], cells, sizeof cells);
                double began = now();
                size_t count = folds_of[k](work[k], sizeof cells);
                double took = now() - began;
                if (took < least[k])
                    least[k] = took;
                if (count != rows[row].folds) {
                    fprintf(stderr, "foldtable: %zu folds in '%s'\n", count, rows[row].name);
                    return 2;
                }
            }
            if (memcmp(work[0], work[1], sizeof cells) != 0) {
                fprintf(stderr, "foldtable: '%s' is folded in two ways\n", rows[row].name);
                return 2;
            }
        }
        if (row == 0)
            memcpy(judged, least, sizeof judged);
        printf("| %s | %.0f | %.0f | %.2f |\n", rows[row].name, least[0], least[1], least[1] / least[0]);
    }
    int holds = judged[1] <= MOST * judged[0];
    printf("%d loads without a barrier: %.0f ns, and %.0f ns with a table of four times the entries; the ratio is %.2f, %s\n", CELLS, judged[0],
        judged[1], judged[1] / judged[0], holds ? "at most 2, as it must be" : "and must be at most 2");
    return holds ? 0 : 1;
}
