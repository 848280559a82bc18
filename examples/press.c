/* A drum with nothing in it, which is solved at once; then the pressure on a load of 32 by 32 cells, seed 1: built once, refreshed for
 * ten steps with stronger coupling each time, and solved for what is pushed in at the middle. cc -o target/press examples/press.c target/staticlib/libmultigrid_c.a */
#include "../include/multigrid.h"
#include <inttypes.h>
#include <stdio.h>
#include <stdlib.h>

enum { SIDE = 32, CELLS = SIDE * SIDE, MIDDLE = CELLS / 2 + SIDE / 2, STEPS = 10 };

static uint32_t offsets[CELLS + 1], columns[5 * CELLS];
static double load[5 * CELLS], values[5 * CELLS], rhs[CELLS], x[CELLS];

static int refused(const char *call, struct multigrid_answer a) {
    if (a.question != MULTIGRID_DONE)
        printf("%s is refused: %s (level %" PRIu64 ", row %" PRIu64 ")\n", call, multigrid_sentence(a.question), a.level, a.row);
    return a.question != MULTIGRID_DONE;
}

int main(void) {
    struct multigrid_loaded l = multigrid_load(1, SIDE, SIDE, 1, offsets, CELLS + 1, columns, 5 * CELLS, load, 5 * CELLS);
    if (refused("the load", l.answer)) return 1;
    size_t entries = l.entries;
    struct multigrid_options options = multigrid_default_options();
    struct multigrid_charge c = multigrid_charge(CELLS, entries, options, options.max_levels);
    uint32_t *words = calloc(c.words, sizeof *words);
    double *floats = calloc(c.floats, sizeof *floats);
    struct multigrid_level_statistics *statistics = calloc(c.statistics, sizeof *statistics);
    if (!words || !floats || !statistics) return 2;
    struct multigrid_built b = multigrid_new(0, offsets, 1, columns, 0, load, 0, options, words, c.words, floats, c.floats, statistics, c.statistics);
    struct multigrid_report r = multigrid_solve(b.hierarchy, words, c.words, floats, c.floats, statistics, c.statistics, rhs, 0, x, 0,
                                                1e-10, 1e-8, 1000);
    if (refused("the empty drum", b.answer) || refused("its solve", r.answer)) return 1;
    printf("empty: %" PRIu64 " iterations on %" PRIu64 " levels, residual %g\n", r.iterations, b.hierarchy.levels, r.final_residual);
    b = multigrid_new(CELLS, offsets, CELLS + 1, columns, entries, load, entries, options, words, c.words, floats, c.floats, statistics,
                      c.statistics);
    int bad = refused("the build", b.answer);
    for (int step = 1; step <= STEPS && !bad; step++) {
        for (size_t k = 0; k < entries; k++) values[k] = (1 + 0.5 * step) * load[k];
        bad = refused("the refresh", multigrid_update_values(b.hierarchy, offsets, CELLS + 1, columns, entries, values, entries, words,
                                                             c.words, floats, c.floats, statistics, c.statistics));
    }
    rhs[MIDDLE] = 1000;
    r = multigrid_solve(b.hierarchy, words, c.words, floats, c.floats, statistics, c.statistics, rhs, CELLS, x, CELLS, 1e-10, 1e-8, 1000);
    if (!bad && !(bad = refused("the solve", r.answer)))
        printf("%s after %" PRIu64 " iterations on %" PRIu64 " levels, pressure in the middle %.6f\n",
               r.converged ? "converged" : "iterations used up", r.iterations, b.hierarchy.levels, x[MIDDLE]);
    free(words), free(floats), free(statistics);
    return bad;
}
