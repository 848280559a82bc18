/* Calls each export of the library from C: the matrix 4, -2; -2, 2. */
#include "../include/multigrid.h"

#include <stdio.h>
#include <string.h>

static int failures;

static void expect(int holds, const char *call) {
    if (!holds) {
        fprintf(stderr, "%s answers something else from C\n", call);
        failures++;
    }
}

enum { WORDS = 256, FLOATS = 512, RECORDS = 2 };

static const uint32_t offsets[3] = {0, 2, 4}, columns[4] = {0, 1, 0, 1};
static const double values[4] = {4, -2, -2, 2}, weights[4] = {0, 1, 1, 0};
static uint32_t words[WORDS];
static double floats[FLOATS];
static struct multigrid_level_statistics statistics[RECORDS];

static struct multigrid_options controls(void) {
    struct multigrid_options options = multigrid_default_options();
    options.max_levels = RECORDS;
    return options;
}

static struct multigrid_built with_values(struct multigrid_options options) {
    return multigrid_new(2, offsets, 3, columns, 4, values, 4, options, words, WORDS, floats, FLOATS, statistics, RECORDS);
}

static struct multigrid_built with_weights(struct multigrid_options options, size_t count) {
    return multigrid_new_with_face_weights(2, offsets, 3, columns, 4, values, 4, weights, count, options, words, WORDS,
                                           floats, FLOATS, statistics, RECORDS);
}

/* The defaults, and what question 9 asks for two levels of 2 rows and 4 entries. */
static void sizes(void) {
    struct multigrid_options options = multigrid_default_options();
    expect(options.smoother == MULTIGRID_DIC_GAUSS_SEIDEL && options.residual_norm == MULTIGRID_NORMALIZED_L1 &&
               options.pre_sweeps == 0 && options.post_sweeps == 2 && options.finest_sweeps == 1 &&
               options.sweep_level_multiplier == 1 && options.max_sweeps == 4 && options.coarsest_cells == 10 &&
               options.max_levels == 64 && options.merge_levels == 2 && options.krylov_dimension == 4 &&
               options.coarse_solver == MULTIGRID_CHOLESKY && options.coarse_absolute_tolerance == 1e-12 &&
               options.coarse_relative_tolerance == 0.01 && options.coarse_max_iterations == 500 &&
               options.scale_correction == 1 && options.max_aggregate_cells == 0,
           "multigrid_default_options");
    struct multigrid_charge charge = multigrid_charge(2, 4, options, 2);
    expect(charge.words == 16 * 2 + 12 * 4 + 64 + 2 * (5 * 2 + 4 * 4 + 8) &&
               charge.floats == 20 * 2 + 8 * 4 + 100 + 2 * (20 * 2 + 4 * 4) && charge.statistics == 64,
           "multigrid_charge");
    charge = multigrid_charge(UINT64_MAX, 4, options, 2);
    expect(charge.words == UINT64_MAX && charge.floats == UINT64_MAX, "multigrid_charge");
}

static void builds(void) {
    struct multigrid_options options = controls();
    memset(statistics, 9, sizeof statistics);
    /* One level: its words are 2, 1, 2 and the offsets, its floats the values first. */
    struct multigrid_built built = with_values(options);
    expect(built.answer.question == MULTIGRID_DONE && built.hierarchy.levels == 1 && built.hierarchy.rows == 2 &&
               built.hierarchy.entries == 4 && built.hierarchy.options.max_levels == RECORDS && words[0] == 2 &&
               words[1] == 1 && words[2] == 2 && words[5] == 4 && floats[1] == -2 && statistics[0].cells == 2 &&
               statistics[0].visits == 0 && statistics[1].cells == 0 && statistics[1].coarse_iterations == 0,
           "multigrid_new");
    /* Two levels, the second of one row: 4 - 2 - 2 + 2. */
    options.coarsest_cells = 1;
    built = with_weights(options, 4);
    expect(built.answer.question == MULTIGRID_DONE && built.hierarchy.levels == 2 && words[1] == 0 &&
               statistics[0].cells == 2 && statistics[1].cells == 1,
           "multigrid_new_with_face_weights");
    /* One weight too few. */
    built = with_weights(options, 3);
    expect(built.answer.question == MULTIGRID_WEIGHT_COUNT && built.answer.level == 0 && built.answer.row == 0 &&
               built.hierarchy.levels == 0 && words[0] == 0 && floats[0] == 0 && statistics[0].cells == 0,
           "multigrid_new_with_face_weights");
    /* Numbers that are no enum's, and no yes or no. */
    options = controls();
    options.smoother = 3;
    expect(with_values(options).answer.question == MULTIGRID_INVALID_CONTROLS, "multigrid_new");
    options = controls();
    options.scale_correction = 2;
    expect(with_values(options).answer.question == MULTIGRID_INVALID_CONTROLS, "multigrid_new");
    /* A cap of 1 is none; one of 2 is. */
    options = controls();
    options.max_aggregate_cells = 1;
    expect(with_values(options).answer.question == MULTIGRID_INVALID_CONTROLS, "multigrid_new");
    options.max_aggregate_cells = 2;
    expect(with_values(options).answer.question == MULTIGRID_DONE, "multigrid_new");
}

/* The small press: built, solved, refreshed with four times the values, and solved again. */
static void later_calls(void) {
    const double fourfold[4] = {16, -8, -8, 8}, rhs[2] = {2, 0};
    double x[2] = {0, 0};
    struct multigrid_options options = controls();
    options.residual_norm = MULTIGRID_ABSOLUTE_L2;
    options.krylov_dimension = 0;
    struct multigrid_hierarchy h = with_values(options).hierarchy;
    struct multigrid_report report =
        multigrid_solve(h, words, WORDS, floats, FLOATS, statistics, RECORDS, rhs, 2, x, 2, 0, 0.5, 5);
    expect(report.answer.question == MULTIGRID_DONE && report.converged == 1 && report.iterations == 1 &&
               report.initial_residual == 2 && report.final_residual == 0 && report.relative_residual == 0 &&
               x[0] == 1 && x[1] == 1,
           "multigrid_solve");
    /* Behind the four values of the level, which are scratch, stand its coefficient and its diagonal. */
    struct multigrid_answer answer = multigrid_update_values(h, offsets, 3, columns, 4, fourfold, 4, words, WORDS, floats,
                                                             FLOATS, statistics, RECORDS);
    expect(answer.question == MULTIGRID_DONE && floats[4] == -8 && floats[5] == 16 && floats[6] == 8,
           "multigrid_update_values");
    x[0] = x[1] = 0;
    report = multigrid_solve(h, words, WORDS, floats, FLOATS, statistics, RECORDS, rhs, 2, x, 2, 0, 0.5, 5);
    expect(report.answer.question == MULTIGRID_DONE && x[0] == 0.25 && x[1] == 0.25, "multigrid_solve");
    struct multigrid_count count = multigrid_statistics(h, words, WORDS, floats, FLOATS, statistics, RECORDS);
    expect(count.answer.question == MULTIGRID_DONE && count.levels == 1 && statistics[0].visits == 2,
           "multigrid_statistics");
    /* A handle of more levels than there are, and one whose controls are none. */
    struct multigrid_hierarchy wild = h;
    wild.levels = 2;
    count = multigrid_statistics(wild, words, WORDS, floats, FLOATS, statistics, RECORDS);
    expect(count.answer.question == MULTIGRID_UNSOUND_STORES && count.levels == 0, "multigrid_statistics");
    wild = h;
    wild.options.residual_norm = 2;
    report = multigrid_solve(wild, words, WORDS, floats, FLOATS, statistics, RECORDS, rhs, 2, x, 2, 0, 0.5, 5);
    expect(report.answer.question == MULTIGRID_UNSOUND_STORES && report.iterations == 0 && x[0] == 0.25, "multigrid_solve");
}

/* The load of seed 1 on two cells by two, and two that are refused, which leave what was there. */
static void loads(void) {
    const uint32_t due[5] = {0, 3, 6, 9, 12};
    uint32_t starts[5], places[12];
    double found[12];
    struct multigrid_loaded loaded = multigrid_load(1, 2, 2, 1, starts, 5, places, 12, found, 12);
    expect(loaded.answer.question == MULTIGRID_DONE && loaded.rows == 4 && loaded.entries == 12 &&
               memcmp(starts, due, sizeof due) == 0 && places[11] == 3 && found[0] == 135 && found[11] == 595,
           "multigrid_load");
    loaded = multigrid_load(0, 2, 2, 1, starts, 5, places, 12, found, 12);
    expect(loaded.answer.question == MULTIGRID_BAD_LOAD && loaded.rows == 0 && loaded.entries == 0, "multigrid_load");
    loaded = multigrid_load(7, 2, 2, 1, starts, 5, places, 11, found, 12);
    expect(loaded.answer.question == MULTIGRID_BAD_LOAD && loaded.answer.level == 0 && found[0] == 135, "multigrid_load");
}

int main(void) {
    sizes();
    builds();
    later_calls();
    loads();
    return failures != 0;
}
