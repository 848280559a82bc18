/* The calls of the multigrid library, for x86-64 Linux. All memory is lent by the caller: nothing is allocated, nothing is
 * kept between calls, and there is no state but what stands in the lent stores and in the structs below.
 *
 * What may be handed over. No call has a precondition on numbers: any lengths, arrays and structs may be given, and what does
 * not fit is refused by the number of a question (MULTIGRID_TOO_LARGE and so on below; docs/REFUSALS.md says what to do). What
 * the caller sees to is what C asks of every call:
 * - A slice is a pointer and a length. The length counts elements, not bytes; of statistics it counts records. A slice of
 *   length 0 may have any pointer that is not null.
 * - Pointers are aligned as their type is: 4 bytes for uint32_t, 8 bytes for double and the records.
 * - No slice that is written may overlap another slice of the call. Written are words, floats and statistics of a build, floats
 *   of an update, floats, statistics and x of a solve, offsets, columns and values of a load; the others are only read.
 * - Stores of one hierarchy are in one call at a time. Calls with stores of their own may run in any number of threads.
 * - The floating-point environment is the usual one of a C program: rounding to nearest, exceptions masked, subnormal numbers
 *   neither flushed to zero nor read as zero (no FTZ, no DAZ in MXCSR; -ffast-math may set them when it links a program).
 *
 * Structs have no padding, and every field has 8 bytes. */
#ifndef MULTIGRID_H
#define MULTIGRID_H

#define MULTIGRID_VERSION "0.1.0"

#include <stddef.h>
#include <stdint.h>

#ifdef __cplusplus
extern "C" {
#endif

/* ---- limits */

#define MULTIGRID_MOST_ROWS 65536          /* question 1 */
#define MULTIGRID_MOST_ENTRIES 1048576     /* question 1 */
#define MULTIGRID_MOST_LEVELS 128          /* question 6 */
#define MULTIGRID_MOST_SWEEPS 64           /* question 6 */
#define MULTIGRID_MOST_COARSEST_CELLS 256  /* question 6 */
#define MULTIGRID_MOST_MERGED 4            /* question 6 */
#define MULTIGRID_MOST_DIRECTIONS 16       /* question 6 */

/* ---- controls */

/* multigrid_options.smoother */
#define MULTIGRID_GAUSS_SEIDEL 0           /* forward sweeps */
#define MULTIGRID_SYMMETRIC_GAUSS_SEIDEL 1 /* each sweep forward, then backward */
#define MULTIGRID_DIC_GAUSS_SEIDEL 2       /* sweeps of a diagonal incomplete Cholesky factor, then as many Gauss-Seidel */

/* multigrid_options.residual_norm */
#define MULTIGRID_ABSOLUTE_L2 0            /* the root of the sum of squares */
#define MULTIGRID_NORMALIZED_L1 1          /* the sum of absolute values, by a normalization that a solve makes first */

/* multigrid_options.coarse_solver */
#define MULTIGRID_PCG_DIC 0                /* refused by question 7 */
#define MULTIGRID_CHOLESKY 1

/* The controls, each with its range, its meaning and, after the semicolon, its default. What is outside of its range is refused by
 * question 6. Start from multigrid_default_options(). */
struct multigrid_options {
    uint64_t smoother;                /* 0 to 2, as above; 2, DIC then Gauss-Seidel */
    uint64_t residual_norm;           /* 0 or 1, as above; 1, the normalized sum */
    uint64_t pre_sweeps;              /* 0 to max_sweeps: before a correction, of the level below the finest; 0, none anywhere */
    uint64_t post_sweeps;             /* 0 to max_sweeps: after a correction, of the level below the finest; 2 */
    uint64_t finest_sweeps;           /* 1 to 64: after the correction of the finest level, which has none before; 1 */
    uint64_t sweep_level_multiplier;  /* any: so many more on each level further down; 1 */
    uint64_t max_sweeps;              /* 1 to 64: no level below the finest makes more before or after; 4 */
    uint64_t coarsest_cells;          /* 1 to 256: coupled rows of the last level, at most; 10 */
    uint64_t max_levels;              /* 1 to 128; 64 */
    uint64_t merge_levels;            /* 1 to 4: pairings combined into one level, each about halves the rows; 2 */
    uint64_t krylov_dimension;        /* 0 to 16: directions of the accelerator (GCR); 0 is plain cycles; 4 */
    uint64_t coarse_solver;           /* 0 or 1, as above, and 0 is refused by question 7; 1, Cholesky */
    double coarse_absolute_tolerance; /* finite, not below 0; 1e-12; Cholesky does not use it */
    double coarse_relative_tolerance; /* finite, not below 0; 0.01; Cholesky does not use it */
    uint64_t coarse_max_iterations;   /* at least 1; 500; Cholesky does not use it */
    uint64_t scale_correction;        /* 0 no, 1 yes: scale each coarse correction by its energy; 1 */
    uint64_t max_aggregate_cells;     /* 0, or 2 to 65,535: rows of an aggregate, at most, in each pairing; 0 is no cap; 0 */
};

/* ---- answers */

/* Whether a call did what it was asked to: question is 0; or it refused, and question is the number of the first question whose
 * answer is no. level and row say where, for the questions that name a place, and are 0 for the others; the finest level is 0. */
struct multigrid_answer {
    uint64_t question;
    uint64_t level;
    uint64_t row;
};

/* The handle of a hierarchy: a plain value, to be handed to the later calls as the build gave it, together with the stores of that
 * build. Save and restore it with them, byte by byte. What is no handle of the stores is refused by question 19. */
struct multigrid_hierarchy {
    struct multigrid_options options; /* those of the build */
    uint64_t levels;
    uint64_t rows;                    /* of the finest matrix */
    uint64_t entries;                 /* of the finest matrix */
};

/* What a build answers. Refused, levels, rows and entries of the handle are 0: look at the answer, since a matrix of no rows has the
 * same ones. */
struct multigrid_built {
    struct multigrid_answer answer;
    struct multigrid_hierarchy hierarchy;
};

/* What a solve answers. Refused, all but the answer is 0. */
struct multigrid_report {
    struct multigrid_answer answer;
    uint64_t converged;       /* 1 where the last residual is small enough, 0 where the iterations are used up */
    uint64_t iterations;
    double initial_residual;
    double final_residual;
    double relative_residual; /* final by initial, 0 where initial is 0 */
};

/* How many records at the front of the statistics are levels', the finest first. Refused, levels is 0. */
struct multigrid_count {
    struct multigrid_answer answer;
    uint64_t levels;
};

/* The statistics of a level, since its build. Counters stop at 2^64 - 1. */
struct multigrid_level_statistics {
    uint64_t cells;             /* rows of the level */
    uint64_t visits;            /* cycles that came to it */
    uint64_t pre_sweeps;        /* sweeps before the correction of a visit; the last level has no correction, and makes none */
    uint64_t post_sweeps;       /* sweeps after it */
    uint64_t coarse_iterations; /* of the last level's solver; Cholesky makes none */
};

/* Sizes of stores, in elements: uint32_t words, double floats, records of statistics. */
struct multigrid_charge {
    uint64_t words;
    uint64_t floats;
    uint64_t statistics;
};

/* What a load answers. Refused, rows and entries are 0. */
struct multigrid_loaded {
    struct multigrid_answer answer;
    uint64_t rows;    /* one for each cell */
    uint64_t entries; /* at most 7 in a row */
};

/* ---- calls */

/* The defaults of the Rust, but for the coarse solver: Cholesky, as its own is refused by question 7. */
struct multigrid_options multigrid_default_options(void);

/* What question 9 asks for a finest matrix of so many rows and entries and so many levels, each counted as large as the finest:
 *   words       16 rows + 12 entries + 64 + levels (5 rows + 4 entries + 8)
 *   floats      (12 + 2 krylov_dimension) rows + 8 entries + coarsest_cells^2 + levels (20 rows + 4 entries)
 *   statistics  max_levels records
 * A sum that does not fit is 2^64 - 1. No level is larger than the finest, so stores for max_levels levels are never refused by
 * question 9; most meshes need what 2 levels ask for, and no rows what 0 ask for. Options that are refused by question 6 have no charge that helps. */
struct multigrid_charge multigrid_charge(uint64_t rows, uint64_t entries, struct multigrid_options options, uint64_t levels);

/* Builds a hierarchy of a symmetric matrix in compressed rows: rows + 1 offsets, then for each entry its column, rising in a row and
 * counted from 0, and its value. Whatever the stores held plays no part. Rows are joined by the absolute values of the entries.
 * A matrix of no rows, with the one offset 0, has no levels, and a solve of it has converged before the first iteration.
 * Refused, every element of words, floats and statistics is zero. Asks questions 1 to 18, but for 8, which refuses nothing. */
struct multigrid_built multigrid_new(size_t rows, const uint32_t *offsets, size_t offsets_length, const uint32_t *columns,
                                     size_t columns_length, const double *values, size_t values_length,
                                     struct multigrid_options options, uint32_t *words, size_t words_length,
                                     double *floats, size_t floats_length,
                                     struct multigrid_level_statistics *statistics, size_t statistics_length);

/* The same, and rows are joined by a weight for each entry, finite and not below zero. */
struct multigrid_built multigrid_new_with_face_weights(
    size_t rows, const uint32_t *offsets, size_t offsets_length, const uint32_t *columns, size_t columns_length,
    const double *values, size_t values_length, const double *face_weights, size_t face_weights_length,
    struct multigrid_options options, uint32_t *words, size_t words_length, double *floats, size_t floats_length,
    struct multigrid_level_statistics *statistics, size_t statistics_length);

/* New values for a hierarchy, with the offsets and columns that it was built from. Rows stay joined as they are. Where the build
 * had face weights, the hierarchy then solves, bit for bit, as one that is built anew from the new values and the same weights.
 * Refused, the hierarchy stays as it was. Asks questions 19, 31, 10 to 13 and 15 to 18. */
struct multigrid_answer multigrid_update_values(struct multigrid_hierarchy hierarchy, const uint32_t *offsets,
                                                size_t offsets_length, const uint32_t *columns, size_t columns_length,
                                                const double *values, size_t values_length, const uint32_t *words,
                                                size_t words_length, double *floats, size_t floats_length,
                                                const struct multigrid_level_statistics *statistics,
                                                size_t statistics_length);

/* Solves for rhs from what x holds, and leaves the solution in x; both have one element for each row. It ends where the residual
 * is at most the greater of absolute_tolerance and relative_tolerance times the first residual, or after max_iterations (at
 * least 1). Refused, x, the statistics and the hierarchy stay as they were. Asks questions 19 to 30. */
struct multigrid_report multigrid_solve(struct multigrid_hierarchy hierarchy, const uint32_t *words, size_t words_length,
                                        double *floats, size_t floats_length,
                                        struct multigrid_level_statistics *statistics, size_t statistics_length,
                                        const double *rhs, size_t rhs_length, double *x, size_t x_length,
                                        double absolute_tolerance, double relative_tolerance, uint64_t max_iterations);

/* Whether the stores hold a hierarchy of this handle (question 19), and how many records are its levels'. */
struct multigrid_count multigrid_statistics(struct multigrid_hierarchy hierarchy, const uint32_t *words,
                                            size_t words_length, const double *floats, size_t floats_length,
                                            const struct multigrid_level_statistics *statistics,
                                            size_t statistics_length);

/* A load: a box of cells from a seed, the same on every machine, to try the library on and to compare results with others. Cells
 * are numbered along the width, then the height, then the depth; a depth of 1 is a flat box. Each face takes a conductance of 1 to
 * 1,024 from the draws of the seed: entries off the diagonal are its negative, those on it the sum of the cell's faces plus 1.
 * Offsets, columns and values of the matrix stand at the starts of the three slices, whose rest stays as it was. Refused, nothing is
 * written. Asks question 35: seed and extents are not 0, there are at most 65,536 cells, the slices have room. */
struct multigrid_loaded multigrid_load(uint64_t seed, uint64_t width, uint64_t height, uint64_t depth, uint32_t *offsets,
                                       size_t offsets_length, uint32_t *columns, size_t columns_length, double *values,
                                       size_t values_length);

/* ---- refusals (docs/sentences writes this part from the table of docs/REFUSALS.md) */

/* multigrid_answer.question; docs/REFUSALS.md says of each when it is asked and what to do. */
#define MULTIGRID_DONE                   0
#define MULTIGRID_TOO_LARGE              1
#define MULTIGRID_BAD_OFFSETS            2
#define MULTIGRID_BAD_COLUMNS            3
#define MULTIGRID_WEIGHT_COUNT           4
#define MULTIGRID_BAD_WEIGHT             5
#define MULTIGRID_INVALID_CONTROLS       6
#define MULTIGRID_NOT_CHOLESKY           7
#define MULTIGRID_NO_ROWS                8
#define MULTIGRID_STORE_TOO_SMALL        9
#define MULTIGRID_NOT_SYMMETRIC          10
#define MULTIGRID_MISSING_DIAGONAL       11
#define MULTIGRID_BAD_DIAGONAL           12
#define MULTIGRID_BAD_RECIPROCAL         13
#define MULTIGRID_TOO_MANY_COUPLED       14
#define MULTIGRID_BAD_PIVOT              15
#define MULTIGRID_BAD_DIC_PIVOT          16
#define MULTIGRID_BAD_DIC_RECIPROCAL     17
#define MULTIGRID_BAD_COARSE_VALUE       18
#define MULTIGRID_UNSOUND_STORES         19
#define MULTIGRID_WRONG_LENGTH           20
#define MULTIGRID_BAD_INPUT              21
#define MULTIGRID_BAD_NORMALIZATION      22
#define MULTIGRID_BAD_RESIDUAL           23
#define MULTIGRID_BAD_COARSE_SOLUTION    24
#define MULTIGRID_BAD_SMOOTHER_OUTPUT    25
#define MULTIGRID_BAD_CORRECTION_PRODUCT 26
#define MULTIGRID_BAD_CORRECTION_SCALE   27
#define MULTIGRID_BAD_DOT_PRODUCT        28
#define MULTIGRID_ZERO_IMAGE             29
#define MULTIGRID_BAD_DIRECTION          30
#define MULTIGRID_OTHER_PATTERN          31
#define MULTIGRID_BAD_RECORD             32
#define MULTIGRID_BAD_LOAD               35
#define MULTIGRID_BAD_MATRIX_FILE        38
#define MULTIGRID_BAD_NUMBER             39
#define MULTIGRID_UNEQUAL_MIRRORS        40

/* What is wrong where a call refuses by that question, in words. */
static inline const char *multigrid_sentence(uint64_t question) {
    switch (question) {
    case MULTIGRID_DONE:
        return "nothing is refused";
    case MULTIGRID_TOO_LARGE:
        return "there are more than 65,536 rows or 1,048,576 entries";
    case MULTIGRID_BAD_OFFSETS:
        return "the offsets do not rise from 0 to the number of entries, one more than rows, or there are not as many values as columns";
    case MULTIGRID_BAD_COLUMNS:
        return "the columns of a row do not rise, or one is not below the number of rows";
    case MULTIGRID_WEIGHT_COUNT:
        return "there are not as many weights as entries";
    case MULTIGRID_BAD_WEIGHT:
        return "a weight is not finite or below zero";
    case MULTIGRID_INVALID_CONTROLS:
        return "the controls are outside their ranges";
    case MULTIGRID_NOT_CHOLESKY:
        return "the coarse solver is not Cholesky";
    case MULTIGRID_NO_ROWS:
        return "there is no row";
    case MULTIGRID_STORE_TOO_SMALL:
        return "the stores or the statistics are too small";
    case MULTIGRID_NOT_SYMMETRIC:
        return "an entry off the diagonal has no mirror, differs from it by more than 1e-12, or is not finite";
    case MULTIGRID_MISSING_DIAGONAL:
        return "a diagonal entry is missing";
    case MULTIGRID_BAD_DIAGONAL:
        return "a diagonal is not finite or not above zero";
    case MULTIGRID_BAD_RECIPROCAL:
        return "the reciprocal of a diagonal is not finite";
    case MULTIGRID_TOO_MANY_COUPLED:
        return "more rows are coupled on the last level than coarsest_cells allows";
    case MULTIGRID_BAD_PIVOT:
        return "a Cholesky pivot is not finite or not above zero";
    case MULTIGRID_BAD_DIC_PIVOT:
        return "a DIC pivot is not finite or not above zero";
    case MULTIGRID_BAD_DIC_RECIPROCAL:
        return "the reciprocal of a DIC pivot is not finite";
    case MULTIGRID_BAD_COARSE_VALUE:
        return "a Galerkin value is not finite";
    case MULTIGRID_UNSOUND_STORES:
        return "the stores do not hold a hierarchy of this handle";
    case MULTIGRID_WRONG_LENGTH:
        return "the right-hand side or the solution has not as many elements as there are rows";
    case MULTIGRID_BAD_INPUT:
        return "the iteration limit is zero, a tolerance is not finite or below zero, or a vector is not finite";
    case MULTIGRID_BAD_NORMALIZATION:
        return "the normalization is not finite";
    case MULTIGRID_BAD_RESIDUAL:
        return "the norm of a residual is not finite";
    case MULTIGRID_BAD_COARSE_SOLUTION:
        return "the solution of the last level is not finite";
    case MULTIGRID_BAD_SMOOTHER_OUTPUT:
        return "what the smoother gives is not finite";
    case MULTIGRID_BAD_CORRECTION_PRODUCT:
        return "a product of a correction is not finite";
    case MULTIGRID_BAD_CORRECTION_SCALE:
        return "the scale of a correction is not finite";
    case MULTIGRID_BAD_DOT_PRODUCT:
        return "a dot product of the accelerator is not finite";
    case MULTIGRID_ZERO_IMAGE:
        return "the image of a correction is zero";
    case MULTIGRID_BAD_DIRECTION:
        return "a direction of the accelerator is not finite";
    case MULTIGRID_OTHER_PATTERN:
        return "offsets or columns are not those of the build, or there are not as many values as columns";
    case MULTIGRID_BAD_RECORD:
        return "a record of a problem file is unknown, repeated, out of place, out of range, too short, too large or missing";
    case MULTIGRID_BAD_LOAD:
        return "a load's seed or an extent is zero, there are more than 65,536 cells, or the slices are too short";
    case MULTIGRID_BAD_MATRIX_FILE:
        return "a matrix file has another header, a size line not of three numbers or not square, or an entry that is malformed, repeated, missing or surplus";
    case MULTIGRID_BAD_NUMBER:
        return "a value of a matrix file is no number of at most 15 digits and a power of ten from -22 to 22";
    case MULTIGRID_UNEQUAL_MIRRORS:
        return "a matrix to be written as symmetric has an entry whose mirror is missing or unequal";
    default:
        return "there is no question of this number";
    }
}

#ifdef __cplusplus
}
#endif

#endif
