/* The library beside hypre's BoomerAMG, alone and as the preconditioner of conjugate gradients: the same load, the same right-hand side, from zero to
   1e-8 of the first residual, both by the root of the sum of squares. Rounds in turn, medians, times of the processor. */
#include "multigrid.h"

#include <HYPRE.h>
#include <HYPRE_IJ_mv.h>
#include <HYPRE_krylov.h>
#include <HYPRE_parcsr_ls.h>
#include <math.h>
#include <mpi.h>
#include <stdio.h>
#include <stdlib.h>
#include <string.h>
#include <time.h>

#define MOST_ROUNDS 201
#define TOLERANCE 1e-8
#define MOST_ITERATIONS 200

static void fail(const char *what) {
    fprintf(stderr, "peers: %s\n", what);
    exit(1);
}

static void *room(size_t count, size_t size) {
    void *memory = calloc(count ? count : 1, size);
    if (!memory)
        fail("no memory");
    return memory;
}

static double milliseconds(void) {
    struct timespec time;
    clock_gettime(CLOCK_THREAD_CPUTIME_ID, &time);
    return (double)time.tv_sec * 1e3 + (double)time.tv_nsec * 1e-6;
}

static int by_size(const void *a, const void *b) {
    double x = *(const double *)a, y = *(const double *)b;
    return (x > y) - (x < y);
}

static double median(double *times, int rounds) {
    qsort(times, (size_t)rounds, sizeof *times, by_size);
    return times[rounds / 2];
}

/* ---- the load */

struct system {
    size_t rows, entries;
    uint32_t *offsets, *columns;
    double *values, *weights, *rhs, *x;
};

static struct system load(const char *box) {
    unsigned long long width, height, depth;
    if (sscanf(box, "%llux%llux%llu", &width, &height, &depth) != 3)
        fail("cells as WIDTHxHEIGHTxDEPTH");
    struct system s;
    s.rows = (size_t)(width * height * depth);
    size_t most = 7 * s.rows;
    s.offsets = room(s.rows + 1, sizeof *s.offsets);
    s.columns = room(most, sizeof *s.columns);
    s.values = room(most, sizeof *s.values);
    struct multigrid_loaded made =
        multigrid_load(1, width, height, depth, s.offsets, s.rows + 1, s.columns, most, s.values, most);
    if (made.answer.question)
        fail(multigrid_sentence(made.answer.question));
    s.entries = made.entries;
    s.weights = room(s.entries, sizeof *s.weights);
    for (size_t e = 0; e < s.entries; e++)
        s.weights[e] = s.values[e] < 0.0 ? -s.values[e] : 0.0;
    s.rhs = room(s.rows, sizeof *s.rhs);
    s.x = room(s.rows, sizeof *s.x);
    srand48(1);
    for (size_t row = 0; row < s.rows; row++)
        s.rhs[row] = 2.0 * drand48() - 1.0;
    return s;
}

/* What is left of the right-hand side, by its own size: the same test of every answer. */
static double left(const struct system *s) {
    double rest = 0.0, whole = 0.0;
    for (size_t row = 0; row < s->rows; row++) {
        double r = s->rhs[row];
        for (uint32_t e = s->offsets[row]; e < s->offsets[row + 1]; e++)
            r -= s->values[e] * s->x[s->columns[e]];
        rest += r * r;
        whole += s->rhs[row] * s->rhs[row];
    }
    return sqrt(rest / whole);
}

/* What a round of one side took. */
struct round {
    double setup, solve;
    int iterations;
    double left;
};

/* ---- ours */

struct ours {
    struct multigrid_options options;
    struct multigrid_charge charge;
    uint32_t *words;
    double *floats;
    struct multigrid_level_statistics *statistics;
};

static struct ours lend(const struct system *s) {
    struct ours o;
    o.options = multigrid_default_options();
    o.options.residual_norm = MULTIGRID_ABSOLUTE_L2;
    o.charge = multigrid_charge(s->rows, s->entries, o.options, 3); /* a level has about a quarter of the rows of the one before */
    o.charge.statistics = MULTIGRID_MOST_LEVELS;
    o.words = room(o.charge.words, sizeof *o.words);
    o.floats = room(o.charge.floats, sizeof *o.floats);
    o.statistics = room(o.charge.statistics, sizeof *o.statistics);
    return o;
}

static struct round round_of_ours(const struct ours *o, const struct system *s) {
    struct round made;
    double start = milliseconds();
    struct multigrid_built built = multigrid_new_with_face_weights(
        s->rows, s->offsets, s->rows + 1, s->columns, s->entries, s->values, s->entries, s->weights, s->entries,
        o->options, o->words, o->charge.words, o->floats, o->charge.floats, o->statistics, o->charge.statistics);
    made.setup = milliseconds() - start;
    if (built.answer.question)
        fail(multigrid_sentence(built.answer.question));
    memset(s->x, 0, s->rows * sizeof *s->x);
    start = milliseconds();
    struct multigrid_report report =
        multigrid_solve(built.hierarchy, o->words, o->charge.words, o->floats, o->charge.floats, o->statistics,
                        o->charge.statistics, s->rhs, s->rows, s->x, s->rows, 0.0, TOLERANCE, MOST_ITERATIONS);
    made.solve = milliseconds() - start;
    if (report.answer.question || !report.converged)
        fail("ours has no solution");
    made.iterations = (int)report.iterations;
    made.left = left(s);
    return made;
}

/* ---- hypre's: the matrix and the vectors are handed over before, which is not timed */

struct theirs {
    HYPRE_IJMatrix matrix;
    HYPRE_IJVector rhs, x;
    HYPRE_ParCSRMatrix a;
    HYPRE_ParVector b, y;
    HYPRE_BigInt *numbers;
};

static HYPRE_IJVector vector(const struct system *s, const HYPRE_BigInt *numbers, const double *values) {
    HYPRE_IJVector v;
    HYPRE_IJVectorCreate(MPI_COMM_SELF, 0, (HYPRE_BigInt)s->rows - 1, &v);
    HYPRE_IJVectorSetObjectType(v, HYPRE_PARCSR);
    HYPRE_IJVectorInitialize(v);
    HYPRE_IJVectorSetValues(v, (HYPRE_Int)s->rows, numbers, values);
    HYPRE_IJVectorAssemble(v);
    return v;
}

static struct theirs hand_over(const struct system *s) {
    struct theirs t;
    HYPRE_BigInt last = (HYPRE_BigInt)s->rows - 1;
    t.numbers = room(s->rows, sizeof *t.numbers);
    HYPRE_IJMatrixCreate(MPI_COMM_SELF, 0, last, 0, last, &t.matrix);
    HYPRE_IJMatrixSetObjectType(t.matrix, HYPRE_PARCSR);
    HYPRE_IJMatrixInitialize(t.matrix);
    for (size_t row = 0; row < s->rows; row++) {
        HYPRE_BigInt number = (HYPRE_BigInt)row, columns[7];
        HYPRE_Int count = (HYPRE_Int)(s->offsets[row + 1] - s->offsets[row]);
        for (HYPRE_Int k = 0; k < count; k++)
            columns[k] = (HYPRE_BigInt)s->columns[s->offsets[row] + (uint32_t)k];
        HYPRE_IJMatrixSetValues(t.matrix, 1, &count, &number, columns, s->values + s->offsets[row]);
        t.numbers[row] = number;
    }
    HYPRE_IJMatrixAssemble(t.matrix);
    HYPRE_IJMatrixGetObject(t.matrix, (void **)&t.a);
    t.rhs = vector(s, t.numbers, s->rhs);
    t.x = vector(s, t.numbers, s->x);
    HYPRE_IJVectorGetObject(t.rhs, (void **)&t.b);
    HYPRE_IJVectorGetObject(t.x, (void **)&t.y);
    return t;
}

/* hypre's defaults but for what it prints; as a preconditioner one cycle from zero, with a symmetric smoother, as its manual has it. */
static HYPRE_Solver boomer(int alone) {
    HYPRE_Solver amg;
    HYPRE_BoomerAMGCreate(&amg);
    HYPRE_BoomerAMGSetPrintLevel(amg, 0);
    HYPRE_BoomerAMGSetTol(amg, alone ? TOLERANCE : 0.0);
    HYPRE_BoomerAMGSetMaxIter(amg, alone ? MOST_ITERATIONS : 1);
    if (!alone)
        HYPRE_BoomerAMGSetRelaxType(amg, 6);
    return amg;
}

static void take_solution(const struct theirs *t, const struct system *s) {
    HYPRE_IJVectorGetValues(t->x, (HYPRE_Int)s->rows, t->numbers, s->x);
}

static struct round round_alone(const struct theirs *t, const struct system *s) {
    struct round made;
    HYPRE_Int iterations;
    HYPRE_ParVectorSetConstantValues(t->y, 0.0);
    double start = milliseconds();
    HYPRE_Solver amg = boomer(1);
    HYPRE_BoomerAMGSetup(amg, t->a, t->b, t->y);
    made.setup = milliseconds() - start;
    start = milliseconds();
    HYPRE_BoomerAMGSolve(amg, t->a, t->b, t->y);
    made.solve = milliseconds() - start;
    HYPRE_BoomerAMGGetNumIterations(amg, &iterations);
    HYPRE_BoomerAMGDestroy(amg);
    HYPRE_ClearAllErrors();
    take_solution(t, s);
    made.iterations = (int)iterations;
    made.left = left(s);
    return made;
}

static struct round round_preconditioned(const struct theirs *t, const struct system *s) {
    struct round made;
    HYPRE_Int iterations;
    HYPRE_Solver pcg;
    HYPRE_ParVectorSetConstantValues(t->y, 0.0);
    double start = milliseconds();
    HYPRE_Solver amg = boomer(0);
    HYPRE_ParCSRPCGCreate(MPI_COMM_SELF, &pcg);
    HYPRE_PCGSetTol(pcg, TOLERANCE);
    HYPRE_PCGSetMaxIter(pcg, MOST_ITERATIONS);
    HYPRE_PCGSetTwoNorm(pcg, 1);
    HYPRE_PCGSetPrecond(pcg, (HYPRE_PtrToSolverFcn)HYPRE_BoomerAMGSolve, (HYPRE_PtrToSolverFcn)HYPRE_BoomerAMGSetup, amg);
    HYPRE_ParCSRPCGSetup(pcg, t->a, t->b, t->y);
    made.setup = milliseconds() - start;
    start = milliseconds();
    HYPRE_ParCSRPCGSolve(pcg, t->a, t->b, t->y);
    made.solve = milliseconds() - start;
    HYPRE_PCGGetNumIterations(pcg, &iterations);
    HYPRE_ParCSRPCGDestroy(pcg);
    HYPRE_BoomerAMGDestroy(amg);
    HYPRE_ClearAllErrors();
    take_solution(t, s);
    made.iterations = (int)iterations;
    made.left = left(s);
    return made;
}

/* ---- the rounds */

enum { OURS, ALONE, PRECONDITIONED, SIDES };
static const char *const names[SIDES] = {"ours", "BoomerAMG", "PCG+BoomerAMG"};

int main(int count, char **words) {
    int rounds = count == 3 ? atoi(words[1]) : 0;
    if (rounds < 7 || rounds > MOST_ROUNDS || rounds % 2 == 0)
        fail("usage: peers ROUNDS WIDTHxHEIGHTxDEPTH, rounds odd from 7 on");
    MPI_Init(&count, &words);
    HYPRE_Init();
    struct system s = load(words[2]);
    struct ours o = lend(&s);
    struct theirs t = hand_over(&s);
    static double setup[SIDES][MOST_ROUNDS], solve[SIDES][MOST_ROUNDS];
    struct round last[SIDES];
    for (int r = 0; r < rounds; r++)
        for (int k = 0; k < SIDES; k++) {
            int side = (r + k) % SIDES;
            last[side] = side == OURS    ? round_of_ours(&o, &s)
                         : side == ALONE ? round_alone(&t, &s)
                                         : round_preconditioned(&t, &s);
            setup[side][r] = last[side].setup;
            solve[side][r] = last[side].solve;
        }
    printf("%s: %zu rows, %zu entries; medians of %d rounds; milliseconds of the processor\n", words[2], s.rows, s.entries, rounds);
    printf("%-14s %10s %10s %10s %6s %9s %12s %12s\n", "", "build", "solve", "both", "steps", "left", "ours/build", "ours/both");
    double first[2] = {0.0, 0.0};
    for (int side = 0; side < SIDES; side++) {
        double a = median(setup[side], rounds), b = median(solve[side], rounds);
        if (side == OURS) {
            first[0] = a;
            first[1] = a + b;
        }
        printf("%-14s %10.3f %10.3f %10.3f %6d %9.1e %12.3f %12.3f\n", names[side], a, b, a + b, last[side].iterations,
               last[side].left, first[0] / a, first[1] / (a + b));
    }
    HYPRE_Finalize();
    MPI_Finalize();
    return 0;
}
