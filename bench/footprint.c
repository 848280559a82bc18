/* The memory and the stack of the calls on loads of the plane and of space: bench/footprint builds and runs it. A call runs on a thread whose stack was painted before; what is
 * no longer painted, less what a thread that does nothing leaves, is what the call took. */
#include "multigrid.h"

#include <pthread.h>
#include <stdio.h>
#include <stdlib.h>
#include <string.h>

enum { STACK = 1 << 20, PAINT = 0xa5 };

struct mesh {
    size_t rows, entries;
    uint32_t *offsets, *columns;
    double *values, *weights;
};

static void *memory(size_t count, size_t size) {
    void *found = calloc(count, size);
    if (!found) exit(2);
    return found;
}

/* The load of seed 1 on a box of so many cells along three axes; a plane has one along the first. */
static struct mesh box(size_t deep, size_t high, size_t wide) {
    size_t rows = deep * high * wide;
    struct mesh m = {rows, 0, memory(rows + 1, 4), memory(7 * rows, 4), memory(7 * rows, 8), NULL};
    struct multigrid_loaded l = multigrid_load(1, wide, high, deep, m.offsets, rows + 1, m.columns, 7 * rows, m.values, 7 * rows);
    if (l.answer.question) exit(2);
    m.entries = l.entries;
    return m;
}

/* Loads make few levels. A star whose weights stand in the row of its centre alone makes the most that there are: each level takes one row from the one before. */
static struct mesh star(size_t rows) {
    struct mesh m = {rows, 3 * rows - 2, memory(rows + 1, 4), memory(3 * rows, 4), memory(3 * rows, 8), memory(3 * rows, 8)};
    for (size_t k = 0; k < rows; k++) {
        m.columns[k] = (uint32_t)k;
        m.values[k] = k ? -1 : (double)rows;
        m.weights[k] = (double)k;
    }
    for (size_t row = 1; row < rows; row++) {
        m.columns[rows + 2 * row - 1] = (uint32_t)row;
        m.values[rows + 2 * row - 2] = -1;
        m.values[rows + 2 * row - 1] = 2;
        m.offsets[row] = (uint32_t)(rows + 2 * row - 2);
    }
    m.offsets[rows] = (uint32_t)m.entries;
    return m;
}

static struct call {
    int which;
    struct mesh m;
    struct multigrid_options options;
    struct multigrid_charge lent;
    struct multigrid_hierarchy hierarchy;
    struct multigrid_answer answer;
    uint32_t *words;
    double *floats, *rhs, *x;
    struct multigrid_level_statistics *statistics;
} c;

static void *run(void *nothing) {
    struct mesh *m = &c.m;
    if (c.which == 1) {
        struct multigrid_built b =
            m->weights ? multigrid_new_with_face_weights(m->rows, m->offsets, m->rows + 1, m->columns, m->entries, m->values, m->entries, m->weights,
                                                         m->entries, c.options, c.words, c.lent.words, c.floats, c.lent.floats, c.statistics,
                                                         c.lent.statistics)
                       : multigrid_new(m->rows, m->offsets, m->rows + 1, m->columns, m->entries, m->values, m->entries, c.options, c.words, c.lent.words,
                                       c.floats, c.lent.floats, c.statistics, c.lent.statistics);
        c.answer = b.answer;
        c.hierarchy = b.hierarchy;
    } else if (c.which == 2)
        c.answer = multigrid_update_values(c.hierarchy, m->offsets, m->rows + 1, m->columns, m->entries, m->values, m->entries, c.words, c.lent.words,
                                           c.floats, c.lent.floats, c.statistics, c.lent.statistics);
    else if (c.which == 3) {
        memset(c.x, 0, m->rows * sizeof *c.x);
        c.answer = multigrid_solve(c.hierarchy, c.words, c.lent.words, c.floats, c.lent.floats, c.statistics, c.lent.statistics, c.rhs, m->rows, c.x,
                                   m->rows, 0, 1e-8, 200)
                       .answer;
    }
    return nothing;
}

static size_t painted(int which) {
    unsigned char *stack = aligned_alloc(4096, STACK);
    pthread_attr_t attributes;
    pthread_t thread;
    if (!stack) exit(2);
    memset(stack, PAINT, STACK);
    c.which = which;
    if (pthread_attr_init(&attributes) || pthread_attr_setstack(&attributes, stack, STACK) || pthread_create(&thread, &attributes, run, NULL) ||
        pthread_join(thread, NULL))
        exit(2);
    size_t left = 0;
    while (left < STACK && stack[left] == PAINT) left++;
    free(stack);
    return STACK - left;
}

static void measure(const char *name, struct mesh m, struct multigrid_options options, uint64_t levels) {
    c.m = m;
    c.options = options;
    c.lent = multigrid_charge(m.rows, m.entries, options, levels);
    c.words = memory(c.lent.words, 4);
    c.floats = memory(c.lent.floats, 8);
    c.statistics = memory(c.lent.statistics, sizeof *c.statistics);
    c.rhs = memory(m.rows, 8);
    c.x = memory(m.rows, 8);
    for (size_t k = 0; k < m.rows; k++) c.rhs[k] = 1;
    /* Once before, so that what the loader does at a first call is not counted. */
    for (c.which = 1; c.which < 4; c.which++) run(NULL);
    size_t none = painted(0), taken[4] = {0, 0, 0, 0};
    for (int which = 1; which < 4; which++) {
        taken[which] = painted(which) - none;
        if (c.answer.question) printf("%s: %s\n", name, multigrid_sentence(c.answer.question));
    }
    double bytes = 4.0 * (double)c.lent.words + 8.0 * (double)c.lent.floats + 40.0 * (double)c.lent.statistics;
    printf("| %s | %zu | %zu | %llu | %llu | %.1f | %llu | %zu | %zu | %zu |\n", name, m.rows, m.entries, (unsigned long long)c.lent.words,
           (unsigned long long)c.lent.floats, bytes / 1e6, (unsigned long long)c.hierarchy.levels, taken[1], taken[2], taken[3]);
}

int main(void) {
    struct multigrid_options options = multigrid_default_options(), deep = options;
    deep.max_levels = 128;
    deep.merge_levels = 1;
    deep.coarsest_cells = 73;
    printf("| mesh | rows | entries | words | floats | MB | levels | stack of a build | of an update | of a solve |\n|---|---|---|---|---|---|---|---|---|---|\n");
    measure("16 x 16", box(1, 16, 16), options, 2);
    measure("64 x 64", box(1, 64, 64), options, 2);
    measure("128 x 128", box(1, 128, 128), options, 2);
    measure("256 x 256", box(1, 256, 256), options, 2);
    measure("16 x 16 x 16", box(16, 16, 16), options, 2);
    measure("32 x 32 x 32", box(32, 32, 32), options, 2);
    measure("40 x 40 x 40", box(40, 40, 40), options, 2);
    measure("star, 128 levels", star(200), deep, 128);
    return 0;
}
