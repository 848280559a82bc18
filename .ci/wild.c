/* What nobody should hand over, handed over: empty slices, SIZE_MAX rows, all-maximum controls, wild handles, damaged stores, boundless loads. Every slice is memory of its own and of
 * exactly its length, so that valgrind sees a read or a write beside it. Every call has to answer, and by a question where it cannot do what it is asked to. */
#include "multigrid.h"

#include <math.h>
#include <stdio.h>
#include <stdlib.h>
#include <string.h>

static int failures;
static uint64_t answers[32], state = 1;

static void expect(int holds, const char *what) {
    if (!holds) {
        printf("wild: %s\n", what);
        failures++;
    }
}

static uint64_t draw(void) {
    state ^= state << 13;
    state ^= state >> 7;
    state ^= state << 17;
    return state;
}

static void *memory(size_t count, size_t size) {
    void *found = calloc(count ? count : 1, size);
    if (!found) exit(2);
    return found;
}

static void count(struct multigrid_answer a) {
    expect(a.question < 32, "a question beyond 31");
    answers[a.question % 32]++;
}

struct stores {
    struct multigrid_charge lent;
    uint32_t *words;
    double *floats;
    struct multigrid_level_statistics *statistics;
};

static struct stores stores_of(uint64_t words, uint64_t floats, uint64_t statistics) {
    struct stores s = {{words, floats, statistics}, memory(words, 4), memory(floats, 8), memory(statistics, sizeof(struct multigrid_level_statistics))};
    return s;
}

static void drop(struct stores s) {
    free(s.words);
    free(s.floats);
    free(s.statistics);
}

/* Every later call with this handle and these stores; the vectors have so many elements. */
static void later(struct multigrid_hierarchy h, struct stores s, size_t rows, size_t entries) {
    uint32_t *offsets = memory(rows + 1, 4), *columns = memory(entries, 4);
    double *values = memory(entries, 8), *rhs = memory(rows, 8), *x = memory(rows, 8);
    count(multigrid_update_values(h, offsets, rows + 1, columns, entries, values, entries, s.words, s.lent.words, s.floats, s.lent.floats,
                                  s.statistics, s.lent.statistics));
    count(multigrid_solve(h, s.words, s.lent.words, s.floats, s.lent.floats, s.statistics, s.lent.statistics, rhs, rows, x, rows, 1e-10, 1e-8, 3).answer);
    count(multigrid_statistics(h, s.words, s.lent.words, s.floats, s.lent.floats, s.statistics, s.lent.statistics).answer);
    free(offsets);
    free(columns);
    free(values);
    free(rhs);
    free(x);
}

static struct multigrid_options maximum(void) {
    struct multigrid_options o;
    memset(&o, 0xff, sizeof o);
    o.coarse_absolute_tolerance = o.coarse_relative_tolerance = INFINITY;
    return o;
}

/* The greatest controls that question 6 takes. */
static struct multigrid_options greatest(void) {
    struct multigrid_options o = {2, 1, 64, 64, 64, UINT64_MAX, 64, 256, 128, 4, 16, 1, 1e308, 1e308, UINT64_MAX, 1, 65535};
    return o;
}

static void empty_slices(void) {
    struct multigrid_options o = multigrid_default_options();
    struct stores none = stores_of(0, 0, 0);
    uint32_t u = 0;
    double f = 0;
    size_t sizes[] = {0, 1, 2, SIZE_MAX, SIZE_MAX / 4, 65536, 65537};
    for (size_t k = 0; k < sizeof sizes / sizeof *sizes; k++) {
        struct multigrid_built b = multigrid_new(sizes[k], &u, 0, &u, 0, &f, 0, o, none.words, 0, none.floats, 0, none.statistics, 0);
        expect(b.answer.question == (sizes[k] > 65536 ? MULTIGRID_TOO_LARGE : MULTIGRID_BAD_OFFSETS), "a build of nothing");
        expect(b.hierarchy.levels == 0 && b.hierarchy.rows == 0 && b.hierarchy.entries == 0, "a handle of nothing");
        b = multigrid_new_with_face_weights(sizes[k], &u, 1, &u, 0, &f, 0, &f, 0, maximum(), none.words, 0, none.floats, 0, none.statistics, 0);
        expect(b.answer.question != 0, "a build of nothing with weights");
    }
    expect(multigrid_new(0, &u, 1, &u, 0, &f, 0, maximum(), none.words, 0, none.floats, 0, none.statistics, 0).answer.question == MULTIGRID_INVALID_CONTROLS,
           "all-maximum controls");
    expect(multigrid_new(0, &u, 1, &u, 0, &f, 0, o, none.words, 0, none.floats, 0, none.statistics, 0).answer.question == MULTIGRID_STORE_TOO_SMALL, "no rows and no stores");
    struct multigrid_charge c = multigrid_charge(0, 0, o, 0);
    struct stores s = stores_of(c.words, c.floats, c.statistics);
    struct multigrid_built b = multigrid_new(0, &u, 1, &u, 0, &f, 0, o, s.words, c.words, s.floats, c.floats, s.statistics, c.statistics);
    expect(b.answer.question == 0 && b.hierarchy.levels == 0 && b.hierarchy.rows == 0 && b.hierarchy.entries == 0, "no rows");
    expect(multigrid_solve(b.hierarchy, s.words, c.words, s.floats, c.floats, s.statistics, c.statistics, &f, 0, &f, 0, 0, 0, 1).converged == 1,
           "a solve of no rows");
    later(b.hierarchy, s, 0, 0);
    drop(s);
    c = multigrid_charge(UINT64_MAX, UINT64_MAX, maximum(), UINT64_MAX);
    expect(c.words == UINT64_MAX && c.floats == UINT64_MAX, "a charge that does not fit");
    drop(none);
}

/* A load of one row of cells, built, damaged and called. */
static void damaged(size_t rows, struct multigrid_options o) {
    size_t entries = 3 * rows - 2;
    uint32_t *offsets = memory(rows + 1, 4), *columns = memory(entries, 4);
    double *values = memory(entries, 8);
    expect(multigrid_load(rows, rows, 1, 1, offsets, rows + 1, columns, entries, values, entries).answer.question == 0, "a row of cells");
    struct multigrid_charge c = multigrid_charge(rows, entries, o, 2);
    if (c.floats == UINT64_MAX) c.floats = c.statistics = 1000;
    struct stores s = stores_of(c.words, c.floats, c.statistics);
    struct multigrid_built b = multigrid_new(rows, offsets, rows + 1, columns, entries, values, entries, o, s.words, c.words, s.floats, c.floats,
                                             s.statistics, c.statistics);
    count(b.answer);
    if (b.answer.question == 0) {
        later(b.hierarchy, s, rows, entries);
        for (int round = 0; round < 20; round++) {
            uint64_t *fields = (uint64_t *)&b.hierarchy, kept = 0;
            size_t field = draw() % (sizeof b.hierarchy / 8), word = draw() % c.words;
            uint32_t old = s.words[word];
            if (round % 2) {
                kept = fields[field];
                fields[field] = draw() % 3 ? draw() % 200 : draw();
            } else
                s.words[word] = (uint32_t)(draw() % 2 ? draw() : draw() % 64);
            s.floats[draw() % c.floats] = draw() % 2 ? NAN : 1e300;
            later(b.hierarchy, s, rows, entries);
            s.words[word] = old;
            if (round % 2) fields[field] = kept;
        }
    }
    drop(s);
    free(offsets);
    free(columns);
    free(values);
}

static void wild_handles(void) {
    for (int round = 0; round < 300; round++) {
        struct multigrid_hierarchy h;
        uint64_t *fields = (uint64_t *)&h;
        for (size_t k = 0; k < sizeof h / 8; k++) fields[k] = draw() % 4 ? draw() % 70 : draw() % 2 ? UINT64_MAX : draw();
        if (round % 2) h.options = multigrid_default_options();
        struct stores s = stores_of(draw() % 200, draw() % 200, draw() % 70);
        for (size_t k = 0; k < s.lent.words; k++) s.words[k] = (uint32_t)(draw() % 2 ? draw() % 9 : draw());
        size_t rows = draw() % 9;
        later(h, s, rows, draw() % 20);
        drop(s);
    }
}

/* Loads in slices of exactly their length, in slices that are too short by one, and of extents whose product does not fit. */
static void loads(void) {
    for (int round = 0; round < 200; round++) {
        uint64_t wide = 1 + draw() % 6, high = 1 + draw() % 6, deep = 1 + draw() % 6, cells = wide * high * deep;
        uint64_t due = cells + 2 * (3 * cells - wide * high - wide * deep - high * deep);
        size_t short_offsets = round % 4 == 1, short_columns = round % 4 == 2, short_values = round % 4 == 3;
        uint32_t *offsets = memory(cells + 1 - short_offsets, 4), *columns = memory(due - short_columns, 4);
        double *values = memory(due - short_values, 8);
        struct multigrid_loaded l = multigrid_load(draw(), wide, high, deep, offsets, cells + 1 - short_offsets, columns, due - short_columns,
                                                   values, due - short_values);
        expect(l.answer.question == (round % 4 ? MULTIGRID_BAD_LOAD : MULTIGRID_DONE), "a load and its room");
        expect(l.rows == (round % 4 ? 0 : cells) && l.entries == (round % 4 ? 0 : due), "the size of a load");
        expect(round % 4 ? values[0] == 0 : offsets[cells] == due && columns[due - 1] == cells - 1, "what a load writes");
        free(offsets);
        free(columns);
        free(values);
    }
    uint64_t extents[] = {0, 1, 65537, UINT64_C(1) << 22, UINT64_C(1) << 32, UINT64_C(1) << 63, UINT64_MAX};
    uint32_t u = 7;
    double f = 7;
    for (int k = 0; k < 343; k++) {
        struct multigrid_loaded l = multigrid_load(1, extents[k % 7], extents[k / 7 % 7], extents[k / 49], &u, 1, &u + 1, 0, &f, 0);
        expect(l.answer.question == MULTIGRID_BAD_LOAD && u == 7, "a load with no room");
    }
}

int main(void) {
    empty_slices();
    loads();
    wild_handles();
    for (size_t rows = 1; rows < 60; rows += 7) {
        damaged(rows, multigrid_default_options());
        damaged(rows, greatest());
        damaged(rows, maximum());
    }
    printf("wild:");
    for (int question = 0; question < 32; question++)
        if (answers[question]) printf(" %d:%llu", question, (unsigned long long)answers[question]);
    printf(", %d failures\n", failures);
    return failures != 0;
}
