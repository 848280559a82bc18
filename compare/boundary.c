/* Calls every function of probe.h once from C: the header compiles, the archive has each name, and arguments
 * arrive in their places. */
#include <stdio.h>
#include <string.h>

#include "probe.h"

static int failures = 0;

static void expect(int holds, const char *name) {
    if (!holds) {
        printf("from C: %s answers something else\n", name);
        failures++;
    }
}

static int valid(uint64_t pre_sweeps, uint64_t coarse_max_iterations, uint64_t max_aggregate_cells) {
    return probe_validate(2, 1, pre_sweeps, 2, 1, 1, 4, 10, 64, 2, 4, 1, 1e-12, 0.01, coarse_max_iterations,
                          1, max_aggregate_cells);
}

static int equal(const uint32_t *found, const uint32_t *due, size_t n) {
    return memcmp(found, due, n * sizeof *due) == 0;
}

/* The matrix [2 -1; -1 2] in compressed rows, and arrays that each question refuses. */
static void arrays(void) {
    const uint32_t offsets[3] = {0, 2, 4}, columns[4] = {0, 1, 0, 1}, falling[4] = {1, 0, 0, 1};
    const double values[4] = {2, -1, -1, 2};

    expect(probe_check_matrix(2, offsets, 3, columns, 4, values, 4) == 0 &&
               probe_check_matrix(65537, offsets, 3, columns, 4, values, 4) == 1 &&
               probe_check_matrix(2, offsets, 3, columns, 4, values, 3) == 2 &&
               probe_check_matrix(2, offsets, 3, falling, 4, values, 4) == 3,
           "probe_check_matrix");
    expect(probe_check_weights(values, 1, 1) == 0 && probe_check_weights(values, 1, 2) == 4 &&
               probe_check_weights(values, 2, 2) == 5,
           "probe_check_weights");
}

/* A path of 4 rows, diagonal 2, off-diagonal -1, equal weights: two aggregates. */
static void path(void) {
    uint32_t w[55] = {0, 2, 5, 8, 10, 0, 1, 0, 1, 2, 1, 2, 3, 2, 3};
    double f[28] = {2, -1, -1, 2, -1, -1, 2, -1, -1, 2, 1, 1, 1, 1, 1, 1, 1, 1, 1, 1};
    const uint32_t map[4] = {0, 0, 1, 1}, starts[3] = {0, 2, 4}, columns[4] = {0, 1, 0, 1};
    const uint32_t positions[10] = {0, 0, 0, 0, 1, 2, 3, 3, 3, 3}, one[4] = {0, 0, 0, 0};
    double given[10];

    expect(probe_pairs(w, 55, f, 28, 4, 10, 0, 5, 15, 10, 0, 1, 0) == 2 && equal(w + 15, map, 4), "probe_pairs");
    expect(probe_coarse_pattern(w, 55, 4, 10, 2, 0, 5, 15, 19, 29, 32, 42) == 4 &&
               equal(w + 19, positions, 10) && equal(w + 29, starts, 3) && equal(w + 32, columns, 4),
           "probe_coarse_pattern");
    memcpy(given, f, sizeof given);
    probe_sum_given(w, 55, given, 10, f, 28, 10, 19, 4, 20);
    expect(f[20] == 2 && f[21] == -1 && f[22] == -1 && f[23] == 2, "probe_sum_given");
    probe_sum_entries(w, 55, f, 28, 10, 19, 0, 4, 20);
    expect(f[20] == 2 && f[21] == -1 && f[22] == -1 && f[23] == 2, "probe_sum_entries");
    f[21] = -4;
    w[50] = 1;
    w[51] = 2;
    probe_symmetrize(w, 55, f, 28, 1, 50, 51, 4, 20);
    expect(f[20] == 2 && f[21] == -2.5 && f[22] == -2.5 && f[23] == 2, "probe_symmetrize");
    probe_restrict_weights(w, 55, f, 28, 2, 10, 19, 29, 32, 10, 4, 24);
    expect(f[24] == 0 && f[25] == 1 && f[26] == 1 && f[27] == 0, "probe_restrict_weights");
    w[53] = 0;
    w[54] = 0;
    probe_compose(w, 55, 4, 15, 53, 2);
    expect(equal(w + 15, one, 4), "probe_compose");
}

/* The matrix [2 -1; -1 2] and a third row with its diagonal entry alone: one face. Words: offsets 0 2 4 5, columns
 * 0 1 0 1 2, then face offsets, diagonal entries, the face's column, its entry, its mirror and the coupled rows. */
static void faces(void) {
    uint32_t w[21] = {0, 2, 4, 5, 0, 1, 0, 1, 2};
    const uint32_t found[12] = {0, 1, 1, 1, 0, 3, 4, 1, 1, 2, 0, 1};
    uint64_t place[2] = {7, 7};

    expect(probe_face_offsets(w, 21, 3, 5, 1, 0, 4, 9, 13, 16, 17, 18) == 1 && equal(w + 9, found, 4),
           "probe_face_offsets");
    probe_fill_faces(w, 21, 3, 5, 1, 0, 4, 9, 13, 16, 17, 18);
    expect(equal(w + 16, found + 7, 2), "probe_fill_faces");
    expect(probe_mirrors(w, 21, 3, 5, 1, 0, 4, 9, 13, 16, 17, 18) == 1 && equal(w + 18, found + 9, 1),
           "probe_mirrors");
    expect(probe_diagonals(w, 21, 3, 5, 1, 0, 4, 9, 13, 16, 17, 18, 9, place, 2) == 0 && place[0] == 7 &&
               equal(w + 13, found + 4, 3),
           "probe_diagonals");
    expect(probe_coupled_count(w, 21, 3, 5, 1, 0, 4, 9, 13, 16, 17, 18) == 2, "probe_coupled_count");
    probe_coupled_rows(w, 21, 3, 5, 1, 0, 4, 9, 13, 16, 17, 18, 19);
    expect(equal(w + 9, found, 12), "probe_coupled_rows");
    /* The third row's entry in the second column: it has no mirror, and the row has no diagonal entry. */
    w[8] = 1;
    expect(probe_mirrors(w, 21, 3, 5, 1, 0, 4, 9, 13, 16, 17, 18) == 0, "probe_mirrors");
    expect(probe_diagonals(w, 21, 3, 5, 1, 0, 4, 9, 13, 16, 17, 18, 9, place, 2) == 11 && place[0] == 9 &&
               place[1] == 2,
           "probe_diagonals");
}

/* The matrix [2 -1; -1 2]: one face. Words: offsets 0 1 1, neighbour 1, diagonal entries 0 3, face entry 1, mirror 2,
 * then the compressed rows 0 2 4 with columns 0 1 0 1, and both rows coupled. */
static void kernel(void) {
    const uint32_t w[17] = {0, 1, 1, 1, 0, 3, 1, 2, 0, 2, 4, 0, 1, 0, 1, 0, 1};
    const double given[4] = {8, -4, -4, 8};
    double f[30] = {2, -1, -1, 2};
    uint64_t place[2] = {7, 7};

    expect(probe_mirrors_agree(w, 17, f, 4, 1, 6, 7) == 1, "probe_mirrors_agree");
    expect(probe_take_faces(w, 17, given, 4, f, 30, 1, 6, 7, 20) == 1 && f[20] == -4, "probe_take_faces");
    expect(probe_update_given(w, 17, given, 4, f, 30, 2, 5, 7, 0, 3, 4, 4, 4, 6, 0, 0, place, 2) == 0 && f[4] == -4 &&
               f[5] == 8 && f[8] == 0.125 && place[0] == 7,
           "probe_update_given");
    expect(probe_update(w, 17, f, 30, 2, 5, 7, 0, 3, 4, 4, 4, 6, 0, 0, place, 2) == 0 && f[4] == -1 && f[5] == 2 &&
               f[8] == 0.5 && place[0] == 7,
           "probe_update");
    f[3] = -2;
    expect(probe_update(w, 17, f, 30, 2, 5, 7, 0, 3, 4, 4, 4, 6, 0, 9, place, 2) == 12 && place[0] == 9 &&
               place[1] == 1,
           "probe_update");
    f[3] = 2;
    f[6] = 2;
    f[8] = 0.5;
    f[9] = 1;
    f[10] = 0;
    f[11] = 3;
    f[12] = 5;
    probe_apply(w, 17, f, 30, 2, 5, 7, 0, 3, 4, 11, 13);
    expect(f[13] == 1 && f[14] == 7, "probe_apply");
    probe_residual(w, 17, f, 30, 2, 5, 7, 0, 3, 4, 11, 9, 13);
    expect(f[13] == 0 && f[14] == -7, "probe_residual");
    probe_row_sums_into(w, 17, f, 30, 2, 5, 7, 0, 3, 4, 13);
    expect(f[13] == 1 && f[14] == 1, "probe_row_sums_into");
    f[0] = 4;
    f[1] = 2;
    f[2] = 2;
    f[3] = 10;
    expect(probe_cholesky(w, 17, f, 30, 2, 4, 8, 11, 0, 2, 15, 13, 0, place, 2) == 0 && f[13] == 2 && f[14] == 1 &&
               f[15] == 3,
           "probe_cholesky");
    f[16] = 8;
    f[17] = 40;
    probe_solve_factor(f, 30, 2, 13, 16, 18);
    expect(f[18] == 0 && f[19] == 4, "probe_solve_factor");
    expect(probe_solve(w, 17, f, 30, 2, 4, 8, 11, 0, 2, 15, 13, 7, 16, 18, 20, place, 2) == 0 && f[18] == 0 &&
               f[19] == 4,
           "probe_solve");
}

/* The matrix [2 -1; -1 2] again. Words: offsets 0 1 1, neighbour 1. Floats: coefficient, diagonal, inverse, DIC, then
 * right-hand side 3 0, x, work and correction. The solution is 2 1. */
static void smoothers(void) {
    const uint32_t w[4] = {0, 1, 1, 1};
    double f[15] = {-1, 2, 2, 0.5, 0.5, 0, 0, 3, 0};
    uint64_t place[2] = {7, 7};

    expect(probe_update_dic_diagonal(w, 4, f, 15, 2, 1, 3, 0, 3, 0, 5, 9, place, 2) == 0 && f[5] == 0.5 &&
               f[6] == 1 / 1.5 && place[0] == 7,
           "probe_update_dic_diagonal");
    f[1] = 0.5;
    expect(probe_update_dic_diagonal(w, 4, f, 15, 2, 1, 3, 0, 3, 0, 5, 9, place, 2) == 16 && place[0] == 9 &&
               place[1] == 1,
           "probe_update_dic_diagonal");
    f[1] = 2;
    f[5] = 0.5;
    f[6] = 0.75;
    probe_gauss_seidel(w, 4, f, 15, 2, 1, 3, 0, 3, 0, 7, 9, 11, 0);
    expect(f[9] == 1.5 && f[10] == 0.75 && f[11] == 3 && f[12] == 1.5, "probe_gauss_seidel");
    f[9] = 0;
    f[10] = 0;
    probe_dic_sweep(w, 4, f, 15, 2, 1, 3, 0, 3, 0, 5, 7, 9, 11, 13);
    expect(f[9] == 2.0625 && f[10] == 1.125 && f[13] == 2.0625 && f[14] == 1.125, "probe_dic_sweep");
    f[9] = 0;
    f[10] = 0;
    expect(probe_smooth(w, 4, f, 15, 2, 1, 3, 0, 3, 0, 5, 1, 7, 9, 11, 13, 1, place, 2) == 0 && f[9] == 1.875 &&
               f[10] == 0.75,
           "probe_smooth");
}

/* Two rows in one aggregate. */
static void corrections(void) {
    const uint32_t w[2] = {0, 0};
    double f[20] = {3, 4, 0, 0, 1, 2, 5, 7, 1, 1, 2, 2};
    double out[1] = {0};
    uint64_t count[1] = {0};

    expect(probe_measure(f, 20, 2, 0, 0, 1.0, out, 1) == 1 && out[0] == 5, "probe_measure");
    expect(probe_normalization(f, 20, 2, 2, 0, 4, 2, 1) == 10, "probe_normalization");
    expect(probe_threshold(1.0, 0.5, 4.0) == 2, "probe_threshold");
    expect(probe_relative(4.0, 1.0) == 0.25, "probe_relative");
    probe_restrict(w, 2, f, 20, 2, 1, 0, 0, 2);
    expect(f[2] == 7, "probe_restrict");
    probe_prolong(w, 2, f, 20, 2, 1, 0, 2, 0);
    expect(f[0] == 7 && f[1] == 7, "probe_prolong");
    probe_add_prolonged(w, 2, f, 20, 2, 1, 0, 2, 0);
    expect(f[0] == 14 && f[1] == 14, "probe_add_prolonged");
    probe_prolong(w, 2, f, 20, 2, 1, 0, 2, 0);
    probe_subtract(f, 20, 2, 6, 4, 12);
    expect(f[12] == 4 && f[13] == 5, "probe_subtract");
    expect(probe_correction_factor(f, 20, 2, 8, 4, 10, out, 1) == 0 && out[0] == 0.75, "probe_correction_factor");
    probe_add_scaled(f, 20, 2, 0.5, 8, 4, 10, 0, 6);
    expect(f[6] == 5.5 && f[7] == 14.5, "probe_add_scaled");
    probe_add_plain(f, 20, 2, 8, 6);
    expect(f[6] == 6.5 && f[7] == 15.5, "probe_add_plain");
    /* One row: solution 10, no stored pair, residual 4, direction 6, image 2; it moves by 4 * 3. */
    f[0] = 10;
    f[3] = 4;
    f[4] = 6;
    f[5] = 2;
    expect(probe_correct(f, 20, 1, 1, 0, 0, 1, 2, 3, 4, 5, count, 1) == 0 && count[0] == 1 && f[0] == 22,
           "probe_correct");
}

int main(void) {
    const double store[6] = {9.0, 3.0, 4.0, 9.0, 1.0, 2.0};
    double out[1] = {0.0};

    expect(probe_is_finite(1.0) == 1, "probe_is_finite");
    expect(probe_abs(-2.5) == 2.5, "probe_abs");
    expect(probe_max_num(1.0, 2.0) == 2.0, "probe_max_num");
    expect(probe_square(-3.0) == 9.0, "probe_square");
    expect(probe_sqrt(2.25) == 1.5, "probe_sqrt");
    expect(probe_to_bits(1.0) == UINT64_C(0x3ff0000000000000), "probe_to_bits");
    expect(probe_of_bits(UINT64_C(0x4000000000000000)) == 2.0, "probe_of_bits");
    expect(probe_saturating_add(UINT64_MAX, 1) == UINT64_MAX, "probe_saturating_add");
    expect(probe_saturating_mul(6, 7) == 42, "probe_saturating_mul");
    expect(valid(0, 500, 0) == 1 && valid(5, 500, 0) == 0 && valid(0, 0, 0) == 0 && valid(0, 500, 1) == 0,
           "probe_validate");
    expect(probe_dot(store, 6, 1, 4, 2, out, 1) == 1 && out[0] == 11.0, "probe_dot");
    expect(probe_norm_l2(store, 6, 1, 2, out, 1) == 1 && out[0] == 5.0, "probe_norm_l2");
    expect(probe_all_finite(store, 6, 4, 2) == 1, "probe_all_finite");
    arrays();
    path();
    faces();
    kernel();
    smoothers();
    corrections();
    return failures != 0;
}
