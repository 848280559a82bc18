/* What crates/probe exports, declared once for C; src/boundary.rs is the same for Rust.
 * A slice is a pointer, then its length. Yes is 1 and no is 0. What a function requires stands beside it:
 * the caller tests it, since the proofs say nothing of other calls. */
#ifndef PROBE_H
#define PROBE_H

#include <stddef.h>
#include <stdint.h>

uint8_t probe_is_finite(double x);
double probe_abs(double x);
double probe_max_num(double a, double b);
double probe_square(double x);
double probe_sqrt(double x);
uint64_t probe_to_bits(double x);
double probe_of_bits(uint64_t bits);
uint64_t probe_saturating_add(uint64_t a, uint64_t b);
uint64_t probe_saturating_mul(uint64_t a, uint64_t b);

/* Whether the controls pass validate. Enums are numbered from 0 in source order. */
uint8_t probe_validate(uint8_t smoother, uint8_t residual_norm, uint64_t pre_sweeps, uint64_t post_sweeps,
                       uint64_t finest_sweeps, uint64_t sweep_level_multiplier, uint64_t max_sweeps,
                       uint64_t coarsest_cells, uint64_t max_levels, uint64_t merge_levels,
                       uint64_t krylov_dimension, uint8_t coarse_solver, double coarse_absolute_tolerance,
                       double coarse_relative_tolerance, uint64_t coarse_max_iterations,
                       uint8_t scale_correction, uint64_t max_aggregate_cells);

/* Whether the answer is finite, and then the answer in out[0].
 * Required: a + n <= f_length, b + n <= f_length, 1 <= out_length; out does not overlap f. */
uint8_t probe_dot(const double *f, size_t f_length, size_t a, size_t b, size_t n, double *out,
                  size_t out_length);
uint8_t probe_norm_l2(const double *f, size_t f_length, size_t a, size_t n, double *out, size_t out_length);

/* Whether each of the n words at x is finite. Required: x + n <= f_length. */
uint8_t probe_all_finite(const double *f, size_t f_length, size_t n, size_t x);

/* 0, or the number of the question that refuses a matrix in compressed rows, 1 to 3, or its weights, 4 or 5.
 * Nothing is required of the arrays. */
uint64_t probe_check_matrix(size_t rows, const uint32_t *offsets, size_t offsets_length, const uint32_t *columns,
                            size_t columns_length, const double *values, size_t values_length);
uint64_t probe_check_weights(const double *weights, size_t weights_length, size_t entries);

/* The aggregate of each row is written to the map, and the sizes of the aggregates behind it; the answer is their
 * count. The strengths are the weights, or, where absolute is not 0, the absolute values of what stands there. Rows
 * upward where forward is not 0. An aggregate of cap rows is full, where cap is not 0.
 * Required: rows <= 65536, offsets + rows + 1 <= map, columns + entries <= map, map + 2 * rows <= w_length,
 * weights + entries <= f_length, each offset at most entries, each column below rows; w does not overlap f. */
size_t probe_pairs(uint32_t *w, size_t w_length, const double *f, size_t f_length, size_t rows, size_t entries,
                   size_t offsets, size_t columns, size_t map, size_t weights, uint8_t absolute,
                   uint8_t forward, uint64_t cap);

/* The coarse pattern and the position of each fine entry in it; the answer is the number of coarse entries. Words
 * from positions on are free to change.
 * Required: rows <= 65536, entries <= 1048576, count <= rows, offsets + rows + 1, columns + entries and map + rows
 * at most positions, positions + entries <= coarse_offsets, coarse_offsets + count + 1 <= coarse_columns,
 * coarse_columns + entries <= scratch, scratch + count + rows + count <= w_length; offsets that start at 0, never
 * fall and end at entries; columns below rows, each entry with its mirror; a map to numbers below count. */
size_t probe_coarse_pattern(uint32_t *w, size_t w_length, size_t rows, size_t entries, size_t count,
                            size_t offsets, size_t columns, size_t map, size_t positions,
                            size_t coarse_offsets, size_t coarse_columns, size_t scratch);

/* Each of the n words at map becomes the word at next that it names.
 * Required: map + n <= w_length, next + count <= w_length, the two do not overlap, each word at map below count. */
void probe_compose(uint32_t *w, size_t w_length, size_t n, size_t map, size_t next, size_t count);

/* Each of the m values is added at its position among the total sums at out, from plus zero.
 * Required: positions + m <= w_length, values + m <= out, out + total <= f_length, each position below total;
 * w does not overlap f. */
void probe_sum_entries(const uint32_t *w, size_t w_length, double *f, size_t f_length, size_t m,
                       size_t positions, size_t values, size_t total, size_t out);

/* The same, of the first m values of a slice of their own.
 * Required: positions + m <= w_length, m <= given_length, out + total <= f_length, each position below total;
 * no overlap. */
void probe_sum_given(const uint32_t *w, size_t w_length, const double *given, size_t given_length, double *f,
                     size_t f_length, size_t m, size_t positions, size_t total, size_t out);

/* Both entries of each face become half of the one plus half of the other.
 * Required: upper + faces <= w_length, lower + faces <= w_length, values + total <= f_length, each of these
 * entries below total; w does not overlap f. */
void probe_symmetrize(const uint32_t *w, size_t w_length, double *f, size_t f_length, size_t faces,
                      size_t upper, size_t lower, size_t total, size_t values);

/* Weights summed as values are, and those of the diagonal zero.
 * Required: as for the sums, and offsets + count + 1 <= w_length, columns + total <= w_length, each offset at
 * most total. */
void probe_restrict_weights(const uint32_t *w, size_t w_length, double *f, size_t f_length, size_t count,
                            size_t m, size_t positions, size_t offsets, size_t columns, size_t weights,
                            size_t total, size_t out);

/* The faces of a pattern, one for each entry above the diagonal. Their offsets at starts; the answer is their number. Then
 * their columns at neighbors and their entries at uppers; then the mirror of each at lowers, and whether each entry has its
 * mirror. The diagonal entry of each row at diagonals: 0, or 11 with level and row at place. The number of rows with an
 * entry off the diagonal, and these rows at to.
 * Required: rows <= 65536, entries <= 1048576, offsets + rows + 1 and columns + entries at most starts; offsets that start
 * at 0, never fall and end at entries, columns below rows; of all but the first two columns that rise within each row, of
 * the last two each row's diagonal entry. Faces is the number of entries above the diagonal, but for the first. What is
 * written ends at or before w_length and lies at or above starts: rows + 1 words at starts, faces words at neighbors,
 * at uppers and at lowers, rows words at diagonals, as many words as coupled rows at to; neighbors + faces <= uppers;
 * 2 <= place_length; no overlap. */
size_t probe_face_offsets(uint32_t *w, size_t w_length, size_t rows, size_t entries, size_t faces, size_t offsets,
                          size_t columns, size_t starts, size_t diagonals, size_t neighbors, size_t uppers,
                          size_t lowers);
void probe_fill_faces(uint32_t *w, size_t w_length, size_t rows, size_t entries, size_t faces, size_t offsets,
                      size_t columns, size_t starts, size_t diagonals, size_t neighbors, size_t uppers,
                      size_t lowers);
uint8_t probe_mirrors(uint32_t *w, size_t w_length, size_t rows, size_t entries, size_t faces, size_t offsets,
                      size_t columns, size_t starts, size_t diagonals, size_t neighbors, size_t uppers,
                      size_t lowers);
uint64_t probe_diagonals(uint32_t *w, size_t w_length, size_t rows, size_t entries, size_t faces, size_t offsets,
                         size_t columns, size_t starts, size_t diagonals, size_t neighbors, size_t uppers,
                         size_t lowers, uint64_t level, uint64_t *place, size_t place_length);
size_t probe_coupled_count(const uint32_t *w, size_t w_length, size_t rows, size_t entries, size_t faces,
                           size_t offsets, size_t columns, size_t starts, size_t diagonals, size_t neighbors,
                           size_t uppers, size_t lowers);
void probe_coupled_rows(uint32_t *w, size_t w_length, size_t rows, size_t entries, size_t faces, size_t offsets,
                        size_t columns, size_t starts, size_t diagonals, size_t neighbors, size_t uppers,
                        size_t lowers, size_t to);

/* A x at out, by the kernel's faces; the fused b - A x; the sums of the rows of A.
 * Required: offsets + rows + 1 and neighbors + faces at most w_length, where faces is the last offset; each offset
 * at most faces, each neighbour below rows; diagonal + rows, inverse + rows and coefficients + faces at most x (rhs for
 * the residual, sums for the sums); rhs + rows <= x, x + rows <= out, out + rows <= f_length; w does not overlap f. */
void probe_apply(const uint32_t *w, size_t w_length, double *f, size_t f_length, size_t rows, size_t diagonal,
                 size_t inverse, size_t offsets, size_t neighbors, size_t coefficients, size_t x, size_t out);
void probe_residual(const uint32_t *w, size_t w_length, double *f, size_t f_length, size_t rows,
                    size_t diagonal, size_t inverse, size_t offsets, size_t neighbors, size_t coefficients,
                    size_t x, size_t rhs, size_t out);
void probe_row_sums_into(const uint32_t *w, size_t w_length, double *f, size_t f_length, size_t rows,
                         size_t diagonal, size_t inverse, size_t offsets, size_t neighbors, size_t coefficients,
                         size_t sums);

/* New values of a kernel from an image's entries. The answer is 0, or the number of the question that refused, 12 or
 * 13, with level and row at place.
 * Required: offsets + rows < w_length, diagonals + rows and faces + (the last offset) at most w_length, each of these
 * words below entries; values + entries <= coefficients, coefficients + (the last offset) <= diagonal,
 * diagonal + rows <= inverse, inverse + rows <= f_length, 2 <= place_length; no overlap. */
uint64_t probe_update(const uint32_t *w, size_t w_length, double *f, size_t f_length, size_t rows,
                      size_t diagonal, size_t inverse, size_t offsets, size_t neighbors, size_t coefficients,
                      size_t entries, size_t diagonals, size_t faces, size_t values, uint64_t level,
                      uint64_t *place, size_t place_length);

/* The same, of an image whose values are the first entries of a slice of their own; those in f are not read.
 * Required beside: entries <= given_length; no overlap. */
uint64_t probe_update_given(const uint32_t *w, size_t w_length, const double *given, size_t given_length, double *f,
                            size_t f_length, size_t rows, size_t diagonal, size_t inverse, size_t offsets,
                            size_t neighbors, size_t coefficients, size_t entries, size_t diagonals, size_t faces,
                            size_t values, uint64_t level, uint64_t *place, size_t place_length);

/* Whether the values of each face's two entries are finite and equal.
 * Required: upper + faces <= w_length, lower + faces <= w_length, each of these words below values_length. */
uint8_t probe_mirrors_agree(const uint32_t *w, size_t w_length, const double *values, size_t values_length,
                            size_t faces, size_t upper, size_t lower);

/* The same, and the value of each face's upper entry at `to`.
 * Required beside: to + faces <= f_length; no overlap. */
uint8_t probe_take_faces(const uint32_t *w, size_t w_length, const double *values, size_t values_length, double *f,
                         size_t f_length, size_t faces, size_t upper, size_t lower, size_t to);

/* The reciprocal pivots of DIC, at d. The answer is 0, or 16 or 17 with level and row at place.
 * Required: as for the sums of the rows, with d for sums; 2 <= place_length; no overlap. */
uint64_t probe_update_dic_diagonal(const uint32_t *w, size_t w_length, double *f, size_t f_length, size_t rows,
                                   size_t diagonal, size_t inverse, size_t offsets, size_t neighbors,
                                   size_t coefficients, size_t d, uint64_t level, uint64_t *place,
                                   size_t place_length);

/* One sweep over x, and back where symmetric is not 0; work is written. One DIC sweep over x; correction is written.
 * Then sweeps of a smoother, numbered from 0 in source order: the answer is 0 or 25, and x is written in any case.
 * Required: as for the residual, with work for out; for the last two also dic + rows <= rhs,
 * work + rows <= correction and correction + rows <= f_length; 2 <= place_length; no overlap. */
void probe_gauss_seidel(const uint32_t *w, size_t w_length, double *f, size_t f_length, size_t rows,
                        size_t diagonal, size_t inverse, size_t offsets, size_t neighbors, size_t coefficients,
                        size_t rhs, size_t x, size_t work, uint8_t symmetric);
void probe_dic_sweep(const uint32_t *w, size_t w_length, double *f, size_t f_length, size_t rows,
                     size_t diagonal, size_t inverse, size_t offsets, size_t neighbors, size_t coefficients,
                     size_t dic, size_t rhs, size_t x, size_t work, size_t correction);
uint64_t probe_smooth(const uint32_t *w, size_t w_length, double *f, size_t f_length, size_t rows,
                      size_t diagonal, size_t inverse, size_t offsets, size_t neighbors, size_t coefficients,
                      size_t dic, uint8_t kind, size_t rhs, size_t x, size_t work, size_t correction,
                      uint64_t sweeps, uint64_t *place, size_t place_length);

/* The packed lower factor of the `size` coupled rows. The answer is 0, or 15 with level and row at place.
 * Required: offsets + rows + 1, columns + entries and coupled + size at most w_length, each coupled row below rows,
 * each offset after the first at most entries; values + entries <= factor, factor + size (size + 1) / 2 <= f_length,
 * 2 <= place_length; no overlap. */
uint64_t probe_cholesky(const uint32_t *w, size_t w_length, double *f, size_t f_length, size_t rows,
                        size_t entries, size_t offsets, size_t columns, size_t values, size_t size,
                        size_t coupled, size_t factor, uint64_t level, uint64_t *place, size_t place_length);

/* x by the packed factor at l. Required: l + n (n + 1) / 2 <= x, rhs + n <= x, x + n <= f_length. */
void probe_solve_factor(double *f, size_t f_length, size_t n, size_t l, size_t rhs, size_t x);

/* The terminal level: x by the diagonal, then its coupled rows by the factor. The answer is 0 or 24.
 * Required: coupled + size <= w_length, each coupled row below rows; factor + size (size + 1) / 2 <= rhs,
 * inverse + rows <= rhs, rhs + rows <= x, x + rows <= work, work + 2 size <= f_length, 2 <= place_length; no overlap. */
uint64_t probe_solve(const uint32_t *w, size_t w_length, double *f, size_t f_length, size_t rows,
                     size_t entries, size_t offsets, size_t columns, size_t values, size_t size, size_t coupled,
                     size_t factor, size_t inverse, size_t rhs, size_t x, size_t work, uint64_t *place,
                     size_t place_length);

/* Whether the norm of the residual is finite, and then the norm in out[0]; the factor of NormalizedL1.
 * Required: each region of n words inside f, 1 <= out_length; out does not overlap f. */
uint8_t probe_measure(const double *f, size_t f_length, size_t n, size_t residual, uint8_t norm, double factor,
                      double *out, size_t out_length);
double probe_normalization(const double *f, size_t f_length, size_t n, size_t x, size_t rhs, size_t product,
                           size_t rowsums, uint8_t norm);

double probe_threshold(double absolute, double relative, double initial);
double probe_relative(double initial, double last);

/* The residuals added up over aggregates, and corrections from them.
 * Required: map + n <= w_length, each of these words below count; residual + n <= out and out + count <= f_length,
 * or out + n (x + n) <= coarse and coarse + count <= f_length; w does not overlap f. */
void probe_restrict(const uint32_t *w, size_t w_length, double *f, size_t f_length, size_t n, size_t count,
                    size_t map, size_t residual, size_t out);
void probe_prolong(const uint32_t *w, size_t w_length, double *f, size_t f_length, size_t n, size_t count,
                   size_t map, size_t coarse, size_t out);
void probe_add_prolonged(const uint32_t *w, size_t w_length, double *f, size_t f_length, size_t n, size_t count,
                         size_t map, size_t coarse, size_t x);

/* rhs - product. Required: rhs + n <= out, product + n <= out, out + n <= f_length. */
void probe_subtract(double *f, size_t f_length, size_t n, size_t rhs, size_t product, size_t out);

/* 0 and the factor in out[0], or 26 or 27. Required: the three regions inside f, 1 <= out_length; no overlap. */
uint64_t probe_correction_factor(const double *f, size_t f_length, size_t n, size_t correction, size_t residual,
                                 size_t product, double *out, size_t out_length);

/* x takes the scaled correction and a Jacobi step, or the plain correction.
 * Required: inverse + n <= x, x + n <= correction, correction + n <= product, product + n <= f_length,
 * residual + n <= f_length, residual and x apart; or both regions inside f and apart. */
void probe_add_scaled(double *f, size_t f_length, size_t n, double factor, size_t correction, size_t residual,
                      size_t product, size_t inverse, size_t x);
void probe_add_plain(double *f, size_t f_length, size_t n, size_t correction, size_t x);

/* One correction of the accelerator. The answer is 0 with the number of stored pairs in count[0], or 28, 29 or 30.
 * Required: 0 < krylov, used <= krylov, solution + n <= directions, directions + krylov n <= images,
 * images + krylov n <= residual, residual + n <= direction, direction + n <= image, image + n <= f_length,
 * 1 <= count_length; no overlap. */
uint64_t probe_correct(double *f, size_t f_length, size_t n, size_t krylov, size_t used, size_t solution,
                       size_t directions, size_t images, size_t residual, size_t direction, size_t image,
                       uint64_t *count, size_t count_length);

#endif
