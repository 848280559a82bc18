/* Matrix Market files: a text to an MX record, and a record to a text (docs/MATRIX-MARKET.md). The functions stand in libmatrix_market_c.a, of
 * which a program that solves needs nothing; both use no heap, and of the C library memcpy and memset alone. A refusal has the numbers and sentences of
 * multigrid.h. */
#ifndef HIFEWUGBE_MATRIX_MARKET_H
#define HIFEWUGBE_MATRIX_MARKET_H

#include "multigrid.h"

#ifdef __cplusplus
extern "C" {
#endif

/* The answer of a conversion. */
struct multigrid_converted {
    struct multigrid_answer answer;
    uint64_t length; /* bytes at the start of the output; 0 where it is refused */
};

/* The MX record of a text, and zeros behind it; refused, zeros alone. The output needs 14 + 4 rows + 12 entries bytes, with the mirrors of a symmetric
 * file. The other slices are scratch: rows, columns, values, order and links for as many elements as the file states entries, a symmetric one twice as many,
 * starts for one more than rows. Asks 38 of the header and the size line, 1, 9 of the scratch, then entry by entry 38 and 39, then 1 of the entries with
 * their mirrors, then 9 of the output. */
struct multigrid_converted multigrid_read_matrix_file(const uint8_t *text, size_t text_length, uint32_t *rows, size_t rows_length,
                                                      uint32_t *columns, size_t columns_length, double *values,
                                                      size_t values_length, uint32_t *starts, size_t starts_length,
                                                      uint32_t *order, size_t order_length, uint32_t *links,
                                                      size_t links_length, uint8_t *out, size_t out_length);

/* The text of an MX record, symmetric or, where the number is 0, general, and zeros behind it; refused, zeros alone. An entry takes at most 33 bytes
 * of text, and the rest at most 128. Asks 32 of the record's mark and length, 1 to 3, then entry by entry 39 and, symmetric, 40, then 9. */
struct multigrid_converted multigrid_write_matrix_file(uint64_t symmetric, const uint8_t *record, size_t record_length,
                                                       uint8_t *out, size_t out_length);

#ifdef __cplusplus
}
#endif

#endif
