/* A Matrix Market text from standard input to an MX record on standard output (docs/MATRIX-MARKET.md).
   usage: mm2mx */
#include "convert.h"

#define MOST_ROWS 65536
/* Of the largest file that is read: 1,048,576 entries, which a symmetric one may double before it is refused. */
#define MOST_ENTRIES 2097152
/* The least bytes that the line of an entry has. */
#define LEAST_LINE 6

/* With room for so many entries, mirrors included. */
static int convert(const uint8_t *text, size_t length, size_t most, int last) {
    size_t size = 14 + 4 * MOST_ROWS + 12 * most;
    uint8_t *out = room(size, 1);
    uint32_t *rows = room(most, 4), *columns = room(most, 4), *order = room(most, 4), *links = room(most, 4);
    uint32_t *starts = room(MOST_ROWS + 1, 4);
    double *values = room(most, 8);
    struct multigrid_converted converted = multigrid_read_matrix_file(text, length, rows, most, columns, most, values, most, starts,
                                                                      MOST_ROWS + 1, order, most, links, most, out, size);
    /* A file that states more entries than it has bytes for: with the most room there is, what is wrong with it is told. */
    if (converted.answer.question == MULTIGRID_STORE_TOO_SMALL && !last)
        return convert(text, length, MOST_ENTRIES, 1);
    return tell(converted, out);
}

int main(int count, char **words) {
    (void)words;
    if (count != 1) {
        fprintf(stderr, "usage: mm2mx\n");
        return 2;
    }
    size_t length;
    uint8_t *text = input(&length);
    size_t most = 2 * (length / LEAST_LINE + 1);
    return convert(text, length, most < MOST_ENTRIES ? most : MOST_ENTRIES, 0);
}
