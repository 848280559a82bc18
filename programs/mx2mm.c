/* An MX record from standard input to a Matrix Market text on standard output (docs/MATRIX-MARKET.md).
   usage: mx2mm symmetric|general */
#include "convert.h"

#include <string.h>

/* Of an entry: two places of at most 5 digits, a value of at most 20 bytes, two spaces and a line feed; of the file: the header and the sizes. */
#define MOST_OF_ENTRY 33
#define MOST_OF_HEAD 128

int main(int count, char **words) {
    if (count != 2 || (strcmp(words[1], "symmetric") && strcmp(words[1], "general"))) {
        fprintf(stderr, "usage: mx2mm symmetric|general\n");
        return 2;
    }
    size_t length;
    uint8_t *record = input(&length);
    /* An entry takes 12 bytes of the record. */
    size_t size = MOST_OF_HEAD + length / 12 * MOST_OF_ENTRY;
    uint8_t *out = room(size, 1);
    return tell(multigrid_write_matrix_file(words[1][0] == 's', record, length, out, size), out);
}
