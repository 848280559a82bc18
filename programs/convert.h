/* What both conversions share: standard input whole, and an answer on standard output. */
#ifndef CONVERT_H
#define CONVERT_H

#include "../include/matrix_market.h"

#include <stdio.h>
#include <stdlib.h>

static void fail(const char *what) {
    fprintf(stderr, "%s\n", what);
    exit(2);
}

static void *room(size_t count, size_t size) {
    void *memory = malloc(count * size);
    if (!memory)
        fail("there is not enough memory");
    return memory;
}

/* Standard input to its end. */
static uint8_t *input(size_t *length) {
    size_t have = 0, size = 65536;
    uint8_t *bytes = room(size, 1);
    for (;;) {
        size_t got = fread(bytes + have, 1, size - have, stdin);
        have += got;
        if (got == 0)
            break;
        if (have == size) {
            size *= 2;
            bytes = realloc(bytes, size);
            if (!bytes)
                fail("there is not enough memory");
        }
    }
    if (ferror(stdin))
        fail("standard input cannot be read");
    *length = have;
    return bytes;
}

/* The bytes of the answer, or "refused" and the number; the exit status is 1 where it is refused. */
static int tell(struct multigrid_converted converted, const uint8_t *out) {
    if (converted.answer.question) {
        printf("refused %llu\n", (unsigned long long)converted.answer.question);
        fprintf(stderr, "%s\n", multigrid_sentence(converted.answer.question));
    } else if (fwrite(out, 1, converted.length, stdout) != converted.length) {
        fail("standard output cannot be written");
    }
    if (fflush(stdout))
        fail("standard output cannot be written");
    return converted.answer.question != 0;
}

#endif
