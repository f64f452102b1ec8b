/* What the driver asks of a receiver, with the signatures of include/demborugy.h, so that all of them are called alike. */
#ifndef BENCH_RECEIVER_H
#define BENCH_RECEIVER_H

#include <stddef.h>
#include <stdint.h>

#include "demborugy.h"

/* How many lines of a batch were lost, and for how many there was no room. A count stops at its largest. */
struct counts {
    uint64_t lost;
    uint64_t full;
};

struct receiver {
    const char *name;
    uint64_t (*take_line)(const uint8_t *line, size_t line_length, uint8_t *store, size_t store_length);
    /* Lines laid end to end. 0, or 2 + n if the batch is turned away with number n: 1 if its length isn't whole lines, 2 if the store isn't as it
     * should be; nothing changes then. */
    uint64_t (*take_lines)(const uint8_t *lines, size_t lines_length, uint8_t *store, size_t store_length, struct counts *counts);
    uint64_t (*refusal_place)(const uint8_t *line, size_t line_length, const uint8_t *store, size_t store_length);
    size_t (*row)(const uint8_t *store, size_t store_length, uint64_t page, uint64_t row, size_t *place);
    uint64_t (*version)(const uint8_t *store, size_t store_length, uint64_t page);
};

extern const struct receiver receiver_ours;       /* the proved one, of libbridge.a */
extern const struct receiver receiver_scalar;     /* receiver_plain.c, nothing vectorised */
extern const struct receiver receiver_vectorised; /* receiver_plain.c, as the compiler vectorises it */
extern const struct receiver receiver_sse2;       /* receiver_sse2.c */

#endif
