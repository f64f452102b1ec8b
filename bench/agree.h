/* Agreement of all receivers on random calls. */
#ifndef BENCH_AGREE_H
#define BENCH_AGREE_H

#include <stdbool.h>
#include <stdint.h>

#include "receiver.h"

/* Whether four receivers give and leave the same on so many random calls; says the first difference. */
bool agree(const struct receiver *const *all, uint64_t seed, unsigned calls);

#endif
