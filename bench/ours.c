/* The proved receiver as the driver calls it: the functions of libbridge.a. */
#include "receiver.h"

static uint64_t take_lines(const uint8_t *lines, size_t lines_length, uint8_t *store, size_t store_length, struct counts *counts)
{
    return demborugy_take_lines(lines, lines_length, store, store_length, &counts->lost, &counts->full);
}

const struct receiver receiver_ours = {"ours", demborugy_take_line, take_lines, demborugy_refusal_place, demborugy_row, demborugy_version};
