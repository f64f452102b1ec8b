/* A receiver in plain C, as a good C programmer writes it. It is built twice: with nothing vectorised (-DSCALAR, and the flags of bench/run), and
 * as the compiler vectorises it. */
#include "receiver.h"

#include <stdbool.h>

#ifdef SCALAR
#define NAME receiver_scalar
#define LABEL "C, scalar"
#else
#define NAME receiver_vectorised
#define LABEL "C, vectorised"
#endif

/* Whether each of a slot's thousand letters is 0 or from 32 to 127: what is below 32 as a signed number must be 0. No early end, so that it can
 * be vectorised. */
static bool letters_fine(const uint8_t *letters)
{
    uint8_t wrong = 0;
    for (int k = 0; k < 1000; k++) {
        uint8_t byte = letters[k];
        wrong |= (int8_t)byte > 31 ? 0 : byte;
    }
    return wrong == 0;
}

/* Sets each of forty letters of which the byte that came is one: odd parity, and its seven bits from 32 on. The parity is gathered in the highest
 * bit, and every step stays in eight bits: so both gcc and clang find the vectors. */
static inline void merge_letters(uint8_t *restrict row, const uint8_t *restrict came)
{
    for (int c = 0; c < 40; c++) {
        uint8_t byte = came[c], letter = byte & 127, old = row[c];
        uint8_t parity = byte ^ (uint8_t)(byte << 1);
        parity ^= (uint8_t)(parity << 2);
        parity ^= (uint8_t)(parity << 4);
        row[c] = (int8_t)parity < 0 && letter > 31 ? letter : old;
    }
}

#include "receiver_common.h"
