/* A receiver in C with SSE2 by hand: the check of the letters and their merge. */
#include "receiver.h"

#include <emmintrin.h>
#include <stdbool.h>

#define NAME receiver_sse2
#define LABEL "C, SSE2 by hand"

/* What of sixteen bytes is no letter: 0 where a byte is from 32 to 127, else the byte. */
static inline __m128i no_letters(const uint8_t *bytes)
{
    __m128i x = _mm_loadu_si128((const __m128i *)bytes);
    return _mm_andnot_si128(_mm_cmpgt_epi8(x, _mm_set1_epi8(31)), x);
}

/* Whether each of a slot's thousand letters is 0 or from 32 to 127. Two sums, so that neither waits for the other; the last load overlaps. */
static inline bool letters_fine(const uint8_t *letters)
{
    __m128i even = no_letters(letters + 984), odd = _mm_setzero_si128();
    for (int k = 0; k < 992; k += 32) {
        even = _mm_or_si128(even, no_letters(letters + k));
        odd = _mm_or_si128(odd, no_letters(letters + k + 16));
    }
    __m128i zero = _mm_cmpeq_epi8(_mm_or_si128(even, odd), _mm_setzero_si128());
    return _mm_movemask_epi8(zero) == 0xffff;
}

/* The letters of those bytes that came as one, and the old ones elsewhere. The parity of a byte is gathered in its highest bit. */
static inline __m128i merged(__m128i came, __m128i old)
{
    __m128i letter = _mm_and_si128(came, _mm_set1_epi8(127));
    __m128i parity = _mm_xor_si128(came, _mm_slli_epi16(came, 4));
    parity = _mm_xor_si128(parity, _mm_slli_epi16(parity, 2));
    parity = _mm_xor_si128(parity, _mm_slli_epi16(parity, 1));
    __m128i set = _mm_and_si128(parity, _mm_cmpgt_epi8(letter, _mm_set1_epi8(31)));
    set = _mm_cmpgt_epi8(_mm_setzero_si128(), set);
    return _mm_or_si128(_mm_and_si128(set, letter), _mm_andnot_si128(set, old));
}

static inline void merge_letters(uint8_t *row, const uint8_t *came)
{
    for (int c = 0; c < 32; c += 16) {
        __m128i old = _mm_loadu_si128((const __m128i *)(row + c));
        __m128i new = _mm_loadu_si128((const __m128i *)(came + c));
        _mm_storeu_si128((__m128i *)(row + c), merged(new, old));
    }
    __m128i old = _mm_loadl_epi64((const __m128i *)(row + 32));
    __m128i new = _mm_loadl_epi64((const __m128i *)(came + 32));
    _mm_storel_epi64((__m128i *)(row + 32), merged(new, old));
}

#include "receiver_common.h"
