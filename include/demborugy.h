/* The receiver for C: the functions of the static library libbridge.a, which `make library` proves and builds.
 *
 * docs/FORMAT.md has lines, the store and the refusals. Each function is proved for all bytes that it is given. The caller owes this:
 *  - a pointer isn't NULL, even where its length is 0, and as many bytes as the length says may be read there (and written, if it isn't const);
 *  - what may be written overlaps nothing else that is given;
 *  - the processor has what x86-64-v2 names, SSE4.2 and all before it: the library is built for such, and doesn't check.
 */
#ifndef DEMBORUGY_H
#define DEMBORUGY_H

#include <stddef.h>
#include <stdint.h>

#ifdef __cplusplus
extern "C" {
#endif

enum {
    DEMBORUGY_LINE = 46,      /* the bytes of a line */
    DEMBORUGY_SLOT = 1003,    /* the bytes of a slot of the store */
    DEMBORUGY_SLOTS = 60,     /* how many slots a store may have */
    DEMBORUGY_ROWS = 25,      /* the rows of a page */
    DEMBORUGY_COLUMNS = 40    /* the letters of a row */
};

/* What taking a line answers. */
enum {
    DEMBORUGY_TOOK = 0,          /* the line was taken */
    DEMBORUGY_LOST = 1,          /* it can't be made out */
    DEMBORUGY_FULL = 2,          /* there is no room for its page */
    DEMBORUGY_REFUSED_LINE = 3,  /* turned away with number 1: it isn't 46 bytes long */
    DEMBORUGY_REFUSED_STORE = 4  /* turned away with number 2: the store isn't as it should be */
};

/* Takes a line into the store. Of all answers but DEMBORUGY_TOOK the store is as it was. */
uint64_t demborugy_take_line(const uint8_t *line, size_t line_length, uint8_t *store, size_t store_length);

/* The place of a refusal: the line's length, or the first slot that isn't as it should be; UINT64_MAX if the line isn't turned away. */
uint64_t demborugy_refusal_place(const uint8_t *line, size_t line_length, const uint8_t *store, size_t store_length);

/* Takes lines that are laid end to end, as if each came alone, and adds to *lost and *full how many are lost and for how many there is no room; a count
 * stops at its largest. The store is checked once. DEMBORUGY_TOOK, or DEMBORUGY_REFUSED_LINE if they aren't whole lines, or DEMBORUGY_REFUSED_STORE;
 * if they are turned away nothing changes. */
uint64_t demborugy_take_lines(const uint8_t *lines, size_t lines_length, uint8_t *store, size_t store_length, uint64_t *lost, uint64_t *full);

/* The place of a refusal of many lines: their length, or the first slot that isn't as it should be; UINT64_MAX if they aren't turned away. */
uint64_t demborugy_lines_refusal_place(const uint8_t *lines, size_t lines_length, const uint8_t *store, size_t store_length);

/* The length of a row of a page, 40, and in *place where it begins in the store, 0 being a letter that isn't known.
 * Both are 0 if the page isn't there, there is no such row, or the store isn't as it should be. */
size_t demborugy_row(const uint8_t *store, size_t store_length, uint64_t page, uint64_t row, size_t *place);

/* The version in which a page stands in the store, 0 to 255; 256 if the page isn't there, or the store isn't as it should be. */
uint64_t demborugy_version(const uint8_t *store, size_t store_length, uint64_t page);

#ifdef __cplusplus
}
#endif

#endif
