/* What both receivers in C have in common: the numbers of a line, slots, rows, and the entries over a check of the store and a merge of
 * letters, which each of them has in its own way. The file that includes this defines NAME, letters_fine and merge_letters before. */
#include <stdbool.h>
#include <string.h>

#include "numbers.h"

enum { LINE = 46, NUMBERS = 6, SLOT = 1003, SLOTS = 60, LETTERS_AT = 3, ROWS = 25, COLUMNS = 40 };
enum { TOOK, LOST, FULL, REFUSED_LINE, REFUSED_STORE };

static const size_t NO_FAULT = SIZE_MAX;

/* Where each page stands: its slot and one more, 0 if it is in none. */
struct index {
    uint8_t slot[256];
};

struct header {
    uint8_t page, version, row;
};

/* Checks the store and fills the index: the first slot that isn't as it should be, or NO_FAULT. */
static size_t check_store(const uint8_t *store, size_t length, struct index *index)
{
    size_t slots = length / SLOT < SLOTS ? length / SLOT : SLOTS;
    memset(index, 0, sizeof *index);
    for (size_t i = 0; i < slots; i++) {
        const uint8_t *slot = store + SLOT * i;
        if (slot[0] > 1 || !letters_fine(slot + LETTERS_AT))
            return i;
        if (slot[0] == 1) {
            if (index->slot[slot[1]] != 0)
                return i;
            index->slot[slot[1]] = (uint8_t)(i + 1);
        }
    }
    return slots * SLOT == length ? NO_FAULT : slots;
}

/* Reads the six numbers; false if one of them is none, or there is no such row. */
static bool read_header(const uint8_t *line, struct header *header)
{
    unsigned n0 = numbers[line[0]], n1 = numbers[line[1]], n2 = numbers[line[2]];
    unsigned n3 = numbers[line[3]], n4 = numbers[line[4]], n5 = numbers[line[5]];
    header->page = (uint8_t)(n0 << 4 | n1);
    header->version = (uint8_t)(n2 << 4 | n3);
    header->row = (uint8_t)(n4 << 4 | n5);
    return (n0 | n1 | n2 | n3 | n4 | n5) < 16 && header->row < ROWS;
}

/* Takes a line into a store that was checked. Every slot below *next is taken. */
static inline int put_line(const uint8_t *line, uint8_t *store, size_t slots, struct index *index, size_t *next)
{
    struct header header;
    if (!read_header(line, &header))
        return LOST;
    size_t i = index->slot[header.page];
    if (i == 0) {
        while (*next < slots && store[SLOT * *next] != 0)
            ++*next;
        if (*next == slots)
            return FULL;
        i = *next + 1;
        index->slot[header.page] = (uint8_t)i;
    }
    uint8_t *slot = store + SLOT * (i - 1);
    if (slot[0] == 0 || slot[2] != header.version) {
        slot[0] = 1;
        slot[1] = header.page;
        slot[2] = header.version;
        memset(slot + LETTERS_AT, 0, ROWS * COLUMNS);
    }
    merge_letters(slot + LETTERS_AT + COLUMNS * header.row, line + NUMBERS);
    return TOOK;
}

static uint64_t take_line(const uint8_t *line, size_t line_length, uint8_t *store, size_t store_length)
{
    struct index index;
    size_t next = 0;
    if (line_length != LINE)
        return REFUSED_LINE;
    if (check_store(store, store_length, &index) != NO_FAULT)
        return REFUSED_STORE;
    return (uint64_t)put_line(line, store, store_length / SLOT, &index, &next);
}

static uint64_t take_lines(const uint8_t *lines, size_t lines_length, uint8_t *store, size_t store_length, struct counts *counts)
{
    struct index index;
    size_t next = 0, slots = store_length / SLOT;
    if (lines_length % LINE != 0)
        return REFUSED_LINE;
    if (check_store(store, store_length, &index) != NO_FAULT)
        return REFUSED_STORE;
    for (const uint8_t *line = lines; line != lines + lines_length; line += LINE) {
        int done = put_line(line, store, slots, &index, &next);
        if (done == LOST)
            counts->lost += counts->lost != UINT64_MAX;
        else if (done == FULL)
            counts->full += counts->full != UINT64_MAX;
    }
    return 0;
}

static uint64_t refusal_place(const uint8_t *line, size_t line_length, const uint8_t *store, size_t store_length)
{
    struct index index;
    (void)line;
    if (line_length != LINE)
        return line_length;
    size_t fault = check_store(store, store_length, &index);
    return fault == NO_FAULT ? UINT64_MAX : fault;
}

/* The slot of a page and one more, 0 if it is in none or the store isn't as it should be. */
static size_t slot_of(const uint8_t *store, size_t store_length, uint64_t page)
{
    struct index index;
    if (page > 255 || check_store(store, store_length, &index) != NO_FAULT)
        return 0;
    return index.slot[page];
}

static size_t row(const uint8_t *store, size_t store_length, uint64_t page, uint64_t at, size_t *place)
{
    size_t i = at < ROWS ? slot_of(store, store_length, page) : 0;
    *place = i == 0 ? 0 : SLOT * (i - 1) + LETTERS_AT + COLUMNS * at;
    return i == 0 ? 0 : COLUMNS;
}

static uint64_t version(const uint8_t *store, size_t store_length, uint64_t page)
{
    size_t i = slot_of(store, store_length, page);
    return i == 0 ? 256 : store[SLOT * (i - 1) + 2];
}

const struct receiver NAME = {LABEL, take_line, take_lines, refusal_place, row, version};
