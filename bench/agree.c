/* Agreement: each random call is made of every receiver, each on a store of its own; answers, counts, places, rows and every byte of the stores
 * must be the same. */
#include "agree.h"

#include <stdbool.h>
#include <stdio.h>
#include <string.h>

#include "air.h"

enum { RECEIVERS = 4, ROOM = 62 * DEMBORUGY_SLOT, MOST_LINES = 60 };

/* A stretch of calls on one store: how long it is, how many pages are sent, and how lines are damaged. */
struct stretch {
    size_t length;
    unsigned pages;
    unsigned of_numbers, of_letters;
};

static uint8_t stores[RECEIVERS][ROOM];
static unsigned answers[5]; /* how often a line was taken, lost, found no room, and was turned away with numbers 1 and 2 */
static uint8_t lines[MOST_LINES * DEMBORUGY_LINE + 64];

/* A store without a page, its free slots with letters here and there; sometimes of a length that is turned away. */
static struct stretch begin(struct chance *chance)
{
    static const unsigned slots[] = {0, 1, 1, 2, 3, 4, 8, 16, 30, 59, 60, 60, 61};
    unsigned count = slots[below(chance, sizeof slots / sizeof *slots)];
    struct stretch s = {.length = count * DEMBORUGY_SLOT};
    s.pages = count + 1 + below(chance, 3);
    s.of_numbers = below(chance, 60000);
    s.of_letters = below(chance, 150000);
    if (below(chance, 12) == 0)
        s.length += 1 + below(chance, 1002);
    memset(stores[0], 0, ROOM);
    for (unsigned k = 0; k < 200 && s.length > 0; k++) {
        unsigned at = below(chance, (unsigned)s.length);
        if (at % DEMBORUGY_SLOT > 2)
            stores[0][at] = (uint8_t)(32 + below(chance, 96));
        else if (at % DEMBORUGY_SLOT > 0)
            stores[0][at] = (uint8_t)below(chance, 256);
    }
    return s;
}

/* A line as it may come: of one of the pages in one of two versions, damaged, beyond the limits too, or any bytes. */
static void random_line(struct chance *chance, const struct stretch *s, uint8_t line[DEMBORUGY_LINE])
{
    unsigned page = 7 * below(chance, s->pages) % 256, version = below(chance, 40) == 0, row = below(chance, 25);
    unsigned kind = below(chance, 20);
    if (kind == 18) {
        page = below(chance, 256);
        version = below(chance, 256);
        row = below(chance, 32);
    }
    make_line(line, page, version, row);
    if (kind < 16)
        damage(chance, line, s->of_numbers, s->of_letters);
    if (kind == 17)
        line[row] = (uint8_t)below(chance, 256);
    if (kind == 19)
        for (unsigned k = 0; k < DEMBORUGY_LINE; k++)
            line[k] = (uint8_t)below(chance, 256);
}

/* A byte of the store that may be wrong from now on: a mark, a letter, or a page that another slot holds too. */
static size_t random_fault(struct chance *chance, const struct stretch *s, uint8_t *byte)
{
    size_t slot = below(chance, (unsigned)((s->length + DEMBORUGY_SLOT - 1) / DEMBORUGY_SLOT)) * (size_t)DEMBORUGY_SLOT;
    size_t at = slot, other = below(chance, (unsigned)s->length);
    switch (below(chance, 3)) {
    case 0:
        *byte = (uint8_t)below(chance, 256);
        break;
    case 1:
        at = slot + 3 + below(chance, 1000);
        *byte = (uint8_t)below(chance, 256);
        break;
    default:
        at = slot + 1;
        *byte = stores[0][other / DEMBORUGY_SLOT * DEMBORUGY_SLOT + 1];
    }
    return at;
}

/* What a call gave. */
struct outcome {
    uint64_t answer, place;
    struct counts counts;
};

/* One call of a receiver, of the kind asked for. */
static struct outcome call(const struct receiver *r, uint8_t *store, size_t length, unsigned kind, size_t bytes, unsigned page, unsigned row)
{
    struct outcome o = {0, 0, {UINT64_MAX - 3, 0}};
    size_t place = 0;
    if (kind < 60)
        o.answer = r->take_line(lines, bytes, store, length);
    else if (kind < 70)
        o.answer = r->take_lines(lines, bytes, store, length, &o.counts);
    else if (kind < 80)
        o.answer = r->refusal_place(lines, bytes, store, length);
    else if (kind < 95)
        o.answer = r->row(store, length, page, row, &place);
    else
        o.answer = r->version(store, length, page);
    o.place = place;
    return o;
}

/* Random lines for a call, and how many bytes of them it is given. */
static size_t random_lines(struct chance *chance, const struct stretch *s, unsigned kind)
{
    unsigned count = kind < 60 || kind >= 70 ? 1 : below(chance, MOST_LINES);
    for (unsigned k = 0; k < count; k++)
        random_line(chance, s, lines + DEMBORUGY_LINE * k);
    if (below(chance, 30) == 0)
        return below(chance, 101);
    return (size_t)count * DEMBORUGY_LINE;
}

/* Makes one call of all, and compares what each gave and left with what the first did. */
static bool same_of_all(const struct receiver *const *all, size_t length, unsigned kind, size_t bytes, unsigned page, unsigned row)
{
    struct outcome first = call(all[0], stores[0], length, kind, bytes, page, row);
    for (unsigned r = 1; r < RECEIVERS; r++) {
        struct outcome other = call(all[r], stores[r], length, kind, bytes, page, row);
        if (memcmp(&first, &other, sizeof first) != 0 || memcmp(stores[0], stores[r], ROOM) != 0) {
            printf("%s differs from %s: kind %u, %zu bytes, store of %zu bytes, page %u, row %u; answers %llu and %llu\n", all[r]->name,
                   all[0]->name, kind, bytes, length, page, row, (unsigned long long)other.answer, (unsigned long long)first.answer);
            return false;
        }
    }
    if (kind < 60)
        answers[first.answer]++;
    return true;
}

bool agree(const struct receiver *const *all, uint64_t seed, unsigned calls)
{
    struct chance chance = {seed};
    struct stretch s = {0, 0, 0, 0};
    for (unsigned k = 0; k < calls; k++) {
        if (k % 250 == 0) {
            s = begin(&chance);
            for (unsigned r = 1; r < RECEIVERS; r++)
                memcpy(stores[r], stores[0], ROOM);
        }
        unsigned kind = below(&chance, 100), page = 7 * below(&chance, s.pages + 1) % 256, row = below(&chance, 27);
        if (below(&chance, 20) == 0)
            page += 256;
        size_t bytes = random_lines(&chance, &s, kind), at = 0;
        bool faulty = s.length > 0 && below(&chance, 20) == 0;
        uint8_t byte = 0, kept = 0;
        if (faulty) {
            at = random_fault(&chance, &s, &byte);
            kept = stores[0][at];
            for (unsigned r = 0; r < RECEIVERS; r++)
                stores[r][at] = byte;
        }
        if (!same_of_all(all, s.length, kind, bytes, page, row)) {
            printf("seed %llu, call %u\n", (unsigned long long)seed, k);
            return false;
        }
        if (faulty && stores[0][at] == byte)
            for (unsigned r = 0; r < RECEIVERS; r++)
                stores[r][at] = kept;
    }
    printf("%u calls, the same of all; of single lines %u were taken, %u lost, %u found no room, %u and %u were turned away with 1 and 2\n", calls,
           answers[0], answers[1], answers[2], answers[3], answers[4]);
    return true;
}
