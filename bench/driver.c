/* The driver: agreement of all receivers on 100,000 random calls, then how long each takes for a line.
 *
 *   driver agree                         only the agreement
 *   driver time                          the agreement, then the table
 *   driver count RECEIVER WORK SLOTS     one pass of a piece of work, for valgrind --tool=callgrind --toggle-collect=measured
 *
 * Each piece of work is done by all receivers in turn on the same lines, many times over; what is printed is the median, and the median of the
 * ratios within a turn. */
#define _POSIX_C_SOURCE 199309L

#include <stdio.h>
#include <stdlib.h>
#include <string.h>
#include <time.h>

#include "agree.h"
#include "air.h"
#include "receiver.h"

enum { RECEIVERS = 4, LINES = 1500, TURNS = 61, CALLS = 100000, OF_NUMBERS = 5000, OF_LETTERS = 10000 };

static const struct receiver *const all[RECEIVERS] = {&receiver_ours, &receiver_scalar, &receiver_vectorised, &receiver_sse2};
static const unsigned slot_counts[] = {1, 4, 16, 60};
static const char *const works[] = {"take_line", "take_lines", "row"};
enum { SLOT_COUNTS = 4, WORKS = 3 };

static uint8_t lines[LINES * DEMBORUGY_LINE];
static uint8_t stores[RECEIVERS][DEMBORUGY_SLOTS * DEMBORUGY_SLOT];
volatile uint64_t kept; /* what the work answered, so that none of it is left out */

/* Lines of as many pages as there are slots, row 0 of each, then row 1 of each, and so on round and round, damaged within the limits. */
static void send(unsigned slots)
{
    struct chance chance = {slots};
    for (unsigned k = 0; k < LINES; k++) {
        uint8_t *line = lines + DEMBORUGY_LINE * k;
        make_line(line, 4 * (k % slots) + 3, 1, k / slots % DEMBORUGY_ROWS);
        damage(&chance, line, OF_NUMBERS, OF_LETTERS);
    }
    memset(stores, 0, sizeof stores);
}

/* Does a piece of work for each of the lines, so many times; the answer is only for the compiler. Its instructions are counted. */
__attribute__((noinline)) uint64_t measured(const struct receiver *r, unsigned work, unsigned slots, unsigned passes, uint8_t *store);

uint64_t measured(const struct receiver *r, unsigned work, unsigned slots, unsigned passes, uint8_t *store)
{
    size_t length = (size_t)slots * DEMBORUGY_SLOT, place;
    struct counts counts = {0, 0};
    uint64_t sum = 0;
    for (unsigned pass = 0; pass < passes; pass++) {
        if (work == 1)
            sum += r->take_lines(lines, sizeof lines, store, length, &counts);
        for (unsigned k = 0; k < LINES && work == 0; k++)
            sum += r->take_line(lines + DEMBORUGY_LINE * k, DEMBORUGY_LINE, store, length);
        for (unsigned k = 0; k < LINES && work == 2; k++)
            sum += r->row(store, length, 4 * (k % slots) + 3, k % DEMBORUGY_ROWS, &place) + place;
    }
    return sum + counts.lost + counts.full;
}

/* The time that the processor spent on this program: what else runs on the machine is left out, but for the caches. */
static double seconds(void)
{
    struct timespec t;
    clock_gettime(CLOCK_PROCESS_CPUTIME_ID, &t);
    return (double)t.tv_sec + 1e-9 * (double)t.tv_nsec;
}

static int by_size(const void *a, const void *b)
{
    double x = *(const double *)a, y = *(const double *)b;
    return (x > y) - (x < y);
}

static double median(double *values, unsigned count)
{
    qsort(values, count, sizeof *values, by_size);
    return values[count / 2];
}

/* How many passes take about a millisecond. */
static unsigned passes_for(unsigned work, unsigned slots)
{
    if (work == 1)
        return 100;
    return slots < 60 ? 16 / slots : 1;
}

/* Times one piece of work of all receivers in turn, and prints a row of the table. */
static void time_work(unsigned work, unsigned slots)
{
    static double took[RECEIVERS][TURNS], ratios[RECEIVERS][TURNS];
    unsigned passes = passes_for(work, slots);
    uint64_t answer = 0;
    send(slots);
    for (unsigned r = 0; r < RECEIVERS; r++)
        answer += measured(all[r], 1, slots, 1, stores[r]);
    for (unsigned turn = 0; turn < TURNS; turn++) {
        for (unsigned k = 0; k < RECEIVERS; k++) {
            unsigned r = (turn + k) % RECEIVERS;
            double start = seconds();
            answer += measured(all[r], work, slots, passes, stores[r]);
            took[r][turn] = (seconds() - start) * 1e9 / (LINES * (double)passes);
        }
        for (unsigned r = 1; r < RECEIVERS; r++)
            ratios[r][turn] = took[0][turn] / took[r][turn];
    }
    kept = answer;
    printf("| %s | %u |", works[work], slots);
    for (unsigned r = 0; r < RECEIVERS; r++)
        printf(" %.1f |", median(took[r], TURNS));
    for (unsigned r = 1; r < RECEIVERS; r++)
        printf(" %.2f |", median(ratios[r], TURNS));
    printf("\n");
    fflush(stdout);
}

static void print_table(void)
{
    printf("| call | slots | ours, ns | C scalar, ns | C vectorised, ns | C SSE2, ns | ours / scalar | ours / vectorised | ours / SSE2 |\n");
    printf("|---|---|---|---|---|---|---|---|---|\n");
    for (unsigned work = 0; work < WORKS; work++)
        for (unsigned s = 0; s < SLOT_COUNTS; s++)
            time_work(work, slot_counts[s]);
    printf("\nns for each line (take_line: the store is checked for each line; take_lines: a batch of %d lines, the store checked once; row: one row asked for),\n"
           "medians of %d turns; lines of as many pages as there are slots, %.1f %% of the numbers' bytes and %.1f %% of the letters' damaged.\n",
           LINES, TURNS, OF_NUMBERS / 1e4, OF_LETTERS / 1e4);
}

/* Which of so many names a word is. */
static unsigned which(const char *word, const char *const *names, unsigned count)
{
    for (unsigned k = 0; k < count; k++)
        if (strcmp(word, names[k]) == 0)
            return k;
    fprintf(stderr, "driver: no such word: %s\n", word);
    exit(2);
}

static void count_work(const char *receiver, const char *work, const char *slots)
{
    static const char *const names[RECEIVERS] = {"ours", "scalar", "vectorised", "sse2"};
    unsigned r = which(receiver, names, RECEIVERS), count = (unsigned)strtoul(slots, NULL, 10);
    send(count);
    receiver_sse2.take_lines(lines, sizeof lines, stores[r], (size_t)count * DEMBORUGY_SLOT, &(struct counts){0, 0});
    kept = measured(all[r], which(work, works, WORKS), count, 1, stores[r]);

    printf("%d\n", LINES);
}

int main(int words, char **word)
{
    if (words == 5 && strcmp(word[1], "count") == 0) {
        count_work(word[2], word[3], word[4]);
        return 0;
    }
    if (words != 2 || (strcmp(word[1], "agree") != 0 && strcmp(word[1], "time") != 0)) {
        fprintf(stderr, "usage: driver agree | time | count RECEIVER WORK SLOTS\n");
        return 2;
    }
    if (!agree(all, 1, CALLS))
        return 1;
    if (strcmp(word[1], "time") == 0)
        print_table();
    return 0;
}
