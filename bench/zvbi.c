/* libzvbi, Debian's teletext decoder, measured beside the proved receiver: the time of a packet, and how many sendings a page takes until it is
 * whole, while letters are damaged.
 *
 * What is compared: a page of teletext at level 1, a header and 24 rows of forty letters with odd parity, against a page of ours of 25 rows.
 * Numbers come undamaged; each letter's byte has one bit turned with the chance given. Both get letters that look the same in either. */
#define _POSIX_C_SOURCE 199309L

#include <libzvbi.h>
#include <stdbool.h>
#include <stdio.h>
#include <stdlib.h>
#include <string.h>
#include <time.h>

#include "air.h"
#include "receiver.h"

enum { TURNS = 61, PAGES = 60, PACKETS = 25, TRIALS = 400, MOST = 5000, OF_LETTERS = 10000 };

/* The frames of libzvbi come 25 times a second: of any other time it takes some for lost, and begins anew. */
static double clock_of_frames = 1;

static uint8_t text_of(unsigned page, unsigned row, unsigned column)
{
    static const char signs[] = "ABCDEFGHIJKLMNOPQRSTUVWXYZabcdefghijklmnopqrstuvwxyz0123456789";
    return (uint8_t)signs[letter_of(page, 0, row, column) % (sizeof signs - 1)];
}

/* A packet of magazine 1 with its number, 0 for a header. */
static void begin_packet(vbi_sliced *sliced, unsigned number)
{
    memset(sliced, 0, sizeof *sliced);
    sliced->id = VBI_SLICED_TELETEXT_B;
    sliced->line = 7;
    sliced->data[0] = (uint8_t)vbi_ham8(1 | (number & 1) << 3);
    sliced->data[1] = (uint8_t)vbi_ham8(number >> 1);
}

/* The header of a page: its number, of two digits, and the flag of serial sending. A page is stored once the next header comes. */
static void make_header(vbi_sliced *sliced, unsigned page)
{
    begin_packet(sliced, 0);
    sliced->data[2] = (uint8_t)vbi_ham8(page % 16);
    sliced->data[3] = (uint8_t)vbi_ham8(page / 16);
    for (unsigned k = 4; k < 10; k++)
        sliced->data[k] = (uint8_t)vbi_ham8(k == 9 ? 1 : 0);
    for (unsigned k = 10; k < 42; k++)
        sliced->data[k] = (uint8_t)vbi_par8('A');
}

static void make_row(vbi_sliced *sliced, unsigned text, unsigned row, struct chance *chance, unsigned of_letters)
{
    begin_packet(sliced, row);
    for (unsigned c = 0; c < 40; c++) {
        uint8_t byte = encode_letter(text_of(text, row, c));
        sliced->data[2 + c] = happens(chance, of_letters) ? turn_bits(chance, byte, 1) : byte;
    }
}

static void make_page(vbi_sliced packets[PACKETS], unsigned page, unsigned text, struct chance *chance, unsigned of_letters)
{
    make_header(&packets[0], page);
    for (unsigned row = 1; row < PACKETS; row++)
        make_row(&packets[row], text, row, chance, of_letters);
}

static void decode(vbi_decoder *vbi, vbi_sliced *packets, int count)
{
    clock_of_frames += 0.04;
    vbi_decode(vbi, packets, count, clock_of_frames);
}

static void on_page(vbi_event *event, void *count)
{
    (void)event;
    ++*(unsigned *)count;
}

/* Whether each letter of rows 1 to 24 stands in the page as it was sent. */
static bool whole_in_zvbi(vbi_decoder *vbi, unsigned page, unsigned text)
{
    vbi_page shown;
    if (!vbi_fetch_vt_page(vbi, &shown, (vbi_pgno)(0x100 + page), VBI_ANY_SUBNO, VBI_WST_LEVEL_1, 25, FALSE))
        return false;
    bool whole = true;
    for (unsigned row = 1; row < 25; row++)
        for (unsigned c = 0; c < 40; c++)
            whole = whole && shown.text[(unsigned)shown.columns * row + c].unicode == text_of(text, row, c);
    vbi_unref_page(&shown);
    return whole;
}

/* How many sendings a page takes in libzvbi; MOST if it isn't whole by then. Each trial has a page and a text of its own. */
static unsigned sendings_of_zvbi(vbi_decoder *vbi, unsigned page, unsigned trial, unsigned of_letters)
{
    struct chance chance = {trial};
    vbi_sliced packets[PACKETS + 1];
    make_header(&packets[PACKETS], 0xff);
    for (unsigned sent = 1; sent < MOST; sent++) {
        make_page(packets, page, trial, &chance, of_letters);
        decode(vbi, packets, PACKETS + 1);
        if (whole_in_zvbi(vbi, page, trial))
            return sent;
    }
    return MOST;
}

/* The same of the proved receiver, over all 25 rows. */
static unsigned sendings_of_ours(unsigned trial, unsigned of_letters)
{
    struct chance chance = {trial};
    uint8_t store[DEMBORUGY_SLOT] = {0}, line[DEMBORUGY_LINE];
    for (unsigned sent = 1; sent < MOST; sent++) {
        for (unsigned row = 0; row < DEMBORUGY_ROWS; row++) {
            make_line(line, 18, 1, row);
            for (unsigned c = 0; c < DEMBORUGY_COLUMNS; c++)
                line[6 + c] = encode_letter(text_of(trial, row, c));
            damage(&chance, line, 0, of_letters);
            receiver_ours.take_line(line, sizeof line, store, sizeof store);
        }
        if (memchr(store + 3, 0, 1000) == NULL)
            return sent;
    }
    return MOST;
}

static int by_size(const void *a, const void *b)
{
    double x = *(const double *)a, y = *(const double *)b;
    return (x > y) - (x < y);
}

/* The nanoseconds of a packet: the median of many turns of 60 pages each. */
static double time_of_packet(void)
{
    static vbi_sliced packets[PAGES][PACKETS];
    static double took[TURNS];
    struct chance chance = {1};
    unsigned pages = 0;
    vbi_decoder *vbi = vbi_decoder_new();
    vbi_event_handler_register(vbi, VBI_EVENT_TTX_PAGE, on_page, &pages);
    for (unsigned p = 0; p < PAGES; p++)
        make_page(packets[p], p / 10 * 16 + p % 10, p, &chance, OF_LETTERS);
    for (unsigned turn = 0; turn < TURNS; turn++) {
        struct timespec start, end;
        clock_gettime(CLOCK_PROCESS_CPUTIME_ID, &start);
        for (unsigned p = 0; p < PAGES; p++)
            decode(vbi, packets[p], PACKETS);
        clock_gettime(CLOCK_PROCESS_CPUTIME_ID, &end);
        took[turn] = ((double)(end.tv_sec - start.tv_sec) * 1e9 + (double)(end.tv_nsec - start.tv_nsec)) / (PAGES * PACKETS);
    }
    vbi_decoder_delete(vbi);
    if (pages < PAGES) {
        fprintf(stderr, "zvbi: only %u pages were stored\n", pages);
        exit(1);
    }
    qsort(took, TURNS, sizeof *took, by_size);
    return took[TURNS / 2];
}

/* Undamaged, a page is whole after one sending in both; if not, they are not compared rightly. */
static void check_undamaged(void)
{
    unsigned pages = 0;
    vbi_decoder *vbi = vbi_decoder_new();
    vbi_event_handler_register(vbi, VBI_EVENT_TTX_PAGE, on_page, &pages);
    if (sendings_of_ours(1, 0) != 1 || sendings_of_zvbi(vbi, 1, 1, 0) != 1) {
        fprintf(stderr, "zvbi: an undamaged page is not whole after one sending\n");
        exit(1);
    }
    vbi_decoder_delete(vbi);
}

/* One row of the table: the mean of many trials, and the most, of ours and of libzvbi. */
static void print_sendings(unsigned of_letters)
{
    double ours = 0, zvbi = 0;
    unsigned ours_most = 0, zvbi_most = 0, pages = 0;
    vbi_decoder *vbi = NULL;
    for (unsigned trial = 0; trial < TRIALS; trial++) {
        if (trial % 100 == 0) {
            if (vbi)
                vbi_decoder_delete(vbi);
            vbi = vbi_decoder_new();
            vbi_event_handler_register(vbi, VBI_EVENT_TTX_PAGE, on_page, &pages);
        }
        unsigned a = sendings_of_ours(trial, of_letters), b = sendings_of_zvbi(vbi, trial % 100 / 10 * 16 + trial % 10, trial, of_letters);
        ours += a;
        zvbi += b;
        ours_most = a > ours_most ? a : ours_most;
        zvbi_most = b > zvbi_most ? b : zvbi_most;
    }
    vbi_decoder_delete(vbi);
    printf("| %.1f | %.1f | %u | %.1f | %u |\n", of_letters / 1e4, ours / TRIALS, ours_most, zvbi / TRIALS, zvbi_most);
    fflush(stdout);
}

int main(void)
{
    static const unsigned rates[] = {5000, 10000, 20000, 50000, 100000};
    unsigned major, minor, micro;
    check_undamaged();
    vbi_version(&major, &minor, &micro);
    printf("libzvbi %u.%u.%u: vbi_decode takes %.1f ns for a packet (medians of %d turns; 60 pages of a header and 24 rows, %.1f %% of the letters damaged).\n\n",
           major, minor, micro, time_of_packet(), TURNS, OF_LETTERS / 1e4);
    printf("| damaged letters, %% | sendings, ours | the most | sendings, libzvbi | the most |\n|---|---|---|---|---|\n");
    for (unsigned k = 0; k < sizeof rates / sizeof *rates; k++)
        print_sendings(rates[k]);
    printf("\nHow many sendings a page takes until it is whole: the mean of %d pages, and the most.\n", TRIALS);
    return 0;
}
