/* Seeded chance, lines of pages with random texts, and what may happen to them on the air. */
#ifndef BENCH_AIR_H
#define BENCH_AIR_H

#include <stddef.h>
#include <stdint.h>

#include "demborugy.h"

/* A generator of numbers: the same seed gives the same numbers. */
struct chance {
    uint64_t state;
};

uint64_t next_number(struct chance *chance);

/* A number from 0 to n - 1. */
unsigned below(struct chance *chance, unsigned n);

/* Whether something came that happens n times in a million. */
int happens(struct chance *chance, unsigned n);

/* The letter of a page's text at a row and column, 32 to 127. */
uint8_t letter_of(unsigned page, unsigned version, unsigned row, unsigned column);

/* A letter's byte with its parity, odd. */
uint8_t encode_letter(uint8_t letter);

/* Makes the line of a row of a page, as it is sent. */
void make_line(uint8_t line[DEMBORUGY_LINE], unsigned page, unsigned version, unsigned row);

/* Turns so many bits of a byte, each another one. */
uint8_t turn_bits(struct chance *chance, uint8_t byte, unsigned bits);

/* Of a million numbers' bytes so many have one or two bits turned, and of a million letters' bytes so many have one. */
void damage(struct chance *chance, uint8_t line[DEMBORUGY_LINE], unsigned of_numbers, unsigned of_letters);

#endif
