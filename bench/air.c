/* Seeded chance, lines of pages with random texts, and what may happen to them on the air. */
#include "air.h"

static const uint8_t words[16] = {21, 2, 73, 94, 100, 115, 56, 47, 208, 199, 140, 155, 161, 182, 253, 234};

/* The splitmix64 generator. */
uint64_t next_number(struct chance *chance)
{
    uint64_t z = chance->state += 0x9e3779b97f4a7c15;
    z = (z ^ z >> 30) * 0xbf58476d1ce4e5b9;
    z = (z ^ z >> 27) * 0x94d049bb133111eb;
    return z ^ z >> 31;
}

unsigned below(struct chance *chance, unsigned n)
{
    return (unsigned)((next_number(chance) >> 32) * n >> 32);
}

int happens(struct chance *chance, unsigned n)
{
    return below(chance, 1000000) < n;
}

uint8_t letter_of(unsigned page, unsigned version, unsigned row, unsigned column)
{
    struct chance text = {(((uint64_t)page * 256 + version) * 25 + row) * 40 + column};
    return (uint8_t)(32 + below(&text, 96));
}

uint8_t encode_letter(uint8_t letter)
{
    unsigned ones = 0;
    for (unsigned bit = 0; bit < 7; bit++)
        ones += letter >> bit & 1;
    return (uint8_t)(ones % 2 == 1 ? letter : letter | 128);
}

void make_line(uint8_t line[DEMBORUGY_LINE], unsigned page, unsigned version, unsigned row)
{
    line[0] = words[page / 16];
    line[1] = words[page % 16];
    line[2] = words[version / 16];
    line[3] = words[version % 16];
    line[4] = words[row / 16];
    line[5] = words[row % 16];
    for (unsigned c = 0; c < DEMBORUGY_COLUMNS; c++)
        line[6 + c] = encode_letter(letter_of(page, version, row, c));
}

uint8_t turn_bits(struct chance *chance, uint8_t byte, unsigned bits)
{
    unsigned turned = 0;
    while (bits > 0) {
        unsigned bit = 1u << below(chance, 8);
        if (!(turned & bit)) {
            turned |= bit;
            bits--;
        }
    }
    return (uint8_t)(byte ^ turned);
}

void damage(struct chance *chance, uint8_t line[DEMBORUGY_LINE], unsigned of_numbers, unsigned of_letters)
{
    for (unsigned k = 0; k < DEMBORUGY_LINE; k++) {
        if (k < 6 && happens(chance, of_numbers))
            line[k] = turn_bits(chance, line[k], 1 + below(chance, 2));
        else if (k >= 6 && happens(chance, of_letters))
            line[k] = turn_bits(chance, line[k], 1);
    }
}
