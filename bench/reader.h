/* A reader in plain C, to measure the library beside it. It does the same work and writes the same record; nothing of it is proved. */
#ifndef BENCH_READER_H
#define BENCH_READER_H

#include <stdbool.h>
#include "../include/thalinguze.h"

/* A spelling's prefix and unit, as the header numbers them; unit 0 is unknown. */
struct symbol {
    uint8_t prefix, unit;
};

enum { MAX_UNIT_BASES = 4 };

/* What a unit is: where a prefix is lawful, as bits of notations, and its size. */
struct unit {
    uint8_t lawful, not_recommended;
    struct {
        uint8_t base;
        int8_t exponent;
    } bases[MAX_UNIT_BASES];
    int8_t primes[THALINGUZE_PRIMES];
};

extern const struct unit bench_units[THALINGUZE_UNITS + 1];
extern const int8_t bench_prefix_powers[];

/* Builds the tables of spellings. To be called once, before the first reading. */
void bench_prepare(void);

/* The prefix code of one prefix's letters, or 0. */
unsigned bench_prefix(const uint8_t *letters, size_t size);

/* The symbol that a plain spelling stands for. */
struct symbol bench_symbol(uint32_t notation, const uint8_t *letters, size_t size);

/* As thalinguze_read. */
uint32_t bench_read(uint32_t notation, const uint8_t *label, size_t label_size, uint8_t *record, size_t record_size);

#endif
