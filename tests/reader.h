/* The form of thalinguze_read, and the other calls in that form. */
#ifndef READER_H
#define READER_H

#include <stddef.h>
#include <stdint.h>
#include "../include/thalinguze.h"

typedef uint32_t reader(uint32_t notation, const uint8_t *label, size_t label_size, uint8_t *record, size_t record_size);

static inline uint32_t convert_to_itself(uint32_t notation, const uint8_t *label, size_t label_size, uint8_t *record, size_t record_size) {
    return thalinguze_convert(notation, label, label_size, notation, label, label_size, record, record_size);
}

/* VOUnits has a form for almost every unit, if need be in quotes */
static inline uint32_t rewrite_in_vounits(uint32_t notation, const uint8_t *label, size_t label_size, uint8_t *record, size_t record_size) {
    return thalinguze_rewrite(notation, label, label_size, THALINGUZE_VOUNITS, record, record_size).number;
}

static inline uint32_t write_as_words(uint32_t notation, const uint8_t *label, size_t label_size, uint8_t *record, size_t record_size) {
    return thalinguze_words(notation, label, label_size, record, record_size).number;
}

/* in two parts; the state is not on the stack of the calls */
static inline uint32_t read_in_parts(uint32_t notation, const uint8_t *label, size_t label_size, uint8_t *record, size_t record_size) {
    static uint8_t state[THALINGUZE_STATE_SIZE];
    thalinguze_begin(notation, state, sizeof state);
    thalinguze_part(state, sizeof state, label, label_size / 2);
    thalinguze_part(state, sizeof state, label + label_size / 2, label_size - label_size / 2);
    return thalinguze_end(state, sizeof state, record, record_size);
}

#endif
