/* Labels for tests: those of a file of readings, and labels made at random. */
#ifndef LABELS_H
#define LABELS_H

#include <stdbool.h>
#include <stdio.h>
#include <stdlib.h>
#include <string.h>
#include "../include/thalinguze.h"

enum { LABEL_ROOM = 1024 };

/* RANDOM NUMBERS: splitmix64 */

#define SEED 20261115ul
static uint64_t state = SEED;

static uint64_t next_random(void) {
    uint64_t z = state += 0x9e3779b97f4a7c15;
    z = (z ^ z >> 30) * 0xbf58476d1ce4e5b9;
    z = (z ^ z >> 27) * 0x94d049bb133111eb;
    return z ^ z >> 31;
}

static unsigned below(unsigned n) {
    return (unsigned)(next_random() % n);
}

/* LABELS */

static size_t random_bytes(uint8_t *label) {
    size_t size = below(8) == 0 ? below(LABEL_ROOM) : below(40);
    bool printable = below(2);
    for (size_t i = 0; i < size; i++)
        label[i] = (uint8_t)(printable ? 0x20 + below(0x5f) : below(256));
    return size;
}

static size_t add(uint8_t *label, size_t size, const char *piece) {
    size_t length = strlen(piece);
    if (size + length > LABEL_ROOM)
        return size;
    memcpy(label + size, piece, length);
    return size + length;
}

static size_t add_unit(uint8_t *label, size_t size, uint32_t notation) {
    static const char *const prefixes[] = {"", "", "", "k", "m", "da", "u", "P"};
    static const char *const units[] = {"m", "g", "s", "Hz", "yr", "a", "pix", "count", "ohm", "angstrom", "furlong", "erg", "h", "d", "solMass", "'xyz'", "%"};
    static const char *const powers[] = {"2", "-1", "(1/2)", "(1.5)", "+3", "(1/7)", "100", "(-3/20)"};
    unsigned unit = below(notation == 4 ? 16 : notation == 3 && below(4) == 0 ? 17 : 15);
    size = add(label, size, unit < 16 ? prefixes[below(8)] : "");
    size = add(label, size, units[unit]);
    if (below(3))
        return size;
    if (notation != 3 && (notation != 1 || below(2)))
        size = add(label, size, notation == 1 && below(2) ? "^" : "**");
    return add(label, size, powers[below(notation == 3 ? 2 : 8)]);
}

/* pieces of labels in the notation's manner: many are accepted */
static size_t random_text(uint8_t *label, uint32_t notation) {
    static const char *const joins[6][4] = {{".", " ", "/", "*"}, {" ", "*", ".", " "}, {" ", "*", " / ", "/"}, {".", ".", "/", "/"}, {".", ".", ".", "."}, {"*", "*", "*", "*"}};
    static const char *const factors[6][3] = {{"10", "1", "10+3"}, {"10**3 ", "10^-2", "10+3"}, {"10**3 ", "100", "10**(-5)"}, {"10+3", "10", "1"}, {"10**3", "100", "10**(7)"}, {"", "", "10**3*"}};
    unsigned kind = notation <= THALINGUZE_STARLINK ? (unsigned)notation : 0, terms = below(10) == 0 ? 1 + below(40) : 1 + below(5), open = 0;
    size_t size = below(4) ? 0 : add(label, 0, factors[kind][below(3)]);
    for (unsigned i = 0; i < terms; i++) {
        if (i)
            size = add(label, size, joins[kind][below(4)]);
        for (; below(6) == 0; open++)
            size = add(label, size, "(");
        size = add_unit(label, size, notation);
        for (; open && below(3) == 0; open--)
            size = add(label, size, ")");
    }
    for (; open; open--)
        size = add(label, size, ")");
    if (below(3) == 0 && terms < 30 && (notation == 1 || notation >= 4)) {
        size = add(label, size, "/");
        size = add_unit(label, size, notation);
    }
    return size;
}

/* the labels of the file */
struct vector {
    uint32_t notation;
    size_t size;
    uint8_t label[LABEL_ROOM];
};
static struct vector vectors[1000];
static unsigned vector_count;

/* the next notation number and bytes in hexadecimal */
static bool scan_vector(FILE *f, struct vector *v) {
    static char hex[4096];
    unsigned notation, byte;
    if (fscanf(f, "%u %4095s", &notation, hex) != 2)
        return false;
    v->notation = notation;
    v->size = 0;
    for (size_t i = 0; hex[0] != '-' && sscanf(hex + i, "%2x", &byte) == 1 && v->size < LABEL_ROOM; i += 2)
        v->label[v->size++] = (uint8_t)byte;
    return true;
}

static void skip_line(FILE *f) {
    for (int c = getc(f); c != EOF && c != '\n'; c = getc(f))
        continue;
}

static FILE *open_vectors(const char *name) {
    FILE *f = fopen(name, "r");
    if (!f) {
        perror(name);
        exit(2);
    }
    return f;
}

static void read_vectors(const char *name) {
    FILE *f = open_vectors(name);
    for (; vector_count < sizeof vectors / sizeof vectors[0] && scan_vector(f, &vectors[vector_count]); vector_count++)
        skip_line(f);
    fclose(f);
    if (vector_count == 0)
        exit(2);
}

/* a label of the file with some bytes changed, put in or taken out */
static size_t mutated(uint8_t *label) {
    static const char signs[] = "()/*.+-^ '%0123459kmsgdah\x7f\xff";
    const struct vector *v = &vectors[below(vector_count)];
    size_t size = v->size;
    memcpy(label, v->label, size);
    for (unsigned edits = 1 + below(3); edits; edits--) {
        size_t at = size ? below((unsigned)size) : 0;
        uint8_t byte = (uint8_t)signs[below(sizeof signs - 1)];
        unsigned kind = below(3);
        if (kind == 0 && size) {
            label[at] = byte;
        } else if (kind == 1 && size) {
            memmove(label + at, label + at + 1, --size - at);
        } else if (size < LABEL_ROOM) {
            memmove(label + at + 1, label + at, size++ - at);
            label[at] = byte;
        }
    }
    return size;
}

/* a label made in one of three ways */
static size_t random_label(uint8_t *label, uint32_t notation) {
    unsigned kind = below(4);
    return kind == 0 ? random_bytes(label) : kind == 1 ? mutated(label) : random_text(label, notation);
}

#endif
