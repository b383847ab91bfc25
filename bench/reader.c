/* The reader in plain C: a recursive descent over the label, then the limits, then the content of the record. */
#include <stdlib.h>
#include <string.h>
#include "reader.h"

enum { FITS = THALINGUZE_FITS, OGIP = THALINGUZE_OGIP, CDS = THALINGUZE_CDS, VOU = THALINGUZE_VOUNITS, STARLINK = THALINGUZE_STARLINK };

struct term {
    struct symbol symbol;
    int exponent; /* in sixtieths */
    uint8_t start, length;
};

struct parser {
    const uint8_t *start, *at, *end;
    uint32_t notation;
    bool broken; /* a number breaks its bound */
    int k;
    unsigned depth, deepest, count;
    struct term terms[THALINGUZE_MAX_TERMS];
};

/* BYTES */

static bool next_is(const struct parser *p, uint8_t byte) {
    return p->at < p->end && *p->at == byte;
}

static bool take(struct parser *p, uint8_t byte) {
    bool there = next_is(p, byte);
    p->at += there;
    return there;
}

static bool take_stars(struct parser *p) {
    if (p->end - p->at < 2 || p->at[0] != '*' || p->at[1] != '*')
        return false;
    p->at += 2;
    return true;
}

static unsigned take_spaces(struct parser *p) {
    unsigned count = 0;
    while (p->notation == OGIP && take(p, ' '))
        count++;
    return count;
}

static bool take_letters(struct parser *p) {
    const uint8_t *from = p->at;
    while (p->at < p->end && ((*p->at | 0x20) >= 'a' && (*p->at | 0x20) <= 'z'))
        p->at++;
    return p->at > from;
}

static bool open_bracket(struct parser *p) {
    if (!take(p, '('))
        return false;
    if (++p->depth > p->deepest)
        p->deepest = p->depth;
    return true;
}

static bool close_bracket(struct parser *p) {
    p->depth--;
    return take(p, ')');
}

/* NUMBERS */

static unsigned digits(struct parser *p, int *value) {
    unsigned count = 0;
    for (*value = 0; p->at < p->end && *p->at >= '0' && *p->at <= '9'; p->at++)
        if (count++ < THALINGUZE_MAX_DIGITS)
            *value = *value * 10 + (*p->at - '0');
    if (count > THALINGUZE_MAX_DIGITS)
        p->broken = true;
    return count;
}

static bool unsigned_integer(struct parser *p, int *value) {
    return p->at < p->end && *p->at != '0' && digits(p, value) > 0;
}

static bool integer(struct parser *p, int *value) {
    bool negative = take(p, '-');
    if (!negative)
        take(p, '+');
    if (!unsigned_integer(p, value))
        return false;
    if (negative)
        *value = -*value;
    return true;
}

/* an integer, a decimal or a fraction in brackets */
static bool bracketed(struct parser *p, int *numerator, int *denominator) {
    if (!open_bracket(p))
        return false;
    bool negative = next_is(p, '-');
    const uint8_t *first = p->at + (negative || next_is(p, '+'));
    bool below_one = p->end - first > 1 && first[0] == '0' && first[1] == '.';
    *numerator = 0;
    if (below_one)
        p->at = first + 1;
    else if (!integer(p, numerator))
        return false;
    if (take(p, '.')) {
        int decimals;
        unsigned count = digits(p, &decimals);
        if (count == 0)
            return false;
        for (unsigned i = 0; i < count && i < THALINGUZE_MAX_DIGITS; i++)
            *denominator *= 10;
        *numerator = *numerator * *denominator + (negative ? -decimals : decimals);
        if (*numerator == 0)
            p->broken = true;
    } else if (take(p, '/') && !unsigned_integer(p, denominator)) {
        return false;
    }
    return close_bracket(p);
}

static bool power(struct parser *p, int *numerator, int *denominator) {
    return next_is(p, '(') ? bracketed(p, numerator, denominator) : integer(p, numerator);
}

/* what follows a spelling: 1 where nothing is written */
static bool exponent(struct parser *p, int *sixtieths) {
    int numerator = 1, denominator = 1;
    if (p->notation != CDS && (take_stars(p) || (p->notation == FITS && take(p, '^')))) {
        if (!power(p, &numerator, &denominator))
            return false;
    } else if (p->notation == FITS && next_is(p, '(')) {
        if (!bracketed(p, &numerator, &denominator))
            return false;
    } else if ((p->notation == FITS || p->notation == CDS) && p->at < p->end &&
               (*p->at == '+' || *p->at == '-' || (*p->at >= '0' && *p->at <= '9'))) {
        if (!integer(p, &numerator))
            return false;
    }
    int64_t product = (int64_t)numerator * THALINGUZE_SIXTIETHS;
    if (product % denominator != 0 || llabs(product / denominator) > THALINGUZE_MAX_EXPONENT * THALINGUZE_SIXTIETHS)
        p->broken = true;
    *sixtieths = (int)(product / denominator);
    return true;
}

/* the factor of a label that starts with a digit, with the spaces after it */
static bool factor(struct parser *p) {
    unsigned zeros = 0;
    if (!take(p, '1'))
        return false;
    while (take(p, '0'))
        zeros++;
    p->k = (int)zeros;
    if (zeros == 1 && (take_stars(p) || (p->notation == FITS && take(p, '^')))) {
        bool brackets = p->notation != CDS && open_bracket(p);
        if (!integer(p, &p->k) || (brackets && !close_bracket(p)))
            return false;
    } else if (zeros == 1 && (p->notation == FITS || p->notation == CDS) && (next_is(p, '+') || next_is(p, '-'))) {
        if (!integer(p, &p->k))
            return false;
    } else if (p->notation == FITS) {
        return false;
    }
    if (abs(p->k) > THALINGUZE_MAX_POWER_OF_TEN)
        p->broken = true;
    if (p->notation == FITS)
        take(p, ' ');
    take_spaces(p);
    return true;
}

/* UNITS, GROUPS, PRODUCTS */

static bool spelling(struct parser *p, struct symbol *symbol) {
    const uint8_t *from = p->at;
    bool letters = take_letters(p);
    if (p->notation == VOU && next_is(p, '\'')) {
        *symbol = (struct symbol){(uint8_t)(letters ? bench_prefix(from, (size_t)(p->at - from)) : 0), THALINGUZE_UNIT_UNKNOWN};
        return (!letters || symbol->prefix != 0) && take(p, '\'') && take_letters(p) && take(p, '\'');
    }
    if (!letters && !(p->notation == CDS && take(p, '%')))
        return false;
    *symbol = bench_symbol(p->notation, from, (size_t)(p->at - from));
    return true;
}

static bool body(struct parser *p, int sign);

static bool item(struct parser *p, int sign) {
    if (open_bracket(p))
        return body(p, sign) && close_bracket(p);
    struct term term;
    const uint8_t *from = p->at;
    if (!spelling(p, &term.symbol))
        return false;
    term.start = (uint8_t)(from - p->start);
    term.length = (uint8_t)(p->at - from);
    if (!exponent(p, &term.exponent))
        return false;
    term.exponent *= sign;
    if (p->count < THALINGUZE_MAX_TERMS)
        p->terms[p->count] = term;
    p->count++;
    return true;
}

static bool product(struct parser *p, int sign) {
    do
        if (!item(p, sign))
            return false;
    while ((p->notation != STARLINK && take(p, '.')) || (p->notation != VOU && take(p, '*')) || (p->notation == FITS && take(p, ' ')));
    return true;
}

/* OGIP and CDS: products and slashes in any order */
static bool chain(struct parser *p, int sign) {
    const uint8_t times = p->notation == OGIP ? '*' : '.';
    bool first = true;
    for (;; first = false) {
        unsigned spaces = take_spaces(p);
        if (take(p, '/')) {
            take_spaces(p);
            if (!item(p, -sign))
                return false;
            continue;
        }
        if (first ? spaces > 0 : !take(p, times) && spaces == 0)
            return !first;
        take_spaces(p);
        if (!item(p, sign))
            return false;
    }
}

static bool body(struct parser *p, int sign) {
    if (p->notation == OGIP || p->notation == CDS)
        return chain(p, sign);
    return product(p, sign) && (p->notation != VOU || !take(p, '/') || item(p, -sign));
}

static bool whole(struct parser *p) {
    if (p->at == p->end)
        return true;
    if (*p->at == ' ' || p->end[-1] == ' ')
        return false;
    if (*p->at >= '0' && *p->at <= '9') {
        if (p->notation == STARLINK || !factor(p))
            return false;
    } else if (p->notation == FITS && take(p, '/')) {
        return item(p, -1) && p->at == p->end;
    }
    bool last = p->notation == FITS || p->notation == STARLINK; /* the one slash is outside groups */
    return body(p, 1) && (!last || !take(p, '/') || item(p, -1)) && p->at == p->end;
}

/* CONTENT */

struct content {
    bool known, lawful, recommended;
    int64_t dimensions[THALINGUZE_BASES], scale[THALINGUZE_PRIMES];
};

static void add_term(struct content *c, const struct term *t, uint32_t notation) {
    const struct unit *unit = &bench_units[t->symbol.unit];
    int tens = bench_prefix_powers[t->symbol.prefix] * t->exponent;
    c->scale[THALINGUZE_PRIME_2] += tens;
    c->scale[THALINGUZE_PRIME_5] += tens;
    if (t->symbol.unit == THALINGUZE_UNIT_UNKNOWN)
        c->known = false;
    if (t->symbol.prefix != 0 && !(unit->lawful >> notation & 1))
        c->lawful = false;
    if (unit->not_recommended)
        c->recommended = false;
    for (unsigned i = 0; i < MAX_UNIT_BASES && unit->bases[i].base < THALINGUZE_BASES; i++)
        c->dimensions[unit->bases[i].base] += unit->bases[i].exponent * t->exponent;
    for (unsigned i = 0; i < THALINGUZE_PRIMES; i++)
        c->scale[i] += unit->primes[i] * t->exponent;
}

#if __BYTE_ORDER__ != __ORDER_LITTLE_ENDIAN__
#error "the record has the least significant byte first, and so must this machine"
#endif
static void put(uint8_t *record, unsigned field, int64_t value) {
    memcpy(record + (size_t)field * THALINGUZE_FIELD_SIZE, &value, sizeof value);
}

/* the whole record: everything that knows its layout is here */
/* An unknown unit's letters come after its prefix, and are between its quotes if it has any. */
static void put_letters(uint8_t *record, unsigned field, const struct parser *p, const struct term *t) {
    unsigned start = 0, length = 0;
    if (t->symbol.unit == THALINGUZE_UNIT_UNKNOWN) {
        unsigned prefix = t->symbol.prefix == THALINGUZE_PREFIX_DECA ? 2 : t->symbol.prefix != 0;
        unsigned quotes = p->start[t->start + t->length - 1] == '\'';
        start = t->start + prefix + quotes;
        length = t->length - prefix - 2 * quotes;
    }
    put(record, field + THALINGUZE_TERM_LETTERS_START, start);
    put(record, field + THALINGUZE_TERM_LETTERS_LENGTH, length);
}

static void write_record(uint8_t *record, const struct parser *p, const struct content *c) {
    size_t used = (THALINGUZE_FIELD_TERMS + THALINGUZE_TERM_FIELDS * p->count) * THALINGUZE_FIELD_SIZE;
    memset(record + used, 0, THALINGUZE_FIELD_DIMENSIONS * THALINGUZE_FIELD_SIZE - used);
    put(record, THALINGUZE_FIELD_NUMBER, THALINGUZE_ACCEPTED);
    put(record, THALINGUZE_FIELD_K, p->k);
    put(record, THALINGUZE_FIELD_KNOWN, c->known);
    put(record, THALINGUZE_FIELD_LAWFUL, c->lawful);
    put(record, THALINGUZE_FIELD_RECOMMENDED, c->recommended);
    put(record, THALINGUZE_FIELD_COUNT, p->count);
    for (unsigned i = 0; i < p->count; i++) {
        const struct term *t = &p->terms[i];
        unsigned field = THALINGUZE_FIELD_TERMS + THALINGUZE_TERM_FIELDS * i;
        put(record, field + THALINGUZE_TERM_PREFIX, t->symbol.prefix);
        put(record, field + THALINGUZE_TERM_UNIT, t->symbol.unit);
        put(record, field + THALINGUZE_TERM_EXPONENT, t->exponent);
        put(record, field + THALINGUZE_TERM_START, t->start);
        put(record, field + THALINGUZE_TERM_LENGTH, t->length);
        put_letters(record, field, p, t);
    }
    memcpy(record + THALINGUZE_FIELD_DIMENSIONS * THALINGUZE_FIELD_SIZE, c->dimensions, sizeof c->dimensions);
    memcpy(record + THALINGUZE_FIELD_SCALE * THALINGUZE_FIELD_SIZE, c->scale, sizeof c->scale);
}

static uint32_t refusal(struct parser *p, size_t size) {
    if (p->notation < FITS || p->notation > STARLINK)
        return THALINGUZE_NO_SUCH_NOTATION;
    if (size > THALINGUZE_MAX_LABEL_SIZE)
        return THALINGUZE_TOO_LONG;
    for (const uint8_t *at = p->start; at < p->end; at++)
        if (*at < 0x20 || *at > 0x7e)
            return THALINGUZE_BYTE_OUT_OF_RANGE;
    if (!whole(p))
        return THALINGUZE_NOT_IN_GRAMMAR;
    if (p->broken)
        return THALINGUZE_NUMBER_OUT_OF_BOUNDS;
    if (p->deepest > THALINGUZE_MAX_DEPTH)
        return THALINGUZE_TOO_DEEP;
    return p->count > THALINGUZE_MAX_TERMS ? THALINGUZE_TOO_MANY_TERMS : THALINGUZE_ACCEPTED;
}

uint32_t bench_read(uint32_t notation, const uint8_t *label, size_t label_size, uint8_t *record, size_t record_size) {
    struct parser p;
    p.start = p.at = label;
    p.end = label + label_size;
    p.notation = notation;
    p.broken = false;
    p.k = 0;
    p.depth = p.deepest = p.count = 0;
    uint32_t number = refusal(&p, label_size);
    if (number != THALINGUZE_ACCEPTED)
        return number;
    struct content c = {true, true, true, {0}, {p.k * THALINGUZE_SIXTIETHS, 0, p.k * THALINGUZE_SIXTIETHS, 0}};
    for (unsigned i = 0; i < p.count; i++)
        add_term(&c, &p.terms[i], notation);
    if (record_size >= THALINGUZE_RECORD_SIZE) {
        write_record(record, &p, &c);
    } else {
        uint8_t whole_record[THALINGUZE_RECORD_SIZE];
        write_record(whole_record, &p, &c);
        memcpy(record, whole_record, record_size);
    }
    return THALINGUZE_ACCEPTED;
}
