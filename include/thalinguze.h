/*
 * thalinguze.h: physics unit labels, read, also as they are typed, rewritten in another notation, converted and spoken.
 *
 * One call reads a label such as "kg/m.s" under one of five notations and writes what it means into a record of fixed layout:
 *
 *     #include <stdio.h>
 *     #include <string.h>
 *     #include "thalinguze.h"
 *
 *     int main(void)
 *     {
 *         const char *label = "kg/m.s";
 *         uint8_t record[THALINGUZE_RECORD_SIZE];
 *         uint32_t refusal = thalinguze_read(THALINGUZE_CDS, (const uint8_t *)label, strlen(label), record, sizeof record);
 *         if (refusal != THALINGUZE_ACCEPTED)
 *             return (int)refusal;
 *         for (unsigned i = 0; i < thalinguze_count(record); i++)
 *             printf("unit %d, exponent %d sixtieths\n", thalinguze_term_unit(record, i), thalinguze_term_exponent(record, i));
 *         return 0;
 *     }
 *
 * prints unit 2 (gram; its prefix is THALINGUZE_PREFIX_KILO), exponent 60; unit 1 (metre), exponent -60; unit 3 (second), exponent 60.
 *
 *     gcc example.c $(pkg-config --cflags --libs thalinguze)           where the library is installed
 *     gcc -I include example.c build/libthalinguze.a                   where it is only built
 *
 * The library allocates nothing, keeps nothing between calls and may be called from several threads at once. A call needs at most
 * 48 KB (49,152 bytes) of stack, for any notation number and any bytes. That is measured by tests/stack.c, not proved.
 * Usable from C11 and from C++11.
 */
#ifndef THALINGUZE_H
#define THALINGUZE_H

#include <stddef.h>
#include <stdint.h>

#ifdef __cplusplus
extern "C" {
#endif

/* The version. The number is written in these three lines and nowhere else. */
#define THALINGUZE_VERSION_MAJOR 0
#define THALINGUZE_VERSION_MINOR 14
#define THALINGUZE_VERSION_PATCH 0

/* The version as one number, 10203 for 1.2.3, and as text, "1.2.3". */
#define THALINGUZE_VERSION_NUMBER (THALINGUZE_VERSION_MAJOR * 10000 + THALINGUZE_VERSION_MINOR * 100 + THALINGUZE_VERSION_PATCH)
#define THALINGUZE_DOTTED_(major, minor, patch) #major "." #minor "." #patch
#define THALINGUZE_DOTTED(major, minor, patch) THALINGUZE_DOTTED_(major, minor, patch)
#define THALINGUZE_VERSION_STRING THALINGUZE_DOTTED(THALINGUZE_VERSION_MAJOR, THALINGUZE_VERSION_MINOR, THALINGUZE_VERSION_PATCH)

/*
 * The library's THALINGUZE_VERSION_NUMBER. A program that loads the shared library compares it with the header's, which it was compiled
 * with. Libraries with the same major number have the same calls and records, or more of them.
 */
uint32_t thalinguze_version(void);

/* The notations. Every other number is refused with THALINGUZE_NO_SUCH_NOTATION. */
enum {
    THALINGUZE_FITS = 1,
    THALINGUZE_OGIP = 2,
    THALINGUZE_CDS = 3,
    THALINGUZE_VOUNITS = 4,
    THALINGUZE_STARLINK = 5
};

/* What the calls return: 0, or the first of these that applies. Reading gives 1 to 7, converting 1 to 11, rewriting 1 to 7 and 12 to 14,
   words 1 to 7 and 14, and the calls for labels that come in parts 1 to 7 and 16. */
enum {
    THALINGUZE_ACCEPTED = 0,
    THALINGUZE_NO_SUCH_NOTATION = 1,  /* no notation has that number */
    THALINGUZE_TOO_LONG = 2,          /* the label is over THALINGUZE_MAX_LABEL_SIZE bytes */
    THALINGUZE_BYTE_OUT_OF_RANGE = 3, /* a byte lies outside hexadecimal 20 to 7E */
    THALINGUZE_NOT_IN_GRAMMAR = 4,    /* the label is not in the notation's grammar */
    THALINGUZE_NUMBER_OUT_OF_BOUNDS = 5, /* a run of digits, an exponent or the factor breaks its bound */
    THALINGUZE_TOO_DEEP = 6,          /* more than THALINGUZE_MAX_DEPTH brackets are open at once */
    THALINGUZE_TOO_MANY_TERMS = 7,    /* more than THALINGUZE_MAX_TERMS terms */
    THALINGUZE_UNKNOWN_UNIT = 8,      /* converting: a unit of either label is not known */
    THALINGUZE_DIMENSIONS_DIFFER = 9, /* converting: the labels have different dimensions */
    THALINGUZE_NO_FRACTION = 10,      /* converting: the factor is not a fraction */
    THALINGUZE_FACTOR_OUT_OF_BOUNDS = 11, /* converting: the numerator, the denominator or k breaks its bound */
    THALINGUZE_NO_FORM = 12,          /* rewriting: a term, an exponent or the power of ten has no form in the target */
    THALINGUZE_RESULT_TOO_LONG = 13,  /* rewriting: the result is over THALINGUZE_MAX_LABEL_SIZE bytes */
    THALINGUZE_BUFFER_TOO_SHORT = 14, /* rewriting and words: the lent buffer is shorter than the result */
    THALINGUZE_AFTER_THE_END = 16     /* labels in parts: the label has ended, or the lent state is too short for one */
};

/* Limits of an accepted label. */
#define THALINGUZE_MAX_LABEL_SIZE 255    /* bytes */
#define THALINGUZE_MAX_TERMS 32
#define THALINGUZE_MAX_DEPTH 8           /* brackets open at once */
#define THALINGUZE_MAX_DIGITS 4          /* in a run of digits; a plain factor 1, 10, 100, .. may have more */
#define THALINGUZE_MAX_EXPONENT 99       /* size of an exponent, which is never 0; its denominator in lowest terms divides 60 */
#define THALINGUZE_MAX_POWER_OF_TEN 99   /* size of a factor's k, in ten to the k */

/* Exponents are counted in sixtieths: 60 is 1, 90 is 3/2, -60 is -1. */
#define THALINGUZE_SIXTIETHS 60

/*
 * The record: THALINGUZE_FIELDS fields of 8 bytes, each a signed integer in two's complement, least significant byte first.
 * Field f is at the bytes from 8 * f. Fields that a label does not need are 0.
 */
#define THALINGUZE_FIELD_SIZE 8
#define THALINGUZE_FIELDS 266
#define THALINGUZE_RECORD_SIZE (THALINGUZE_FIELDS * THALINGUZE_FIELD_SIZE) /* 2128 bytes */

#define THALINGUZE_BASES 32  /* bases that dimensions count */
#define THALINGUZE_PRIMES 4  /* primes that a scale counts: 2, 3, 5, 487 */

/* Field numbers. */
enum {
    THALINGUZE_FIELD_NUMBER = 0,       /* 0: only an accepted label has a record */
    THALINGUZE_FIELD_K = 1,            /* the power of ten of the factor, -99 to 99; 0 without a factor */
    THALINGUZE_FIELD_KNOWN = 2,        /* 1 if every unit is known, else 0 */
    THALINGUZE_FIELD_LAWFUL = 3,       /* 1 if every prefix on a known unit is lawful there, else 0 */
    THALINGUZE_FIELD_RECOMMENDED = 4,  /* 1 if every unit is known and recommended, else 0 */
    THALINGUZE_FIELD_COUNT = 5,        /* how many terms the label has, 0 to 32 */
    THALINGUZE_FIELD_TERMS = 6,        /* term i, counted from 0, has seven fields from THALINGUZE_FIELD_TERMS + 7 * i */
    THALINGUZE_FIELD_DIMENSIONS = 230, /* one field for each base: its exponent in the label, in sixtieths */
    THALINGUZE_FIELD_SCALE = 262       /* the exponents of 2, 3, 5 and 487 in the label's scale, in sixtieths */
};

/* The fields of a term, counted from its first. */
enum {
    THALINGUZE_TERM_PREFIX = 0,         /* THALINGUZE_PREFIX_... */
    THALINGUZE_TERM_UNIT = 1,           /* THALINGUZE_UNIT_... */
    THALINGUZE_TERM_EXPONENT = 2,       /* in sixtieths, never 0; negative below the line */
    THALINGUZE_TERM_START = 3,          /* how many bytes of the label come before the term's spelling */
    THALINGUZE_TERM_LENGTH = 4,         /* how many bytes the spelling has, prefix and quotes included */
    THALINGUZE_TERM_LETTERS_START = 5,  /* how many bytes of the label come before an unknown unit's letters; 0 for a known unit */
    THALINGUZE_TERM_LETTERS_LENGTH = 6, /* how many letters an unknown unit has, prefix and quotes left out; 0 for a known unit */
    THALINGUZE_TERM_FIELDS = 7
};

/* Prefix codes. */
enum {
    THALINGUZE_PREFIX_NONE = 0,
    THALINGUZE_PREFIX_DECA = 1,   /* da, 10 to the 1 */
    THALINGUZE_PREFIX_HECTO = 2,  /* h, 2 */
    THALINGUZE_PREFIX_KILO = 3,   /* k, 3 */
    THALINGUZE_PREFIX_MEGA = 4,   /* M, 6 */
    THALINGUZE_PREFIX_GIGA = 5,   /* G, 9 */
    THALINGUZE_PREFIX_TERA = 6,   /* T, 12 */
    THALINGUZE_PREFIX_PETA = 7,   /* P, 15 */
    THALINGUZE_PREFIX_EXA = 8,    /* E, 18 */
    THALINGUZE_PREFIX_ZETTA = 9,  /* Z, 21 */
    THALINGUZE_PREFIX_YOTTA = 10, /* Y, 24 */
    THALINGUZE_PREFIX_DECI = 11,  /* d, -1 */
    THALINGUZE_PREFIX_CENTI = 12, /* c, -2 */
    THALINGUZE_PREFIX_MILLI = 13, /* m, -3 */
    THALINGUZE_PREFIX_MICRO = 14, /* u, -6 */
    THALINGUZE_PREFIX_NANO = 15,  /* n, -9 */
    THALINGUZE_PREFIX_PICO = 16,  /* p, -12 */
    THALINGUZE_PREFIX_FEMTO = 17, /* f, -15 */
    THALINGUZE_PREFIX_ATTO = 18,  /* a, -18 */
    THALINGUZE_PREFIX_ZEPTO = 19, /* z, -21 */
    THALINGUZE_PREFIX_YOCTO = 20  /* y, -24 */
};

/* Unit codes. A unit under two names has one code. */
enum {
    THALINGUZE_UNIT_UNKNOWN = 0,
    THALINGUZE_UNIT_METRE = 1,               /* m */
    THALINGUZE_UNIT_GRAM = 2,                /* g */
    THALINGUZE_UNIT_SECOND = 3,              /* s */
    THALINGUZE_UNIT_AMPERE = 4,              /* A */
    THALINGUZE_UNIT_KELVIN = 5,              /* K */
    THALINGUZE_UNIT_MOLE = 6,                /* mol */
    THALINGUZE_UNIT_CANDELA = 7,             /* cd */
    THALINGUZE_UNIT_RADIAN = 8,              /* rad */
    THALINGUZE_UNIT_STERADIAN = 9,           /* sr */
    THALINGUZE_UNIT_HERTZ = 10,              /* Hz */
    THALINGUZE_UNIT_NEWTON = 11,             /* N */
    THALINGUZE_UNIT_PASCAL = 12,             /* Pa */
    THALINGUZE_UNIT_JOULE = 13,              /* J */
    THALINGUZE_UNIT_WATT = 14,               /* W */
    THALINGUZE_UNIT_COULOMB = 15,            /* C */
    THALINGUZE_UNIT_VOLT = 16,               /* V */
    THALINGUZE_UNIT_SIEMENS = 17,            /* S */
    THALINGUZE_UNIT_FARAD = 18,              /* F */
    THALINGUZE_UNIT_WEBER = 19,              /* Wb */
    THALINGUZE_UNIT_TESLA = 20,              /* T */
    THALINGUZE_UNIT_HENRY = 21,              /* H */
    THALINGUZE_UNIT_LUMEN = 22,              /* lm */
    THALINGUZE_UNIT_LUX = 23,                /* lx */
    THALINGUZE_UNIT_MINUTE = 24,             /* min */
    THALINGUZE_UNIT_HOUR = 25,               /* h */
    THALINGUZE_UNIT_DAY = 26,                /* d */
    THALINGUZE_UNIT_YEAR = 27,               /* yr, a */
    THALINGUZE_UNIT_DEGREE = 28,             /* deg */
    THALINGUZE_UNIT_ARCMINUTE = 29,          /* arcmin */
    THALINGUZE_UNIT_ARCSECOND = 30,          /* arcsec */
    THALINGUZE_UNIT_ASTRONOMICAL_UNIT = 31,  /* AU */
    THALINGUZE_UNIT_PARSEC = 32,             /* pc */
    THALINGUZE_UNIT_ELECTRONVOLT = 33,       /* eV */
    THALINGUZE_UNIT_JANSKY = 34,             /* Jy */
    THALINGUZE_UNIT_BARN = 35,               /* barn */
    THALINGUZE_UNIT_MAGNITUDE = 36,          /* mag */
    THALINGUZE_UNIT_BYTE = 37,               /* byte */
    THALINGUZE_UNIT_MILLIARCSECOND = 38,     /* mas */
    THALINGUZE_UNIT_PIXEL = 39,              /* pixel, pix */
    THALINGUZE_UNIT_COUNT = 40,              /* count, ct */
    THALINGUZE_UNIT_RYDBERG = 41,            /* Ry */
    THALINGUZE_UNIT_SOLAR_MASS = 42,         /* solMass */
    THALINGUZE_UNIT_SOLAR_LUMINOSITY = 43,   /* solLum */
    THALINGUZE_UNIT_SOLAR_RADIUS = 44,       /* solRad */
    THALINGUZE_UNIT_DEBYE = 45,              /* D */
    THALINGUZE_UNIT_SUN = 46,                /* Sun: relative to the Sun */
    THALINGUZE_UNIT_BIT = 47,                /* bit */
    THALINGUZE_UNIT_OHM = 48,                /* ohm, Ohm */
    THALINGUZE_UNIT_ERG = 49,                /* erg */
    THALINGUZE_UNIT_GAUSS = 50,              /* G */
    THALINGUZE_UNIT_LIGHT_YEAR = 51,         /* lyr */
    THALINGUZE_UNIT_PHOTON = 52,             /* photon, ph */
    THALINGUZE_UNIT_CHANNEL = 53,            /* chan */
    THALINGUZE_UNIT_BIN = 54,                /* bin */
    THALINGUZE_UNIT_VOXEL = 55,              /* voxel */
    THALINGUZE_UNIT_ATOMIC_MASS_UNIT = 56,   /* u */
    THALINGUZE_UNIT_RAYLEIGH = 57,           /* R */
    THALINGUZE_UNIT_ANALOGUE_TO_DIGITAL_UNIT = 58, /* adu */
    THALINGUZE_UNIT_BEAM = 59,               /* beam */
    THALINGUZE_UNIT_ANGSTROM = 60,           /* angstrom, Angstrom */
    THALINGUZE_UNIT_PERCENT = 61,            /* % */
    THALINGUZE_UNITS = 61                    /* how many units there are */
};

/* The bases that dimensions count, 0 to 31. */
enum {
    THALINGUZE_BASE_METRE = 0,
    THALINGUZE_BASE_GRAM = 1,
    THALINGUZE_BASE_SECOND = 2,
    THALINGUZE_BASE_AMPERE = 3,
    THALINGUZE_BASE_KELVIN = 4,
    THALINGUZE_BASE_MOLE = 5,
    THALINGUZE_BASE_CANDELA = 6,
    THALINGUZE_BASE_RADIAN = 7,
    THALINGUZE_BASE_STERADIAN = 8,
    THALINGUZE_BASE_ARCSECOND = 9,
    THALINGUZE_BASE_BIT = 10,
    THALINGUZE_BASE_ASTRONOMICAL_UNIT = 11,
    THALINGUZE_BASE_PARSEC = 12,
    THALINGUZE_BASE_ELECTRONVOLT = 13,
    THALINGUZE_BASE_MAGNITUDE = 14,
    THALINGUZE_BASE_PIXEL = 15,
    THALINGUZE_BASE_COUNT = 16,
    THALINGUZE_BASE_RYDBERG = 17,
    THALINGUZE_BASE_SOLAR_MASS = 18,
    THALINGUZE_BASE_SOLAR_LUMINOSITY = 19,
    THALINGUZE_BASE_SOLAR_RADIUS = 20,
    THALINGUZE_BASE_DEBYE = 21,
    THALINGUZE_BASE_SUN = 22,
    THALINGUZE_BASE_LIGHT_YEAR = 23,
    THALINGUZE_BASE_PHOTON = 24,
    THALINGUZE_BASE_CHANNEL = 25,
    THALINGUZE_BASE_BIN = 26,
    THALINGUZE_BASE_VOXEL = 27,
    THALINGUZE_BASE_ATOMIC_MASS_UNIT = 28,
    THALINGUZE_BASE_RAYLEIGH = 29,
    THALINGUZE_BASE_ANALOGUE_TO_DIGITAL_UNIT = 30,
    THALINGUZE_BASE_BEAM = 31
};

/* The primes that a scale counts, 0 to 3. */
enum {
    THALINGUZE_PRIME_2 = 0,
    THALINGUZE_PRIME_3 = 1,
    THALINGUZE_PRIME_5 = 2,
    THALINGUZE_PRIME_487 = 3
};

/*
 * Reads a label in a notation.
 *
 * notation     one of THALINGUZE_FITS, _OGIP, _CDS, _VOUNITS, _STARLINK. Any other number gets an answer too: it is refused.
 * label        the label's bytes, without a terminating 0; any bytes. They are only read.
 * label_size   how many bytes the label has; 0 is the empty label, which every notation accepts, with no terms.
 * record       where the record is written.
 * record_size  how many bytes are lent there; THALINGUZE_RECORD_SIZE holds the whole record.
 *
 * Returns 0 (THALINGUZE_ACCEPTED), or the number of the refusal, 1 to 7. The answer depends on the notation and the label's bytes
 * alone, not on record_size.
 *
 * Accepted: the record is written. A buffer shorter than the record gets the bytes that fit, as snprintf does, and a field that is
 * cut is not to be read. In a longer buffer the bytes past the record stay as they are.
 * Refused: no byte of the buffer changes. So look at the returned number before the record.
 *
 * label must point to label_size readable bytes and record to record_size writable bytes. Either may be NULL where its size is 0, here
 * and in the other calls. The two must not overlap. They need no alignment.
 */
uint32_t thalinguze_read(uint32_t notation, const uint8_t *label, size_t label_size, uint8_t *record, size_t record_size);

/*
 * What follows takes fields out of a record that an accepted reading wrote whole. Terms are counted from 0, in the order of the
 * label; i must be below THALINGUZE_MAX_TERMS. A term from thalinguze_count(record) on has all fields 0.
 */

/* Field number `field`, 0 to THALINGUZE_FIELDS - 1. */
static inline int64_t thalinguze_field(const uint8_t *record, unsigned field) {
    const uint8_t *at = record + (size_t)field * THALINGUZE_FIELD_SIZE;
    uint64_t bits = 0;
    for (unsigned i = THALINGUZE_FIELD_SIZE; i-- > 0;)
        bits = bits << 8 | at[i];
    /* two's complement, without a conversion of an unsigned number that has no signed value */
    return bits <= INT64_MAX ? (int64_t)bits : -(int64_t)(UINT64_MAX - bits) - 1;
}

/* The power of ten of the label's factor. */
static inline int thalinguze_k(const uint8_t *record) {
    return (int)thalinguze_field(record, THALINGUZE_FIELD_K);
}

/* The three verdicts, each 1 (yes) or 0 (no). */
static inline int thalinguze_known(const uint8_t *record) {
    return (int)thalinguze_field(record, THALINGUZE_FIELD_KNOWN);
}

static inline int thalinguze_lawful(const uint8_t *record) {
    return (int)thalinguze_field(record, THALINGUZE_FIELD_LAWFUL);
}

static inline int thalinguze_recommended(const uint8_t *record) {
    return (int)thalinguze_field(record, THALINGUZE_FIELD_RECOMMENDED);
}

/* How many terms the label has. */
static inline unsigned thalinguze_count(const uint8_t *record) {
    return (unsigned)thalinguze_field(record, THALINGUZE_FIELD_COUNT);
}

/* A field of term i: THALINGUZE_TERM_PREFIX, .. */
static inline int64_t thalinguze_term_field(const uint8_t *record, unsigned i, unsigned field) {
    return thalinguze_field(record, THALINGUZE_FIELD_TERMS + THALINGUZE_TERM_FIELDS * i + field);
}

/* The prefix code of term i. */
static inline int thalinguze_term_prefix(const uint8_t *record, unsigned i) {
    return (int)thalinguze_term_field(record, i, THALINGUZE_TERM_PREFIX);
}

/* The unit code of term i. */
static inline int thalinguze_term_unit(const uint8_t *record, unsigned i) {
    return (int)thalinguze_term_field(record, i, THALINGUZE_TERM_UNIT);
}

/* The exponent of term i, in sixtieths. */
static inline int thalinguze_term_exponent(const uint8_t *record, unsigned i) {
    return (int)thalinguze_term_field(record, i, THALINGUZE_TERM_EXPONENT);
}

/* Where the spelling of term i starts in the label, counted from 0. */
static inline size_t thalinguze_term_start(const uint8_t *record, unsigned i) {
    return (size_t)thalinguze_term_field(record, i, THALINGUZE_TERM_START);
}

/* How many bytes the spelling of term i has, prefix and quotes included. */
static inline size_t thalinguze_term_length(const uint8_t *record, unsigned i) {
    return (size_t)thalinguze_term_field(record, i, THALINGUZE_TERM_LENGTH);
}

/*
 * Where the letters of the unknown unit of term i start in the label, and how many there are, without prefix and quotes: "urlong" in FITS
 * "furlong", which is read as femto and urlong; "furlong" in VOUnits "'furlong'". Both are 0 for a known unit.
 */
static inline size_t thalinguze_term_letters_start(const uint8_t *record, unsigned i) {
    return (size_t)thalinguze_term_field(record, i, THALINGUZE_TERM_LETTERS_START);
}

static inline size_t thalinguze_term_letters_length(const uint8_t *record, unsigned i) {
    return (size_t)thalinguze_term_field(record, i, THALINGUZE_TERM_LETTERS_LENGTH);
}

/* The exponent of a base, THALINGUZE_BASE_METRE .., in the label's dimensions, in sixtieths. */
static inline int64_t thalinguze_dimension(const uint8_t *record, unsigned base) {
    return thalinguze_field(record, THALINGUZE_FIELD_DIMENSIONS + base);
}

/* The exponent of a prime, THALINGUZE_PRIME_2 .., in the label's scale, in sixtieths. */
static inline int64_t thalinguze_scale(const uint8_t *record, unsigned prime) {
    return thalinguze_field(record, THALINGUZE_FIELD_SCALE + prime);
}

/* LABELS THAT COME IN PARTS */

/*
 * A label that is typed comes some or no bytes at a time, and is read when it has ended. What has come is held by a state, which the
 * program lends to each call:
 *
 *     uint8_t state[THALINGUZE_STATE_SIZE], record[THALINGUZE_RECORD_SIZE];
 *     thalinguze_begin(THALINGUZE_CDS, state, sizeof state);
 *     for (int key = getchar(); key != EOF && key != '\n'; key = getchar()) {
 *         uint8_t byte = (uint8_t)key;
 *         thalinguze_part(state, sizeof state, &byte, 1);
 *     }
 *     if (thalinguze_end(state, sizeof state, record, sizeof record) == THALINGUZE_ACCEPTED)
 *         printf("%u terms\n", thalinguze_count(record));
 *
 * prints 3 terms when kg/m.s and a newline are typed. For the same bytes, cut anywhere, thalinguze_end returns and writes what
 * thalinguze_read does. A state may be copied: what is sent to the copy does not change the other one.
 *
 * The bytes of a state: the notation in four, least significant first; how many bytes have come, as far as 256, in four; one that is 0
 * before the label's end; and 255 for the label, of which as many are used as have come. So the letters that a record tells of, as those
 * of an unknown unit, are in the state. Any bytes get an answer: a state is taken as ended if its ninth byte is not 0, if its count is
 * above 256, or if fewer than THALINGUZE_STATE_SIZE bytes are lent.
 */
#define THALINGUZE_STATE_SIZE 264
#define THALINGUZE_STATE_LABEL 9 /* how many bytes of a state come before those of the label */

/*
 * Begins a label: writes a state of which no byte has come.
 *
 * notation           as for thalinguze_read. Any other number is refused at the end.
 * state, state_size  where the state is written; bytes past THALINGUZE_STATE_SIZE stay as they are.
 *
 * Returns 0. A state of fewer bytes stays as it is, and the answer is 16 (THALINGUZE_AFTER_THE_END), here and in the calls below.
 */
uint32_t thalinguze_begin(uint32_t notation, uint8_t *state, size_t state_size);

/*
 * Takes the next bytes of the label, or none.
 *
 * state, state_size  a state that thalinguze_begin wrote.
 * part, part_size    the bytes. They are only read, and do not overlap the state.
 *
 * Returns 0. After the label's end the state stays as it is, and the answer is 16. Bytes past THALINGUZE_MAX_LABEL_SIZE are dropped;
 * thalinguze_end says then that the label is too long.
 */
uint32_t thalinguze_part(uint8_t *state, size_t state_size, const uint8_t *part, size_t part_size);

/*
 * Ends the label and reads it.
 *
 * state, state_size    a state that thalinguze_begin wrote. It has ended then, also where the label is refused.
 * record, record_size  as for thalinguze_read. It does not overlap the state.
 *
 * Returns 0, or the number of the refusal: 16 where the label has ended before, and else 1 to 7, as thalinguze_read. A refusal changes
 * no byte of the record, and 16 no byte of the state. thalinguze_begin begins the next label.
 */
uint32_t thalinguze_end(uint8_t *state, size_t state_size, uint8_t *record, size_t record_size);

/* REWRITING */

/* What rewriting and words answer: 0 and how many bytes the result has, or the number of a refusal and 0. */
struct thalinguze_rewritten {
    uint32_t number;
    uint32_t length;
};

/*
 * Rewrites a label in another notation, without slashes and groups. Read there, the result has the same units, prefixes, exponents and power
 * of ten, in the same order.
 *
 *     const char *label = "10+3pix/h";
 *     uint8_t result[THALINGUZE_MAX_LABEL_SIZE];
 *     struct thalinguze_rewritten r =
 *         thalinguze_rewrite(THALINGUZE_CDS, (const uint8_t *)label, strlen(label), THALINGUZE_OGIP, result, sizeof result);
 *     if (r.number == THALINGUZE_ACCEPTED)
 *         printf("%.*s\n", (int)r.length, (const char *)result);
 *
 * prints 10**3 pixel h**(-1). The result is not ended by a byte 0.
 *
 * source, target       the notation of the label and that of the result, as for thalinguze_read.
 * label, label_size    the label's bytes.
 * buffer, buffer_size  where the result is written; THALINGUZE_MAX_LABEL_SIZE bytes hold every result. It does not overlap the label.
 *
 * The number is 0, or that of the first refusal that applies: 1 to 7 of the label, 1 for the target, then 12 to 14. A refusal changes no
 * byte of the buffer, and an accepted label changes only the bytes of its result.
 */
struct thalinguze_rewritten thalinguze_rewrite(uint32_t source, const uint8_t *label, size_t label_size, uint32_t target, uint8_t *buffer,
                                               size_t buffer_size);

/* WORDS */

/* No label has words of more bytes than this, and one has as many: in CDS, 10-9, 31 times /hAU, /h and 125 times x. */
#define THALINGUZE_MAX_WORDS_SIZE 1476

/*
 * Writes what is spoken of a label: English words, parted by single spaces.
 *
 *     const char *label = "kg/m.s";
 *     uint8_t words[THALINGUZE_MAX_WORDS_SIZE];
 *     struct thalinguze_rewritten r = thalinguze_words(THALINGUZE_CDS, (const uint8_t *)label, strlen(label), words, sizeof words);
 *     if (r.number == THALINGUZE_ACCEPTED)
 *         printf("%.*s\n", (int)r.length, (const char *)words);
 *
 * prints kilo gram metre to the minus 1 second. The words are "ten to the" and k where k is not 0, and for each term, in the order of the
 * label, its prefix, its unit and, unless it is 1, its exponent: "to the 2", "to the minus 1 over 2". Numbers stay digits. An unknown unit
 * is "unit", its letters one by one, and "end". The empty label has no words, and length 0. The words are not ended by a byte 0.
 *
 * Two labels, of one notation or of two, have the same words exactly if they have the same power of ten and the same prefixes, units and
 * exponents in the same order.
 *
 * notation             the notation of the label, as for thalinguze_read.
 * label, label_size    the label's bytes.
 * buffer, buffer_size  where the words are written; THALINGUZE_MAX_WORDS_SIZE bytes hold those of every label. It does not overlap the label.
 *
 * The number is 0, or that of the first refusal that applies: 1 to 7 of the label, then 14. A refusal changes no byte of the buffer, and an
 * accepted label changes only the bytes of its words.
 */
struct thalinguze_rewritten thalinguze_words(uint32_t notation, const uint8_t *label, size_t label_size, uint8_t *buffer,
                                             size_t buffer_size);

/* CONVERTING */

/* The record of a conversion has four fields: the number 0, numerator, denominator, and the power of ten k. */
#define THALINGUZE_CONVERSION_FIELDS 4
#define THALINGUZE_CONVERSION_SIZE (THALINGUZE_CONVERSION_FIELDS * THALINGUZE_FIELD_SIZE)
enum {
    THALINGUZE_CONVERSION_NUMBER = 0,
    THALINGUZE_CONVERSION_NUMERATOR = 1,
    THALINGUZE_CONVERSION_DENOMINATOR = 2,
    THALINGUZE_CONVERSION_K = 3
};

/* Limits of an accepted conversion. */
#define THALINGUZE_MAX_NUMERATOR 9007199254740992 /* 2 to the 53, also of a denominator: a double holds it exactly */
#define THALINGUZE_MAX_CONVERSION_K 9999          /* size of k */

/*
 * Converts from a first label to a second: a number in the first unit times the factor is the number in the second.
 *
 *     const char *from = "km/h", *to = "m/s";
 *     uint8_t record[THALINGUZE_CONVERSION_SIZE];
 *     if (thalinguze_convert(THALINGUZE_CDS, (const uint8_t *)from, strlen(from), THALINGUZE_CDS, (const uint8_t *)to, strlen(to),
 *                            record, sizeof record) == THALINGUZE_ACCEPTED)
 *         printf("%lld/%lld, k = %d\n", (long long)thalinguze_numerator(record), (long long)thalinguze_denominator(record),
 *                thalinguze_conversion_k(record));
 *
 * prints 1/36, k = 1: the factor is 1/36 times ten to the 1. The fraction is in lowest terms and neither number is divisible by 5, so
 * there is only one.
 *
 * first, second            the notation of each label, as for thalinguze_read.
 * first_label, first_size  the bytes of the first label; second_label, second_size those of the second. The two may overlap.
 * record, record_size      where the record is written; THALINGUZE_CONVERSION_SIZE bytes hold it.
 *
 * Returns 0, or the number of the first refusal that applies: 1 to 7 of the first label, 1 to 7 of the second, then 8 to 11. The answer
 * depends on the notations and the labels' bytes alone. What is said of the record's buffer at thalinguze_read holds here too.
 */
uint32_t thalinguze_convert(uint32_t first, const uint8_t *first_label, size_t first_size, uint32_t second, const uint8_t *second_label,
                            size_t second_size, uint8_t *record, size_t record_size);

/* What follows takes fields out of a record that an accepted conversion wrote whole. */

/* The factor's numerator, 1 to THALINGUZE_MAX_NUMERATOR. */
static inline int64_t thalinguze_numerator(const uint8_t *record) {
    return thalinguze_field(record, THALINGUZE_CONVERSION_NUMERATOR);
}

/* The factor's denominator, 1 to THALINGUZE_MAX_NUMERATOR. */
static inline int64_t thalinguze_denominator(const uint8_t *record) {
    return thalinguze_field(record, THALINGUZE_CONVERSION_DENOMINATOR);
}

/* The power of ten that the fraction is multiplied by, -THALINGUZE_MAX_CONVERSION_K to THALINGUZE_MAX_CONVERSION_K. */
static inline int thalinguze_conversion_k(const uint8_t *record) {
    return (int)thalinguze_field(record, THALINGUZE_CONVERSION_K);
}

#ifdef __cplusplus
}
#endif

#endif
