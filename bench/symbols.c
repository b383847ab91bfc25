/* The symbols of the reader in plain C: names, prefixes, sizes, and one table of spellings for each notation, found by a hash. */
#include <string.h>
#include "reader.h"

enum { FITS = 1 << THALINGUZE_FITS, OGIP = 1 << THALINGUZE_OGIP, CDS = 1 << THALINGUZE_CDS, VOU = 1 << THALINGUZE_VOUNITS };
enum { STARLINK = 1 << THALINGUZE_STARLINK, ALL = FITS | OGIP | CDS | VOU | STARLINK, NOT_OGIP = FITS | CDS | VOU, NOT_CDS = ALL - CDS };
enum { PREFIXES = 20, LONGEST = 10, SLOTS = 4096, NO_MORE_BASES = 255 };

static const struct {
    const char *name;
    uint8_t unit, notations;
} names[] = {
    {"m", 1, ALL}, {"g", 2, ALL}, {"s", 3, ALL}, {"A", 4, ALL}, {"K", 5, ALL}, {"mol", 6, ALL}, {"cd", 7, ALL}, {"rad", 8, ALL},
    {"sr", 9, ALL}, {"Hz", 10, ALL}, {"N", 11, ALL}, {"Pa", 12, ALL}, {"J", 13, ALL}, {"W", 14, ALL}, {"C", 15, ALL}, {"V", 16, ALL},
    {"S", 17, ALL}, {"F", 18, ALL}, {"Wb", 19, ALL}, {"T", 20, ALL}, {"H", 21, ALL}, {"lm", 22, ALL}, {"lx", 23, ALL},
    {"min", 24, ALL}, {"h", 25, ALL}, {"d", 26, ALL}, {"yr", 27, ALL}, {"deg", 28, ALL}, {"arcmin", 29, ALL}, {"arcsec", 30, ALL},
    {"AU", 31, ALL}, {"pc", 32, ALL}, {"eV", 33, ALL}, {"Jy", 34, ALL}, {"barn", 35, ALL}, {"mag", 36, ALL}, {"byte", 37, ALL},
    {"a", 27, NOT_OGIP}, {"mas", 38, NOT_OGIP}, {"pix", 39, NOT_OGIP}, {"ct", 40, NOT_OGIP}, {"Ry", 41, NOT_OGIP},
    {"solMass", 42, NOT_OGIP}, {"solLum", 43, NOT_OGIP}, {"solRad", 44, NOT_OGIP}, {"D", 45, NOT_OGIP}, {"Sun", 46, NOT_OGIP},
    {"bit", 47, NOT_OGIP}, {"Ohm", 48, NOT_OGIP}, {"erg", 49, NOT_CDS}, {"G", 50, NOT_CDS}, {"lyr", 51, NOT_CDS},
    {"count", 40, NOT_CDS}, {"photon", 52, NOT_CDS}, {"pixel", 39, NOT_CDS}, {"chan", 53, NOT_CDS}, {"bin", 54, NOT_CDS},
    {"voxel", 55, NOT_CDS}, {"u", 56, FITS | VOU}, {"ph", 52, FITS | VOU}, {"R", 57, FITS | VOU}, {"adu", 58, FITS | VOU},
    {"beam", 59, FITS | VOU}, {"Angstrom", 60, FITS | VOU}, {"angstrom", 60, OGIP | VOU}, {"ohm", 48, OGIP | STARLINK}, {"%", 61, CDS},
    {"Ang", 60, STARLINK},
};

static const char prefix_letters[PREFIXES + 1][3] = {"", "da", "h", "k", "M", "G", "T", "P", "E", "Z", "Y",
                                                     "d", "c", "m", "u", "n", "p", "f", "a", "z", "y"};
const int8_t bench_prefix_powers[PREFIXES + 1] = {0, 1, 2, 3, 6, 9, 12, 15, 18, 21, 24, -1, -2, -3, -6, -9, -12, -15, -18, -21, -24};

/* bases by their numbers in the header: 0 m, 1 g, 2 s, 3 A, 6 cd, 8 sr, 9 arcsec, 10 bit */
#define NO {NO_MORE_BASES, 0}
#define ONE(base) {{base, 1}, NO, NO, NO}
#define BASE(lawful, base) {lawful, 0, ONE(base), {0}}
#define TENS(n) {n, 0, n, 0}
const struct unit bench_units[THALINGUZE_UNITS + 1] = {
    {ALL, 1, {NO, NO, NO, NO}, {0}},
    BASE(ALL, 0), BASE(ALL, 1), BASE(ALL, 2), BASE(ALL, 3), BASE(ALL, 4), BASE(ALL, 5), BASE(ALL, 6), BASE(ALL, 7), BASE(ALL, 8),
    {ALL, 0, {{2, -1}, NO, NO, NO}, {0}},                           /* Hz */
    {ALL, 0, {{1, 1}, {0, 1}, {2, -2}, NO}, TENS(3)},               /* N */
    {ALL, 0, {{1, 1}, {0, -1}, {2, -2}, NO}, TENS(3)},              /* Pa */
    {ALL, 0, {{1, 1}, {0, 2}, {2, -2}, NO}, TENS(3)},               /* J */
    {ALL, 0, {{1, 1}, {0, 2}, {2, -3}, NO}, TENS(3)},               /* W */
    {ALL, 0, {{3, 1}, {2, 1}, NO, NO}, {0}},                        /* C */
    {ALL, 0, {{1, 1}, {0, 2}, {2, -3}, {3, -1}}, TENS(3)},          /* V */
    {ALL, 0, {{1, -1}, {0, -2}, {2, 3}, {3, 2}}, TENS(-3)},         /* S */
    {ALL, 0, {{1, -1}, {0, -2}, {2, 4}, {3, 2}}, TENS(-3)},         /* F */
    {ALL, 0, {{1, 1}, {0, 2}, {2, -2}, {3, -1}}, TENS(3)},          /* Wb */
    {ALL, 0, {{1, 1}, {2, -2}, {3, -1}, NO}, TENS(3)},              /* T */
    {ALL, 0, {{1, 1}, {0, 2}, {2, -2}, {3, -2}}, TENS(3)},          /* H */
    {ALL, 0, {{6, 1}, {8, 1}, NO, NO}, {0}},                        /* lm */
    {ALL, 0, {{6, 1}, {8, 1}, {0, -2}, NO}, {0}},                   /* lx */
    {0, 0, ONE(2), {2, 1, 1, 0}},                                   /* min */
    {0, 0, ONE(2), {4, 2, 2, 0}},                                   /* h */
    {0, 0, ONE(2), {7, 3, 2, 0}},                                   /* d */
    {ALL, 0, ONE(2), {5, 4, 2, 1}},                                 /* yr */
    {0, 0, ONE(9), {4, 2, 2, 0}},                                   /* deg */
    {0, 0, ONE(9), {2, 1, 1, 0}},                                   /* arcmin */
    BASE(CDS | VOU, 9),                                             /* arcsec */
    BASE(0, 11), BASE(ALL, 12), BASE(ALL, 13),                      /* AU, pc, eV */
    {ALL, 0, {{1, 1}, {2, -2}, NO, NO}, TENS(-23)},                 /* Jy */
    {0, 1, {{0, 2}, NO, NO, NO}, TENS(-28)},                        /* barn */
    BASE(0, 14),                                                    /* mag */
    {ALL, 0, ONE(10), {3, 0, 0, 0}},                                /* byte */
    {0, 0, ONE(9), TENS(-3)},                                       /* mas */
    BASE(0, 15), BASE(0, 16), BASE(0, 17), BASE(0, 18), BASE(0, 19), BASE(0, 20), BASE(0, 21), BASE(0, 22), /* pixel to Sun */
    BASE(ALL, 10),                                                  /* bit */
    {ALL, 0, {{1, 1}, {0, 2}, {2, -3}, {3, -2}}, TENS(3)},          /* ohm */
    {0, 1, {{1, 1}, {0, 2}, {2, -2}, NO}, TENS(-4)},                /* erg */
    {0, 1, {{1, 1}, {2, -2}, {3, -1}, NO}, TENS(-1)},               /* G */
    BASE(0, 23), BASE(0, 24), BASE(0, 25), BASE(0, 26), BASE(0, 27), BASE(0, 28), BASE(0, 29), BASE(0, 30), BASE(0, 31), /* lyr to beam */
    {0, 1, ONE(0), TENS(-10)},                                      /* angstrom */
    {0, 0, {NO, NO, NO, NO}, TENS(-2)},                             /* % */
};

static struct entry {
    uint8_t size, letters[LONGEST];
    struct symbol symbol;
} tables[THALINGUZE_STARLINK + 1][SLOTS];

static uint8_t one_letter_prefix[256];

static unsigned slot(const uint8_t *letters, size_t size) {
    uint32_t hash = 2166136261u;
    for (size_t i = 0; i < size; i++)
        hash = (hash ^ letters[i]) * 16777619u;
    return (hash ^ hash >> 15) % SLOTS;
}

/* the entry with these letters, or the free one where they would be */
static struct entry *find(uint32_t notation, const uint8_t *letters, size_t size) {
    for (unsigned i = slot(letters, size);; i = (i + 1) % SLOTS) {
        struct entry *e = &tables[notation][i];
        if (e->size == 0 || (e->size == size && memcmp(e->letters, letters, size) == 0))
            return e;
    }
}

static void enter(uint32_t notation, unsigned prefix, const char *name, unsigned unit) {
    uint8_t letters[LONGEST + 3];
    size_t before = strlen(prefix_letters[prefix]), size = before + strlen(name);
    memcpy(letters, prefix_letters[prefix], before);
    memcpy(letters + before, name, size - before);
    struct entry *e = find(notation, letters, size);
    if (e->size == 0) {
        e->size = (uint8_t)size;
        memcpy(e->letters, letters, size);
        e->symbol = (struct symbol){(uint8_t)prefix, (uint8_t)unit};
    }
}

/* names first, since a whole name comes before a prefix and a name */
void bench_prepare(void) {
    for (unsigned prefix = 0; prefix <= PREFIXES; prefix++) {
        for (uint32_t notation = THALINGUZE_FITS; notation <= THALINGUZE_STARLINK; notation++)
            for (size_t i = 0; i < sizeof names / sizeof names[0]; i++)
                if ((names[i].notations >> notation & 1) && (prefix == 0 || names[i].name[0] != '%'))
                    enter(notation, prefix, names[i].name, names[i].unit);
        if (prefix > THALINGUZE_PREFIX_DECA)
            one_letter_prefix[(uint8_t)prefix_letters[prefix][0]] = (uint8_t)prefix;
    }
}

unsigned bench_prefix(const uint8_t *letters, size_t size) {
    return size == 1 ? one_letter_prefix[letters[0]] : size == 2 && letters[0] == 'd' && letters[1] == 'a' ? THALINGUZE_PREFIX_DECA : 0;
}

struct symbol bench_symbol(uint32_t notation, const uint8_t *letters, size_t size) {
    if (size <= LONGEST) {
        const struct entry *e = find(notation, letters, size);
        if (e->size != 0)
            return e->symbol;
    }
    unsigned prefix = size > 2 ? bench_prefix(letters, 2) : 0;
    if (prefix == 0 && size > 1)
        prefix = bench_prefix(letters, 1);
    return (struct symbol){(uint8_t)prefix, THALINGUZE_UNIT_UNKNOWN};
}
