/* Compares the header's constants and the command's words with the tables of the proved code (standard input, see tables.awk) and
   with what the library answers. */
#include <ctype.h>
#include <inttypes.h>
#include <stdbool.h>
#include <stdio.h>
#include <string.h>
#include "../c/words.h"
#include "../include/thalinguze.h"
#include "longest.h"

struct constant {
    const char *symbol, *name;
    int code;
};
#define UNIT(symbol, name) {symbol, #name, THALINGUZE_UNIT_##name}
#define PREFIX(symbol, name) {symbol, #name, THALINGUZE_PREFIX_##name}
#define BASE(symbol, name) {symbol, #name, THALINGUZE_BASE_##name}

static const struct constant units[] = {
    UNIT("m", METRE), UNIT("g", GRAM), UNIT("s", SECOND), UNIT("A", AMPERE), UNIT("K", KELVIN), UNIT("mol", MOLE), UNIT("cd", CANDELA),
    UNIT("rad", RADIAN), UNIT("sr", STERADIAN), UNIT("Hz", HERTZ), UNIT("N", NEWTON), UNIT("Pa", PASCAL), UNIT("J", JOULE),
    UNIT("W", WATT), UNIT("C", COULOMB), UNIT("V", VOLT), UNIT("S", SIEMENS), UNIT("F", FARAD), UNIT("Wb", WEBER), UNIT("T", TESLA),
    UNIT("H", HENRY), UNIT("lm", LUMEN), UNIT("lx", LUX), UNIT("min", MINUTE), UNIT("h", HOUR), UNIT("d", DAY), UNIT("yr", YEAR),
    UNIT("a", YEAR), UNIT("deg", DEGREE), UNIT("arcmin", ARCMINUTE), UNIT("arcsec", ARCSECOND), UNIT("AU", ASTRONOMICAL_UNIT),
    UNIT("pc", PARSEC), UNIT("eV", ELECTRONVOLT), UNIT("Jy", JANSKY), UNIT("barn", BARN), UNIT("mag", MAGNITUDE), UNIT("byte", BYTE),
    UNIT("mas", MILLIARCSECOND), UNIT("pixel", PIXEL), UNIT("pix", PIXEL), UNIT("count", COUNT), UNIT("ct", COUNT), UNIT("Ry", RYDBERG),
    UNIT("solMass", SOLAR_MASS), UNIT("solLum", SOLAR_LUMINOSITY), UNIT("solRad", SOLAR_RADIUS), UNIT("D", DEBYE), UNIT("Sun", SUN),
    UNIT("bit", BIT), UNIT("ohm", OHM), UNIT("Ohm", OHM), UNIT("erg", ERG), UNIT("G", GAUSS), UNIT("lyr", LIGHT_YEAR),
    UNIT("photon", PHOTON), UNIT("ph", PHOTON), UNIT("chan", CHANNEL), UNIT("bin", BIN), UNIT("voxel", VOXEL),
    UNIT("u", ATOMIC_MASS_UNIT), UNIT("R", RAYLEIGH), UNIT("adu", ANALOGUE_TO_DIGITAL_UNIT), UNIT("beam", BEAM),
    UNIT("angstrom", ANGSTROM), UNIT("Angstrom", ANGSTROM), UNIT("Ang", ANGSTROM), UNIT("%", PERCENT),
};
static const struct constant prefixes[] = {
    PREFIX("da", DECA), PREFIX("h", HECTO), PREFIX("k", KILO), PREFIX("M", MEGA), PREFIX("G", GIGA), PREFIX("T", TERA),
    PREFIX("P", PETA), PREFIX("E", EXA), PREFIX("Z", ZETTA), PREFIX("Y", YOTTA), PREFIX("d", DECI), PREFIX("c", CENTI),
    PREFIX("m", MILLI), PREFIX("u", MICRO), PREFIX("n", NANO), PREFIX("p", PICO), PREFIX("f", FEMTO), PREFIX("a", ATTO),
    PREFIX("z", ZEPTO), PREFIX("y", YOCTO),
};
/* each base by the name of its unit, which FITS knows */
static const struct constant bases[] = {
    BASE("m", METRE), BASE("g", GRAM), BASE("s", SECOND), BASE("A", AMPERE), BASE("K", KELVIN), BASE("mol", MOLE), BASE("cd", CANDELA),
    BASE("rad", RADIAN), BASE("sr", STERADIAN), BASE("arcsec", ARCSECOND), BASE("bit", BIT), BASE("AU", ASTRONOMICAL_UNIT),
    BASE("pc", PARSEC), BASE("eV", ELECTRONVOLT), BASE("mag", MAGNITUDE), BASE("pixel", PIXEL), BASE("count", COUNT),
    BASE("Ry", RYDBERG), BASE("solMass", SOLAR_MASS), BASE("solLum", SOLAR_LUMINOSITY), BASE("solRad", SOLAR_RADIUS),
    BASE("D", DEBYE), BASE("Sun", SUN), BASE("lyr", LIGHT_YEAR), BASE("photon", PHOTON), BASE("chan", CHANNEL), BASE("bin", BIN),
    BASE("voxel", VOXEL), BASE("u", ATOMIC_MASS_UNIT), BASE("R", RAYLEIGH), BASE("adu", ANALOGUE_TO_DIGITAL_UNIT), BASE("beam", BEAM),
};
enum { UNIT_NAMES = sizeof units / sizeof units[0], PREFIX_NAMES = sizeof prefixes / sizeof prefixes[0] };
_Static_assert(sizeof bases / sizeof bases[0] == THALINGUZE_BASES, "a constant for each base");

static int tried, wrong;

static void check(bool good, const char *what, const char *which) {
    tried++;
    if (!good) {
        wrong++;
        printf("%s: %s\n", what, which);
    }
}

static uint32_t read_text(uint32_t notation, const char *text, uint8_t *record) {
    memset(record, 0, THALINGUZE_RECORD_SIZE);
    return thalinguze_read(notation, (const uint8_t *)text, strlen(text), record, THALINGUZE_RECORD_SIZE);
}

/* a name as one number in base 256, first letter highest */
static uint64_t key_of(const char *letters) {
    uint64_t key = 0;
    for (; *letters; letters++)
        key = key << 8 | (uint8_t)*letters;
    return key;
}

/* a constant's name is its word, in capitals, with _ for what is no letter */
static bool same_word(const char *name, const char *word) {
    for (; *name && *word; name++, word++)
        if (isalpha((unsigned char)*word) ? toupper((unsigned char)*word) != *name : *name != '_')
            return false;
    return *name == *word;
}

static const struct constant *find(const struct constant *table, size_t count, uint64_t key) {
    for (size_t i = 0; i < count; i++)
        if (key_of(table[i].symbol) == key)
            return &table[i];
    return NULL;
}

/* a name's code has its length, the notations that know it and its unit's row, a byte each */
static void check_name(uint64_t key, unsigned code) {
    uint8_t record[THALINGUZE_RECORD_SIZE];
    int row = (int)(code & 255);
    unsigned notations = code >> 8 & 255;
    const struct constant *c = find(units, UNIT_NAMES, key);
    check(c != NULL, "a name of the tables that this test lacks", "see unit_table.rt");
    if (!c)
        return;
    check(strlen(c->symbol) == code >> 16, "the length of a name", c->symbol);
    check(c->code == row + 1, "unit constant", c->name);
    const char *const *words = unit_words[row >= 0 && row < THALINGUZE_UNITS ? row + 1 : 0];
    const struct constant *shown = find(units, UNIT_NAMES, key_of(words[SYMBOL]));
    check(shown && shown->code == row + 1 && strcmp(shown->name, c->name) == 0, "symbol of the command", c->name);
    check(strcmp(c->symbol, words[SYMBOL]) == 0 || (words[OTHER] && strcmp(c->symbol, words[OTHER]) == 0)
              || (words[THIRD] && strcmp(c->symbol, words[THIRD]) == 0), "name of the command", c->symbol);
    check(same_word(c->name, words[WORD]), "word of the command", c->name);
    for (uint32_t n = 1; n <= NOTATIONS; n++) {
        uint32_t number = read_text(n, c->symbol, record);
        bool known = number == 0 && thalinguze_count(record) == 1 && thalinguze_term_prefix(record, 0) == THALINGUZE_PREFIX_NONE &&
                     thalinguze_term_unit(record, 0) == c->code;
        check(known == (notations >> (n - 1) & 1), "the library's answer for a unit", c->symbol);
    }
}

/* a prefix's code has its length above its two letters */
static void check_prefix(int place, unsigned code, int power) {
    const struct constant *c = find(prefixes, PREFIX_NAMES, code & 0xffff);
    check(c && strlen(c->symbol) == code >> 16, "the length of a prefix", c ? c->symbol : "lacking");
    check(c && c->code == place + 1, "prefix constant", c ? c->name : "lacking");
    if (!c || place >= PREFIX_NAMES)
        return;
    const struct prefix_word *word = &prefix_words[place + 1];
    check(strcmp(word->symbol, c->symbol) == 0 && same_word(c->name, word->word) && word->power == power, "prefix of the command", c->name);
    for (uint32_t n = 1; n <= NOTATIONS; n++) {
        uint8_t record[THALINGUZE_RECORD_SIZE];
        char label[8];
        snprintf(label, sizeof label, "%sm", c->symbol);
        bool good = read_text(n, label, record) == 0 && thalinguze_term_prefix(record, 0) == c->code &&
                    thalinguze_term_unit(record, 0) == THALINGUZE_UNIT_METRE &&
                    thalinguze_scale(record, THALINGUZE_PRIME_2) == power * THALINGUZE_SIXTIETHS &&
                    thalinguze_scale(record, THALINGUZE_PRIME_5) == power * THALINGUZE_SIXTIETHS;
        check(good, "the library's answer for a prefix", label);
    }
}

static void check_tables(void) {
    char line[256];
    int names = 0, prefix_count = 0;
    while (fgets(line, sizeof line, stdin)) {
        uint64_t key;
        unsigned code;
        int power;
        if (sscanf(line, "name %" SCNu64 " %x", &key, &code) == 2) {
            check_name(key, code);
            names++;
        } else if (sscanf(line, "prefix %x %d", &code, &power) == 2) {
            check_prefix(prefix_count++, code, power);
        } else {
            check(false, "a line of the tables that is not understood", line);
        }
    }
    check(names == UNIT_NAMES && prefix_count == PREFIX_NAMES, "as many names and prefixes as the tables", "have");
    check(THALINGUZE_UNIT_UNKNOWN == 0 && THALINGUZE_PREFIX_NONE == 0, "the codes of unknown and none", "are 0");
    check(THALINGUZE_UNITS == 61, "units", "61");
}

static void check_bases(void) {
    for (int b = 0; b < THALINGUZE_BASES; b++) {
        uint8_t record[THALINGUZE_RECORD_SIZE];
        const struct constant *c = &bases[b];
        check(c->code == b && read_text(THALINGUZE_FITS, c->symbol, record) == 0, "base constant", c->name);
        for (int other = 0; other < 32; other++)
            check(thalinguze_dimension(record, (unsigned)other) == (other == c->code ? 60 : 0), "the library's dimensions", c->name);
        check(strcmp(base_symbols[b], c->symbol) == 0, "base of the command", c->name);
    }
}

static void check_notations_and_refusals(void) {
    uint8_t record[THALINGUZE_RECORD_SIZE];
    static const char *const own[] = {"", "m^2", "m / s", "kg/m.s", "'m'"};
    static const uint32_t constants[] = {0, THALINGUZE_FITS, THALINGUZE_OGIP, THALINGUZE_CDS, THALINGUZE_VOUNITS, THALINGUZE_STARLINK};
    for (uint32_t n = 1; n <= NOTATIONS; n++) {
        for (uint32_t label = 1; label <= THALINGUZE_VOUNITS; label++)
            check((read_text(constants[n], own[label], record) == THALINGUZE_ACCEPTED) == (n == label), "notation constant", own[label]);
        bool known = read_text(constants[n], "Ang", record) == THALINGUZE_ACCEPTED && thalinguze_known(record);
        check(known == (n == THALINGUZE_STARLINK), "notation constant", "Ang");
    }
    char text[300];
    memset(text, 'm', sizeof text);
    text[THALINGUZE_MAX_LABEL_SIZE + 1] = 0;
    check(read_text(1, text, record) == THALINGUZE_TOO_LONG, "refusal or limit", "too long");
    text[THALINGUZE_MAX_LABEL_SIZE] = 0;
    check(read_text(1, text, record) == THALINGUZE_ACCEPTED, "limit", "as long as may be");
    check(read_text(NOTATIONS + 1, "m", record) == THALINGUZE_NO_SUCH_NOTATION, "refusal", "no such notation");
    check(read_text(1, "m\n", record) == THALINGUZE_BYTE_OUT_OF_RANGE, "refusal", "byte out of range");
    check(read_text(1, "m~", record) == THALINGUZE_NOT_IN_GRAMMAR, "refusal", "not in grammar");
    check(read_text(1, "m100", record) == THALINGUZE_NUMBER_OUT_OF_BOUNDS, "refusal", "number out of bounds");
    for (int more = 0; more <= 1; more++) {
        size_t depth = THALINGUZE_MAX_DEPTH + (size_t)more, terms = THALINGUZE_MAX_TERMS + (size_t)more;
        memset(text, '(', depth);
        text[depth] = 'm';
        memset(text + depth + 1, ')', depth);
        text[2 * depth + 1] = 0;
        check(read_text(1, text, record) == (more ? THALINGUZE_TOO_DEEP : THALINGUZE_ACCEPTED), "refusal or limit", "too deep");
        for (size_t i = 0; i < terms; i++)
            memcpy(text + 2 * i, "m ", 3);
        text[2 * terms - 1] = 0;
        check(read_text(1, text, record) == (more ? THALINGUZE_TOO_MANY_TERMS : THALINGUZE_ACCEPTED), "refusal or limit", "too many terms");
    }
}

static void check_number_limits(void) {
    uint8_t record[THALINGUZE_RECORD_SIZE];
    char text[64];
    for (int more = 0; more <= 1; more++) {
        uint32_t number = more ? THALINGUZE_NUMBER_OUT_OF_BOUNDS : THALINGUZE_ACCEPTED;
        snprintf(text, sizeof text, "m%d", THALINGUZE_MAX_EXPONENT + more);
        check(read_text(1, text, record) == number, "limit of exponents", text);
        snprintf(text, sizeof text, "10**%d m", THALINGUZE_MAX_POWER_OF_TEN + more);
        check(read_text(1, text, record) == number, "limit of factors", text);
        snprintf(text, sizeof text, "m(1.%0*d)", THALINGUZE_MAX_DIGITS + more, 0);
        check(read_text(1, text, record) == number, "limit of digits", text);
    }
    check(read_text(1, "m", record) == 0 && thalinguze_term_exponent(record, 0) == THALINGUZE_SIXTIETHS, "exponent 1", "in sixtieths");
}

/* the longest words, and a buffer that is a byte short for them */
static void check_limit_of_words(void) {
    const uint8_t *label = (const uint8_t *)LONGEST_LABEL;
    uint8_t words[THALINGUZE_MAX_WORDS_SIZE];
    _Static_assert(sizeof LONGEST_LABEL - 1 == THALINGUZE_MAX_LABEL_SIZE, "as long as a label may be");
    struct thalinguze_rewritten all = thalinguze_words(THALINGUZE_CDS, label, THALINGUZE_MAX_LABEL_SIZE, words, sizeof words),
                                none = thalinguze_words(THALINGUZE_CDS, label, THALINGUZE_MAX_LABEL_SIZE, words, sizeof words - 1);
    check(all.number == THALINGUZE_ACCEPTED && all.length == THALINGUZE_MAX_WORDS_SIZE, "limit of words", "the longest");
    check(none.number == THALINGUZE_BUFFER_TOO_SHORT && none.length == 0, "refusal", "buffer too short");
}

/* a field at its literal place, here read without the header */
static int literal(const uint8_t *record, size_t field) {
    const uint8_t *at = record + 8 * field;
    return at[7] & 128 ? -(int)((at[0] | at[1] << 8) ^ 0xffff) - 1 : at[0] | at[1] << 8;
}

/* the layout as decision D46 has it, without the header's constants */
enum { SIZE = 2128, FIELDS = 266, DIMENSIONS = 230, SCALE = 262 };

/* every field at its place, and no byte past the record */
static void check_layout(void) {
    const char *label = "10**-3 kfoo(-3/2) m2/lyr";
    /* number, k, known, lawful, recommended, count; then three terms */
    static const int expected[] = {0, -3, 0, 1, 0, 3, 3, 0, -90, 7, 4, 8, 3, 0, 1, 120, 18, 1, 0, 0, 0, 51, -60, 21, 3, 0, 0};
    uint8_t record[SIZE + 64];
    memset(record, 0xAA, sizeof record);
    check(thalinguze_read(1, (const uint8_t *)label, strlen(label), record, sizeof record) == 0, "the label of the layout", label);
    for (size_t f = 0; f < FIELDS; f++) {
        int value = f < sizeof expected / sizeof expected[0] ? expected[f]
            : f == DIMENSIONS ? 120 : f == DIMENSIONS + 23 ? -60 : f == SCALE || f == SCALE + 2 ? -450 : 0;
        check(literal(record, f) == value && thalinguze_field(record, (unsigned)f) == value, "field of the layout", label);
    }
    for (size_t i = SIZE; i < sizeof record; i++)
        check(record[i] == 0xAA, "a byte past the record", "changed");
    check(THALINGUZE_RECORD_SIZE == SIZE && THALINGUZE_FIELDS == FIELDS && THALINGUZE_FIELD_SIZE == 8, "sizes", "2128, 266, 8");
    check(thalinguze_field(record, THALINGUZE_FIELD_NUMBER) == 0 && THALINGUZE_FIELD_NUMBER == 0, "number", label);
    check(thalinguze_k(record) == -3, "k", label);
    check(!thalinguze_known(record) && thalinguze_lawful(record) && !thalinguze_recommended(record), "verdicts", label);
    check(THALINGUZE_FIELD_KNOWN == 2 && THALINGUZE_FIELD_RECOMMENDED == 4 && THALINGUZE_TERM_FIELDS == 7, "field constants", "2, 4, 7");
    check(thalinguze_count(record) == 3, "count", label);
    check(thalinguze_term_prefix(record, 0) == 3 && thalinguze_term_unit(record, 2) == 51, "prefix and unit", label);
    check(thalinguze_term_exponent(record, 0) == -90 && thalinguze_term_exponent(record, 1) == 120, "exponents", label);
    check(thalinguze_term_start(record, 1) == 18 && thalinguze_term_length(record, 2) == 3, "start and length", label);
    check(thalinguze_term_letters_start(record, 0) == 8 && thalinguze_term_letters_length(record, 0) == 3, "letters of an unknown unit", label);
    check(thalinguze_term_letters_start(record, 2) == 0 && thalinguze_term_letters_length(record, 2) == 0, "no letters of a known unit", label);
    check(thalinguze_dimension(record, 0) == 120 && thalinguze_dimension(record, 23) == -60, "dimensions", label);
    check(thalinguze_scale(record, 0) == -450 && thalinguze_scale(record, 1) == 0 && thalinguze_scale(record, 2) == -450, "scale", label);
    read_text(1, "yr", record);
    static const unsigned primes[] = {THALINGUZE_PRIME_2, THALINGUZE_PRIME_3, THALINGUZE_PRIME_5, THALINGUZE_PRIME_487};
    static const int year[] = {300, 240, 120, 60}, numbers[] = {2, 3, 5, 487};
    for (int p = 0; p < 4; p++)
        check(thalinguze_scale(record, primes[p]) == year[p] && prime_words[p] == numbers[p], "primes of the scale", "yr");
    check(THALINGUZE_PRIMES == 4, "primes", "4");
}

/* the three verdicts, each with a label that has it alone */
static void check_verdicts(void) {
    uint8_t record[THALINGUZE_RECORD_SIZE];
    read_text(1, "kmin", record);
    check(thalinguze_known(record) && !thalinguze_lawful(record) && thalinguze_recommended(record), "verdicts", "kmin");
    check(thalinguze_field(record, THALINGUZE_FIELD_LAWFUL) == 0, "verdicts", "kmin");
    read_text(1, "erg", record);
    check(thalinguze_known(record) && thalinguze_lawful(record) && !thalinguze_recommended(record), "verdicts", "erg");
    check(thalinguze_field(record, THALINGUZE_FIELD_KNOWN) && !thalinguze_field(record, THALINGUZE_FIELD_RECOMMENDED), "verdicts", "erg");
}

/* a state with a byte less is taken as ended, and so is one after its end */
static void check_state(void) {
    uint8_t state[THALINGUZE_STATE_SIZE], record[THALINGUZE_RECORD_SIZE];
    check(thalinguze_begin(THALINGUZE_CDS, state, sizeof state - 1) == THALINGUZE_AFTER_THE_END, "size of a state", "a byte short");
    check(thalinguze_begin(THALINGUZE_CDS, state, sizeof state) == THALINGUZE_ACCEPTED, "size of a state", "enough");
    check(thalinguze_part(state, sizeof state, (const uint8_t *)"m", 1) == THALINGUZE_ACCEPTED, "state", "a part");
    check(state[THALINGUZE_STATE_LABEL] == 'm' && state[THALINGUZE_STATE_LABEL + 1] == 0, "place of the label in a state", "m");
    check(thalinguze_end(state, sizeof state, record, sizeof record) == THALINGUZE_ACCEPTED && thalinguze_count(record) == 1, "state", "an end");
    check(thalinguze_end(state, sizeof state, record, sizeof record) == THALINGUZE_AFTER_THE_END, "refusal", "after the end");
}

static void check_letters(void) {
    static const struct {
        uint32_t notation;
        const char *label, *letters;
    } samples[] = {{1, "furlong", "urlong"}, {4, "'furlong'", "furlong"}, {4, "da'm'", "m"}, {4, "k'xyz'", "xyz"}, {2, "dax", "x"}, {4, "da'da'", "da"}, {1, "kg", ""}, {3, "%", ""}};
    for (size_t i = 0; i < sizeof samples / sizeof samples[0]; i++) {
        uint8_t record[THALINGUZE_RECORD_SIZE];
        read_text(samples[i].notation, samples[i].label, record);
        size_t start = thalinguze_term_letters_start(record, 0), length = thalinguze_term_letters_length(record, 0);
        check(length == strlen(samples[i].letters) && memcmp(samples[i].label + start, samples[i].letters, length) == 0, "letters", samples[i].label);
    }
}

/* fields that no label has: the ends of what eight bytes hold */
static void check_field_ends(void) {
    static const struct {
        uint8_t bytes[8];
        int64_t value;
    } ends[] = {
        {{0xff, 0xff, 0xff, 0xff, 0xff, 0xff, 0xff, 0xff}, -1}, {{0, 0, 0, 0, 0, 0, 0, 0x80}, INT64_MIN},
        {{0xff, 0xff, 0xff, 0xff, 0xff, 0xff, 0xff, 0x7f}, INT64_MAX}, {{1, 2, 3, 4, 5, 6, 7, 8}, 0x0807060504030201},
    };
    for (size_t i = 0; i < sizeof ends / sizeof ends[0]; i++)
        check(thalinguze_field(ends[i].bytes, 0) == ends[i].value, "field", "of eight bytes");
}

int main(void) {
    check_tables();
    check_bases();
    check_notations_and_refusals();
    check_number_limits();
    check_limit_of_words();
    check_layout();
    check_verdicts();
    check_state();
    check_letters();
    check_field_ends();
    printf("%d comparisons of the header and the words with the tables and the library, %d differ\n", tried, wrong);
    return wrong != 0;
}
