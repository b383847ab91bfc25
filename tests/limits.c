/* Reads labels at each limit and one past it, and compares the answers' numbers, counts of terms and powers of ten; writes labels as words at each
   limit and one past it, and compares the words. */
#include <stdio.h>
#include <string.h>
#include "../include/thalinguze.h"
#include "longest.h"

static int tried, wrong;

static void expect_bytes(uint32_t notation, const uint8_t *text, size_t size, unsigned number, size_t count, int k) {
    uint8_t record[THALINGUZE_RECORD_SIZE] = {0};
    uint32_t answer = thalinguze_read(notation, text, size, record, sizeof record);
    tried++;
    if (answer == number && thalinguze_count(record) == count && thalinguze_k(record) == k)
        return;
    wrong++;
    printf("notation %u, %zu bytes, %.*s: %u, %u terms, k %d; not %u, %zu, %d\n", notation, size, (int)size, (const char *)text,
           answer, thalinguze_count(record), thalinguze_k(record), number, count, k);
}

static void expect(uint32_t notation, const char *text, unsigned number, size_t count, int k) {
    expect_bytes(notation, (const uint8_t *)text, strlen(text), number, count, k);
}

/* so many times a text, one behind the other */
static const char *times(int n, const char *text) {
    static char made[4096];
    made[0] = 0;
    for (int i = 0; i < n; i++)
        strcat(made, text);
    return made;
}

static const char *joined(const char *a, const char *b, const char *c) {
    static char made[4096];
    snprintf(made, sizeof made, "%s%s%s", a, b, c);
    return made;
}

/* the letters m, joined by a separator */
static const char *terms(int n, const char *separator) {
    static char made[4096];
    strcpy(made, "m");
    for (int i = 1; i < n; i++) {
        strcat(made, separator);
        strcat(made, "m");
    }
    return made;
}

static const char *nested(int n) {
    static char opened[512], made[1024];
    strcpy(opened, times(n, "("));
    snprintf(made, sizeof made, "%sm%s", opened, times(n, ")"));
    return made;
}

/* notation numbers, bytes, terms and brackets */
static void sizes(void) {
    const char *const separators[] = {"", ".", " ", ".", ".", "*"};
    expect(0, "m", 1, 0, 0);
    expect(THALINGUZE_STARLINK + 1, "m", 1, 0, 0);
    expect(UINT32_MAX, "m", 1, 0, 0);
    expect(257, "m", 1, 0, 0);
    for (uint32_t n = 1; n <= THALINGUZE_STARLINK; n++) {
        expect(n, "", 0, 0, 0);
        expect_bytes(n, (const uint8_t *)"m" + 1, 0, 0, 0, 0);
        expect(n, "m", 0, 1, 0);
        expect(n, times(255, "m"), 0, 1, 0);
        expect(n, times(256, "m"), 2, 0, 0);
        expect(n, times(256, "\n"), 2, 0, 0);
        expect(n, "m\n", 3, 0, 0);
        expect(n, "m\x7f", 3, 0, 0);
        expect(n, "m\xff", 3, 0, 0);
        expect_bytes(n, (const uint8_t *)"m\0m", 3, 3, 0, 0);
        expect(n, "m~", 4, 0, 0);
        expect(n, terms(32, separators[n]), 0, 32, 0);
        expect(n, terms(33, separators[n]), 7, 0, 0);
        expect(n, nested(8), 0, 1, 0);
        expect(n, nested(9), 6, 0, 0);
        expect(n, nested(127), 6, 0, 0);
        expect(n, joined(times(127, "("), "m", ""), 4, 0, 0);
    }
}

/* exponents: 99 and 100, and digit runs of 4 and 5 */
static void whole_exponents(void) {
    const char *const power[] = {"", "**", "**", "", "**", "**"};
    for (uint32_t n = 1; n <= THALINGUZE_STARLINK; n++) {
        expect(n, joined("m", power[n], "99"), 0, 1, 0);
        expect(n, joined("m", power[n], "100"), 5, 0, 0);
        expect(n, joined("m", power[n], "-99"), 0, 1, 0);
        expect(n, joined("m", power[n], "-100"), 5, 0, 0);
        expect(n, joined("m", power[n], "9999"), 5, 0, 0);
        expect(n, joined("m", power[n], "99999"), 5, 0, 0);
        expect(n, joined("m", power[n], "0"), 4, 0, 0);
        expect(n, joined("m", power[n], "01"), 4, 0, 0);
    }
}

static void fractions(void) {
    expect(1, "m(99.5)", 5, 0, 0);
    expect(1, "m(1/7)", 5, 0, 0);
    expect(1, "m(7/14)", 0, 1, 0);
    expect(1, "m**(9999/9999)", 0, 1, 0);
    expect(1, "m**(99990/99990)", 5, 0, 0);
    expect(1, "m(1.0000)", 0, 1, 0);
    expect(1, "m(1.00000)", 5, 0, 0);
    for (uint32_t n = 1; n <= THALINGUZE_STARLINK; n++) {
        if (n == THALINGUZE_CDS)
            continue;
        expect(n, "m**(1.0000)", 0, 1, 0);
        expect(n, "m**(1.00000)", 5, 0, 0);
        expect(n, "m**(9999/9999)", 0, 1, 0);
        expect(n, "m**(10000/10000)", 5, 0, 0);
        expect(n, "m**(1/7)", 5, 0, 0);
        expect(n, "m**(99.5)", 5, 0, 0);
    }
}

/* decimals below one: a single 0 before the point, and not all digits 0 */
static void decimals(void) {
    static const struct {
        const char *power;
        unsigned number;
    } powers[] = {
        {"0.5", 0}, {"-0.5", 0}, {"+0.25", 0}, {"0.05", 0}, {"0.0500", 0}, {"0.0", 5}, {"-0.0000", 5}, {"+0.00000", 5}, {"0.12345", 5}, {"0.50000", 5},
        {"0.125", 5}, {"0.0001", 5}, {"00.5", 4}, {"-00.5", 4}, {"0.", 4}, {".5", 4}, {"-.5", 4}, {"0", 4}, {"-0", 4}, {"0/2", 4}, {"1/0", 4}, {"0.5/2", 4},
        {"1/0.5", 4}, {"0.5.5", 4}, {"+-0.5", 4}, {"0,5", 4},
    };
    for (size_t i = 0; i < sizeof powers / sizeof powers[0]; i++) {
        unsigned number = powers[i].number, terms = number == 0;
        expect(1, joined("m(", powers[i].power, ")"), number, terms, 0);
        expect(1, joined("m^(", powers[i].power, ")"), number, terms, 0);
        for (uint32_t n = 1; n <= THALINGUZE_STARLINK; n++)
            expect(n, joined("m**(", powers[i].power, ")"), n == 3 ? 4 : number, n == 3 ? 0 : terms, 0);
        if (strchr(powers[i].power, '.'))
            for (uint32_t n = 1; n <= THALINGUZE_STARLINK; n++)
                expect(n, joined("m**", powers[i].power, ""), 4, 0, 0);
    }
}

/* factors: k 99 and 100 under each sign, in every form that the notation has */
static void factors(void) {
    static const struct {
        uint32_t notation;
        const char *before, *after;
        int unsigned_too;
    } forms[] = {
        {1, "10**", "m", 1}, {1, "10**(", ")m", 1}, {1, "10^", "m", 1}, {1, "10^(", ")m", 1}, {1, "10", "m", 0},
        {2, "10**", "m", 1}, {2, "10**(", ")m", 1}, {2, "10**(", ") m", 1}, {3, "10**", "m", 1}, {3, "10", "m", 0},
        {4, "10**", "m", 1}, {4, "10**(", ")m", 1},
    };
    for (size_t i = 0; i < sizeof forms / sizeof forms[0]; i++) {
        if (forms[i].unsigned_too) {
            expect(forms[i].notation, joined(forms[i].before, "99", forms[i].after), 0, 1, 99);
            expect(forms[i].notation, joined(forms[i].before, "100", forms[i].after), 5, 0, 0);
        }
        expect(forms[i].notation, joined(forms[i].before, "+99", forms[i].after), 0, 1, 99);
        expect(forms[i].notation, joined(forms[i].before, "+100", forms[i].after), 5, 0, 0);
        expect(forms[i].notation, joined(forms[i].before, "-99", forms[i].after), 0, 1, -99);
        expect(forms[i].notation, joined(forms[i].before, "-100", forms[i].after), 5, 0, 0);
    }
    for (uint32_t n = 2; n <= 4; n++) {
        expect(n, joined("1", times(99, "0"), "m"), 0, 1, 99);
        expect(n, joined("1", times(100, "0"), "m"), 5, 0, 0);
        expect(n, joined("1", times(253, "0"), "m"), 5, 0, 0);
    }
    expect(THALINGUZE_STARLINK, "10**3*m", 4, 0, 0);
    expect(THALINGUZE_STARLINK, "10**3m", 4, 0, 0);
    expect(THALINGUZE_STARLINK, "1m", 4, 0, 0);
}

/* WORDS */

enum { MOST_WORDS = 1476, FILL = 0xAA };

/* the words of a label in a buffer of that size; a refused label has none */
static void expect_words(uint32_t notation, const char *text, size_t size, unsigned number, const char *words) {
    static uint8_t buffer[MOST_WORDS + 64], wanted[sizeof buffer];
    size_t length = strlen(words);
    memset(buffer, FILL, sizeof buffer);
    memset(wanted, FILL, sizeof wanted);
    memcpy(wanted, words, length);
    struct thalinguze_rewritten r = thalinguze_words(notation, (const uint8_t *)text, strlen(text), size == 0 ? NULL : buffer, size);
    tried++;
    if (r.number == number && r.length == length && memcmp(buffer, wanted, sizeof buffer) == 0)
        return;
    wrong++;
    printf("notation %u, a buffer of %zu bytes, words of %s: %u, %u bytes; not %u, %s\n", notation, size, text, r.number, r.length, number, words);
}

/* a buffer that holds all words, one with a byte more, one of just their size, and one that is a byte short */
static void expect_spoken(uint32_t notation, const char *text, const char *words) {
    size_t length = strlen(words);
    expect_words(notation, text, MOST_WORDS, 0, words);
    expect_words(notation, text, length + 1, 0, words);
    expect_words(notation, text, length, 0, words);
    if (length > 0)
        expect_words(notation, text, length - 1, 14, "");
}

/* a refusal of the label comes before that of the buffer */
static void expect_unspoken(uint32_t notation, const char *text, unsigned number) {
    expect_words(notation, text, MOST_WORDS, number, "");
    expect_words(notation, text, 1, number, "");
    expect_words(notation, text, 0, number, "");
}

static void sizes_of_words(void) {
    const char *const separators[] = {"", ".", " ", ".", ".", "*"};
    static char words[4096];
    expect_unspoken(0, "", 1);
    expect_unspoken(THALINGUZE_STARLINK + 1, "m", 1);
    expect_unspoken(UINT32_MAX, times(256, "m"), 1);
    for (uint32_t n = 1; n <= THALINGUZE_STARLINK; n++) {
        expect_spoken(n, "", "");
        expect_words(n, "", 0, 0, "");
        expect_spoken(n, "m", "metre");
        expect_words(n, "m", 0, 14, "");
        strcpy(words, times(31, "metre "));
        strcat(words, "metre");
        expect_spoken(n, terms(32, separators[n]), words);
        expect_unspoken(n, terms(33, separators[n]), 7);
        strcpy(words, "milli unit");
        strcat(words, times(254, " m"));
        strcat(words, " end");
        expect_spoken(n, times(255, "m"), words);
        expect_unspoken(n, times(256, "m"), 2);
        expect_unspoken(n, "m\x7f", 3);
        expect_unspoken(n, "m~", 4);
        expect_spoken(n, nested(8), "metre");
        expect_unspoken(n, nested(9), 6);
    }
}

static void powers_of_words(void) {
    const char *const power[] = {"", "**", "**", "", "**", "**"}, *const factor[] = {"", "10", "10**", "10", "10**", NULL};
    for (uint32_t n = 1; n <= THALINGUZE_STARLINK; n++) {
        expect_spoken(n, joined("m", power[n], "1"), "metre");
        expect_spoken(n, joined("m", power[n], "99"), "metre to the 99");
        expect_spoken(n, joined("m", power[n], "-99"), "metre to the minus 99");
        expect_unspoken(n, joined("m", power[n], "100"), 5);
        if (factor[n]) {
            expect_spoken(n, joined(factor[n], "+99", "m"), "ten to the 99 metre");
            expect_spoken(n, joined(factor[n], "-99", "m"), "ten to the minus 99 metre");
            expect_unspoken(n, joined(factor[n], "-100", "m"), 5);
        }
        if (n == THALINGUZE_CDS)
            continue;
        expect_spoken(n, joined("m", power[n], "(1/60)"), "metre to the 1 over 60");
        expect_spoken(n, joined("m", power[n], "(-5939/60)"), "metre to the minus 5939 over 60");
        expect_unspoken(n, joined("m", power[n], "(5941/60)"), 5);
    }
    expect_spoken(THALINGUZE_CDS, "1m", "metre");
}

/* no label has longer words; those of more than 255 bytes are accepted, and no refusal is 13 */
static void longest_words(void) {
    const char *text = LONGEST_LABEL;
    static char words[4096];
    snprintf(words, sizeof words, "ten to the minus 9%s", times(31, " hecto astronomicalunit to the minus 1"));
    strcat(words, " hecto unit");
    strcat(words, times(125, " x"));
    strcat(words, " end to the minus 1");
    expect_spoken(THALINGUZE_CDS, text, words);
    expect_words(THALINGUZE_CDS, text, MOST_WORDS - 1, 14, "");
    expect_words(THALINGUZE_CDS, text, MOST_WORDS, 0, words);
    expect_words(THALINGUZE_CDS, text, MOST_WORDS + 1, 0, words);
    expect_words(THALINGUZE_CDS, text, 255, 14, "");
    expect_words(THALINGUZE_CDS, text, 0, 14, "");
}

int main(void) {
    sizes();
    whole_exponents();
    fractions();
    decimals();
    factors();
    sizes_of_words();
    powers_of_words();
    longest_words();
    /* 5 before 6, and 6 before 7 */
    expect(1, joined("(((((((((m(1/7)", times(9, ")"), ""), 5, 0, 0);
    expect(4, joined("(((((((((", terms(33, "."), ")))))))))"), 6, 0, 0);
    printf("%d labels at the limits, %d differ\n", tried, wrong);
    return wrong != 0;
}
