/* Sizes and numbers in words, for listening. The words of labels are the library's. */
#include <inttypes.h>
#include "command.h"

/* the greatest number that is said in digits alone */
#define MAX_PLAIN INT64_C(1000000000000000)

static int64_t common_divisor(int64_t a, int64_t b) {
    return b ? common_divisor(b, a % b) : a < 0 ? -a : a;
}

void put_sixtieths(struct text *t, int64_t sixtieths, const char *over) {
    int64_t divisor = common_divisor(sixtieths, THALINGUZE_SIXTIETHS);
    put(t, "%" PRId64, sixtieths / divisor);
    if (divisor < THALINGUZE_SIXTIETHS)
        put(t, "%s%" PRId64, over, THALINGUZE_SIXTIETHS / divisor);
}

void say_power(struct text *t, int64_t sixtieths) {
    if (sixtieths == THALINGUZE_SIXTIETHS)
        return;
    put(t, " to the %s", sixtieths < 0 ? "minus " : "");
    put_sixtieths(t, sixtieths < 0 ? -sixtieths : sixtieths, " over ");
}

/* the bases of one sign, those below the line each after "per" */
static void say_bases(struct text *t, const uint8_t *record, bool below) {
    for (unsigned b = 0; b < THALINGUZE_BASES; b++) {
        int64_t exponent = thalinguze_dimension(record, b);
        if (exponent == 0 || (exponent < 0) != below)
            continue;
        put(t, "%s%s%s", t->length ? " " : "", below ? "per " : "", unit_words[unit_of(base_symbols[b])][WORD]);
        say_power(t, below ? -exponent : exponent);
    }
}

void say_dimensions(struct text *t, const uint8_t *record) {
    say_bases(t, record, false);
    say_bases(t, record, true);
    put(t, "%s", t->length ? "" : "none");
}

/* multiplies by a power of a number, if the product is small enough to be said */
static bool multiply(int64_t *product, int64_t factor, int64_t times) {
    for (; times > 0; times--) {
        if (*product > MAX_PLAIN / factor)
            return false;
        *product *= factor;
    }
    return true;
}

int say_fraction(struct text *t, int64_t n, int64_t d, int64_t k) {
    int64_t above = n, below = d;
    bool one = n == 1 && d == 1;
    if (multiply(&above, 10, k) && multiply(&below, 10, -k)) {
        int64_t divisor = common_divisor(above, below);
        n = above / divisor, d = below / divisor, k = 0;
    }
    if (!one || k == 0)
        put(t, d == 1 ? "%" PRId64 : "%" PRId64 "/%" PRId64, n, d);
    if (k) {
        put(t, one ? "ten" : " times ten");
        say_power(t, k * THALINGUZE_SIXTIETHS);
    }
    return k < 0 || (k == 0 && n < d) ? -1 : k > 0 || n > d;
}

/* the scale as n/d times ten to the k; false if an exponent is not whole or n or d is too large */
static bool plain_scale(const uint8_t *record, int64_t *n, int64_t *d, int64_t *k) {
    int64_t twos = thalinguze_scale(record, THALINGUZE_PRIME_2), fives = thalinguze_scale(record, THALINGUZE_PRIME_5);
    int64_t tens = twos > 0 && fives > 0 ? (twos < fives ? twos : fives) : twos < 0 && fives < 0 ? (twos > fives ? twos : fives) : 0;
    bool plain = tens % THALINGUZE_SIXTIETHS == 0;
    *n = *d = 1;
    *k = tens / THALINGUZE_SIXTIETHS;
    for (unsigned p = 0; p < THALINGUZE_PRIMES && plain; p++) {
        int64_t power = thalinguze_scale(record, p) - (p == THALINGUZE_PRIME_2 || p == THALINGUZE_PRIME_5 ? tens : 0);
        plain = power % THALINGUZE_SIXTIETHS == 0 && multiply(n, prime_words[p], power / THALINGUZE_SIXTIETHS)
             && multiply(d, prime_words[p], -power / THALINGUZE_SIXTIETHS);
    }
    return plain;
}

void say_size(struct text *t, const uint8_t *record) {
    struct text number = {0}, above = {0};
    int64_t n, d, k;
    bool plain = plain_scale(record, &n, &d, &k);
    int size = plain ? say_fraction(&number, n, d, k) : 1;
    for (unsigned p = 0; p < THALINGUZE_PRIMES && !plain; p++)
        if (thalinguze_scale(record, p)) {
            put(&number, "%s%d", number.length ? " times " : "", prime_words[p]);
            say_power(&number, thalinguze_scale(record, p));
        }
    say_bases(&above, record, false);
    if (above.length == 0)
        put(t, "%s", number.s);
    else if (strchr(above.s, ' ') || !plain) /* no single base that can be counted */
        put(t, "%s%s%s", size ? number.s : "", size ? " times " : "", above.s);
    else
        put(t, "%s%s%s%s", number.s, size >= 0 ? " " : strchr("aeiou", above.s[0]) ? " of an " : " of a ", above.s, size > 0 ? "s" : "");
    say_bases(t, record, true);
}
