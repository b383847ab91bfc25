/* The commands rewrite, convert, list and words. Results are on standard output, refusals on standard error. */
#include <inttypes.h>
#include "command.h"

/* why a term has no form in the target, if it has none */
static void blame_term(uint32_t source, const char *label, const uint8_t *record, unsigned i, uint32_t target) {
    const struct notation_word *here = &notation_words[source], *there = &notation_words[target];
    struct text spelling = spelling_of(label, record, i), exponent = {0}, metre = {0}, unused = {0}, said = {0}, other = {0};
    put_sixtieths(&exponent, thalinguze_term_exponent(record, i), "/");
    put(&metre, "m**(%s)", exponent.s);
    if (ask_rewriting(THALINGUZE_OGIP, metre.s, target, &unused) == THALINGUZE_NO_FORM)
        fprintf(stderr, "%s has the exponent %s. In %s %s.\n", spelling.s, exponent.s, there->name, there->powers);
    if (ask_rewriting(source, spelling.s, target, &unused) != THALINGUZE_NO_FORM)
        return;
    ask_words(source, spelling.s, &said);
    ask_words(target, spelling.s, &other);
    fprintf(stderr, "%s is %s in %s, %s %s%s%s.\n", spelling.s, said.s, here->name, other.length ? "but would be" : "which", other.s,
            other.length ? " in " : there->name, other.length ? there->name : " does not have");
}

/* the result, or the refusal of a label in a notation */
static int print_result(uint32_t number, const struct text *result, uint32_t notation, const char *label) {
    if (number == THALINGUZE_ACCEPTED)
        puts(result->s);
    else
        report_refusal(stderr, notation, label, number);
    return number == THALINGUZE_ACCEPTED ? 0 : REFUSED;
}

int speak_label(uint32_t notation, const char *label) {
    struct text words = {0};
    return print_result(ask_words(notation, label, &words), &words, notation, label);
}

int rewrite_label(uint32_t source, const char *label, uint32_t target) {
    struct text result = {0};
    struct reading r = ask(source, label);
    uint32_t number = ask_rewriting(source, label, target, &result);
    int k = thalinguze_k(r.record), status = print_result(number, &result, number < THALINGUZE_UNKNOWN_UNIT ? source : target, label);
    if (number == THALINGUZE_NO_FORM && k && !accepts(target, "10**3m"))
        fprintf(stderr, "The power of ten is %s%d. In %s %s.\n", k < 0 ? "minus " : "", k < 0 ? -k : k, notation_words[target].name,
                notation_words[target].factors);
    for (unsigned i = 0; i < thalinguze_count(r.record) && number == THALINGUZE_NO_FORM; i++)
        blame_term(source, label, r.record, i, target);
    return status;
}

/* what one of two labels has to do with the refusal of a conversion */
static void explain(const char *which, uint32_t notation, const char *label, uint32_t number) {
    struct text said = {0};
    struct reading r = ask(notation, label);
    say_dimensions(&said, r.record);
    if (number == THALINGUZE_DIMENSIONS_DIFFER)
        fprintf(stderr, "The dimensions of the %s label: %s.\n", which, said.s);
    for (unsigned i = 0; i < thalinguze_count(r.record) && number == THALINGUZE_UNKNOWN_UNIT; i++)
        if (thalinguze_term_unit(r.record, i) == THALINGUZE_UNIT_UNKNOWN)
            fprintf(stderr, "Unknown in the %s label, in %s: %s.\n", which, notation_words[notation].name, spelling_of(label, r.record, i).s);
}

int convert_labels(uint32_t first, const char *label, uint32_t second, const char *other, bool in_full) {
    uint8_t record[THALINGUZE_CONVERSION_SIZE];
    struct text factor = {0};
    uint32_t number = thalinguze_convert(first, (const uint8_t *)label, strlen(label), second, (const uint8_t *)other, strlen(other),
                                         record, sizeof record);
    if (number != THALINGUZE_ACCEPTED) {
        bool of_second = number < THALINGUZE_UNKNOWN_UNIT && accepts(first, label);
        if (number < THALINGUZE_UNKNOWN_UNIT)
            fprintf(stderr, "The %s label cannot be read.\n", of_second ? "second" : "first");
        report_refusal(stderr, of_second ? second : first, of_second ? other : label, number);
        explain("first", first, label, number);
        explain("second", second, other, number);
        return REFUSED;
    }
    int64_t n = thalinguze_numerator(record), d = thalinguze_denominator(record), k = thalinguze_conversion_k(record);
    say_fraction(&factor, n, d, k);
    printf("1%s%s is %s%s%s.\n", *label ? " " : "", label, factor.s, *other ? " " : "", other);
    if (k || in_full)
        printf("n = %" PRId64 ", d = %" PRId64 ", k = %s%" PRId64 ": the factor is n/d times ten to the k.\n", n, d,
               k < 0 ? "minus " : "", k < 0 ? -k : k);
    return 0;
}

int list_units(uint32_t notation) {
    for (int unit = 1; unit <= THALINGUZE_UNITS; unit++)
        for (int i = SYMBOL; i < WORDS && unit_words[unit][i]; i++) {
            const char *name = unit_words[unit][i];
            struct text kilo = {0};
            put(&kilo, "%s%s", prefix_words[THALINGUZE_PREFIX_KILO].symbol, name);
            bool prefixes = is_sound(notation, kilo.s) && thalinguze_term_unit(ask(notation, kilo.s).record, 0) == unit;
            if (is_sound(notation, name) && thalinguze_term_unit(ask(notation, name).record, 0) == unit)
                printf("%s: %s, %s\n", name, unit_words[unit][WORD], prefixes ? "takes prefixes" : "no prefixes");
        }
    return 0;
}
