/* The library's answers about labels that end in a byte 0. */
#include "command.h"

void put(struct text *t, const char *format, ...) {
    va_list arguments;
    va_start(arguments, format);
    int length = vsnprintf(t->s + t->length, TEXT_ROOM - t->length, format, arguments);
    va_end(arguments);
    t->length = (size_t)length < TEXT_ROOM - t->length ? t->length + (size_t)length : TEXT_ROOM - 1;
}

struct reading ask(uint32_t notation, const char *label) {
    struct reading r = {0};
    r.number = thalinguze_read(notation, (const uint8_t *)label, strlen(label), r.record, sizeof r.record);
    return r;
}

bool accepts(uint32_t notation, const char *label) {
    return ask(notation, label).number == THALINGUZE_ACCEPTED;
}

bool is_sound(uint32_t notation, const char *label) {
    struct reading r = ask(notation, label);
    return r.number == THALINGUZE_ACCEPTED && thalinguze_known(r.record) && thalinguze_lawful(r.record);
}

uint32_t ask_rewriting(uint32_t source, const char *label, uint32_t target, struct text *result) {
    uint8_t buffer[THALINGUZE_MAX_LABEL_SIZE];
    struct thalinguze_rewritten r = thalinguze_rewrite(source, (const uint8_t *)label, strlen(label), target, buffer, sizeof buffer);
    put(result, "%.*s", (int)r.length, (const char *)buffer);
    return r.number;
}

uint32_t ask_words(uint32_t notation, const char *label, struct text *words) {
    uint8_t buffer[THALINGUZE_MAX_WORDS_SIZE];
    struct thalinguze_rewritten r = thalinguze_words(notation, (const uint8_t *)label, strlen(label), buffer, sizeof buffer);
    put(words, "%.*s", (int)r.length, (const char *)buffer);
    return r.number;
}

int unit_of(const char *symbol) {
    int unit = THALINGUZE_UNITS;
    while (unit && strcmp(unit_words[unit][SYMBOL], symbol) != 0)
        unit--;
    return unit;
}

const char *name_in(uint32_t notation, int unit) {
    for (int i = SYMBOL; i < WORDS && unit_words[unit][i]; i++)
        if (is_sound(notation, unit_words[unit][i]) && thalinguze_term_unit(ask(notation, unit_words[unit][i]).record, 0) == unit)
            return unit_words[unit][i];
    return NULL;
}

struct text spelling_of(const char *label, const uint8_t *record, unsigned i) {
    struct text t = {0};
    put(&t, "%.*s", (int)thalinguze_term_length(record, i), label + thalinguze_term_start(record, i));
    return t;
}

bool same_terms(const uint8_t *a, const uint8_t *b, bool units) {
    bool same = thalinguze_k(a) == thalinguze_k(b) && thalinguze_count(a) == thalinguze_count(b);
    for (unsigned i = 0; i < thalinguze_count(a); i++)
        for (unsigned f = units ? THALINGUZE_TERM_PREFIX : THALINGUZE_TERM_EXPONENT; f <= THALINGUZE_TERM_EXPONENT; f++)
            same &= thalinguze_term_field(a, i, f) == thalinguze_term_field(b, i, f);
    return same;
}
