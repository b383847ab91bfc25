/* Capitals, plurals and full names: spellings that a notation has for what people mean by one that it does not know. */
#include <ctype.h>
#include <strings.h>
#include "command.h"

/* whether a spelling is a common prefix and a name, but for capitals and a plural s; a name of one letter and milli keep their case */
static bool is_form(const char *spelling, const char *prefix, const char *name, bool mega) {
    size_t before = strlen(prefix), letters = strlen(name), length = strlen(spelling);
    bool plural = letters > 1 && length == before + letters + 1 && tolower((unsigned char)spelling[length - 1]) == 's';
    bool same_case = strncmp(spelling, prefix, before) == 0, any_case = prefix[0] != 'm' && (mega || prefix[0] != 'M');
    if (length != before + letters + plural || (before == 1 && !strchr("kMGmunc", prefix[0])))
        return false;
    return (same_case || (any_case && strncasecmp(spelling, prefix, before) == 0))
        && (letters > 1 ? strncasecmp(spelling + before, name, letters) : strncmp(spelling + before, name, letters)) == 0;
}

/* adds the notation's name for a spelling, with its prefix */
static bool put_meant(uint32_t notation, const char *spelling, bool mega, struct text *to) {
    struct text usual = {0};
    for (int p = 0; p <= PREFIXES; p++)
        for (unsigned i = 0; i < COUNT(spelling_words) && usual.length == 0; i++)
            if (is_form(spelling, prefix_words[p].symbol, spelling_words[i][0], 0) || is_form(spelling, prefix_words[p].word, spelling_words[i][0], 0))
                put(&usual, "%s%s", prefix_words[p].symbol, spelling_words[i][1]);
    spelling = usual.length ? usual.s : spelling;
    for (int p = 0; p <= PREFIXES; p++)
        for (int u = 1; u <= THALINGUZE_UNITS; u++) {
            const char *prefix = prefix_words[p].symbol;
            struct text t = {0};
            bool meant = is_form(spelling, prefix_words[p].word, unit_words[u][WORD], mega);
            for (int i = SYMBOL; i < WORDS && unit_words[u][i]; i++)
                meant |= is_form(spelling, prefix, unit_words[u][i], mega);
            const char *name = meant ? name_in(notation, u) : NULL;
            put(&t, "%s%s", prefix, name ? name : "");
            if (name && is_sound(notation, t.s)) {
                put(to, "%s", t.s);
                return true;
            }
        }
    return false;
}

bool respell(uint32_t notation, const char *given, bool mega, struct text *result) {
    bool capitals = strpbrk(given, "abcdefghijklmnopqrstuvwxyz") == NULL && strlen(given) > 1, found = true;
    struct text label = {0};
    for (size_t i = 0; given[i]; i++) {
        bool prefix = mega && given[i] == 'M' && isalpha((unsigned char)given[i + 1]) && (i == 0 || !isalpha((unsigned char)given[i - 1]));
        put(&label, "%c", capitals && !prefix ? tolower((unsigned char)given[i]) : given[i]);
    }
    struct reading r = ask(notation, label.s);
    size_t at = 0;
    for (unsigned i = 0; i < thalinguze_count(r.record); i++) {
        struct text spelling = spelling_of(label.s, r.record, i);
        put(result, "%.*s", (int)(thalinguze_term_start(r.record, i) - at), label.s + at);
        at = thalinguze_term_start(r.record, i) + spelling.length;
        if (is_sound(notation, spelling.s))
            put(result, "%s", spelling.s);
        else
            found &= put_meant(notation, spelling.s, mega, result);
    }
    put(result, "%s", label.s + at);
    return found && is_sound(notation, result->s);
}
