/* Walks what the command suggests, over the labels of tests/labels.txt, those of vectors/readings.tsv and random ones: each suggestion is
   accepted, its units are known, and it says what it claims. What a refused text says is found here by another reader, on doubles. */
#include <ctype.h>
#include <math.h>
#include "../c/command.h"
#include "labels.h"

static unsigned long tried, wrong, refused, suggested[ANOTHER + 1];

static void fail(const char *what, uint32_t notation, const char *label, const char *suggestion) {
    printf("%s: %s %s: %s\n", what, notation_words[notation].name, label, suggestion);
    if (++wrong > 20)
        exit(1);
}

/* WHAT A TEXT SAYS */

struct said {
    unsigned count;
    double k;
    struct {
        char spelling[300];
        double exponent;
    } terms[300];
};

/* a number, which may start with a point where that is said */
static const char *number_at(const char *at, bool pointed, double *value) {
    char *end;
    const char *first = at + (*at == '-' || *at == '+');
    if (!isdigit((unsigned char)first[pointed && *first == '.']))
        return NULL;
    *value = strtod(at, &end);
    return end;
}

/* the exponent after a unit, or 1 */
static const char *exponent_at(const char *at, double *exponent) {
    const char *start = at + (strncmp(at, "**", 2) == 0 ? 2 : *at == '^'), *end;
    double divisor = 1;
    *exponent = 1;
    bool bracket = *start == '(';
    if (!(end = number_at(start + bracket, start + bracket > at, exponent))) {
        *exponent = 1;
        return at;
    }
    if (bracket && *end == '/' && !(end = number_at(end + 1, false, &divisor)))
        return at;
    *exponent /= divisor;
    return end + bracket;
}

/* the terms up to a closing bracket or the end; a slash turns what comes straight after it, or all the rest */
static const char *terms_at(const char *at, bool rest, double sign, struct said *s) {
    double now = sign;
    for (; *at && *at != ')';) {
        if (*at == '/') {
            now = -sign;
            at++;
        } else if (*at == '(') {
            at = terms_at(at + 1, rest, now, s);
            at += *at == ')';
            now = rest ? now : sign;
        } else if (isalpha((unsigned char)*at) || *at == '%') {
            size_t length = *at == '%' ? 1 : 0;
            while (isalpha((unsigned char)at[length]))
                length++;
            snprintf(s->terms[s->count].spelling, 300, "%.*s", (int)length, at);
            at = exponent_at(at + length, &s->terms[s->count].exponent);
            s->terms[s->count++].exponent *= now;
            now = rest ? now : sign;
        } else {
            at++;
        }
    }
    return at;
}

static void read_said(const char *given, bool rest, struct said *s) {
    static char closed[TEXT_ROOM];
    double value = 1;
    size_t length = 0;
    const char *text = closed;
    for (const char *at = given; *at; at++) { /* spaces that are no more than that: beside signs, and before an exponent */
        const char *next = at + strspn(at, " ");
        bool exponent = length && isalpha((unsigned char)closed[length - 1]) && (isdigit((unsigned char)*next) || *next == '-' || *next == '+');
        if (*at != ' ' || (!exponent && !strchr("/*.^)", *next) && length && !strchr("/*.^(", closed[length - 1])))
            closed[length++] = *at;
    }
    closed[length] = 0;
    s->count = 0;
    text += strspn(text, " '\"`");
    const char *end = number_at(text, false, &value), *after = end;
    if (end && strncmp(text, "10", 2) == 0 && !isdigit((unsigned char)text[2]) && text[2] != 'e' && text[2] != 'E') {
        double power;
        after = exponent_at(text + 2, &power);
        value = after > text + 2 ? pow(10, power) : value;
    }
    s->k = end ? log10(value) : 0;
    terms_at(end ? after : text, rest, 1, s);
}

/* whether a reading has these exponents and this power of ten, and these spellings if they are asked for */
static bool says(const char *label, const uint8_t *record, const struct said *s, bool spellings) {
    bool same = thalinguze_count(record) == s->count && fabs(s->k - thalinguze_k(record)) < 1e-9;
    for (unsigned i = 0; same && i < s->count; i++)
        same = fabs(thalinguze_term_exponent(record, i) / 60.0 - s->terms[i].exponent) < 1e-9
            && (!spellings || strcmp(spelling_of(label, record, i).s, s->terms[i].spelling) == 0);
    return same;
}

/* CLAIMS */

static void check_suggestion(const struct advice *a, const char *label, const struct suggestion *s) {
    static struct said next, rest;
    struct reading r = ask(a->notation, s->label), other = ask(s->source, a->plain.s);
    const uint8_t *here = r.record, *there = other.record;
    bool good = r.number == THALINGUZE_ACCEPTED && thalinguze_known(here) && thalinguze_lawful(here);
    if (!good)
        fail("refused or unknown", a->notation, label, s->label);
    suggested[s->claim]++;
    read_said(a->plain.s, false, &next);
    read_said(a->plain.s, true, &rest);
    if (s->claim == SAME && *s->label)
        good = says(s->label, here, &next, true) && says(s->label, here, &rest, true);
    if (s->claim == ASKED)
        good = says(s->label, here, &next, false) && says(s->label, here, &rest, false);
    if (s->claim == NEXT || s->claim == REST)
        good = says(s->label, here, s->claim == NEXT ? &next : &rest, true) && !says(s->label, here, s->claim == NEXT ? &rest : &next, true);
    if (s->claim == ANOTHER)
        good = s->source != a->notation && other.number == 0 && thalinguze_known(there) && same_terms(here, there, true);
    if (!good)
        fail("another meaning", a->notation, label, s->label);
}

static void walk(uint32_t notation, const char *label) {
    static struct advice a;
    struct reading r = ask(notation, label);
    tried++;
    advise(&a, notation, label, r.number);
    if (r.number == THALINGUZE_ACCEPTED) {
        for (unsigned i = 0; i < a.count; i++) {
            struct reading meant = ask(notation, a.list[i].label);
            if (meant.number || !thalinguze_known(meant.record) || !same_terms(r.record, meant.record, false) || a.list[i].claim != ASKED)
                fail("another spelling", notation, label, a.list[i].label);
        }
        return;
    }
    refused++;
    for (unsigned i = 0; i < a.count; i++)
        check_suggestion(&a, label, &a.list[i]);
    if (a.count && (strstr(label, "log(") || strstr(label, "sqrt(") || strchr(label, '[') || strstr(label, "\xc2\xb0" "C")))
        fail("a label for a function", notation, label, a.list[0].label);
}

/* LABELS */

static const struct {
    uint32_t notation;
    const char *label, *first, *second;
} expected[] = {
    {1, "kg/m.s", "kg m-1 s", "kg/(m.s)"}, {2, "kg/m.s", "kg m**(-1) s", "kg/(m s)"}, {4, "kg/m.s", "kg.m**-1.s", "kg/(m.s)"},
    {4, "kg/m/s", "kg/(m.s)", 0}, {3, "---", "", 0}, {3, "0.1nm", "10-1nm", 0}, {3, "[K]", 0, 0}, {3, "20%", 0, 0}, {1, "Jy / beam", "Jy/beam", 0},
    {1, "W /m**2", "W/m**2", 0}, {1, "DN/s/pixel", 0, 0}, {2, "(m s)**(0.5)", 0, 0}, {2, "sqrt(Hz)", 0, 0}, {2, " /m", "/m", 0}, {1, "m02", 0, 0},
    {1, "Hz(0.5)", 0, 0}, {1, "Hz^0.5", "Hz(1/2)", 0}, {1, "Hz**-0.5", "Hz(-1/2)", 0}, {1, "Hz^.5", "Hz(1/2)", 0}, {2, "Hz**(.5)", "Hz**(1/2)", 0},
    {4, "Hz**(-.25)", "Hz**(-1/4)", 0}, {2, "Hz**0.05", "Hz**(1/20)", 0}, {1, "Hz.5", 0, 0}, {3, "Hz(0.5)", 0, 0}, {2, "Hz**(00.5)", 0, 0}, {2, "Hz**(0.)", 0, 0},
    {2, "Hz**0.0", 0, 0}, {1, "kg  m", "kg m", 0}, {1, "10(3)m", "10**3 m", 0}, {1, "kg * m", "kg*m", 0},
    {1, "(m/s) kg", "m s-1 kg", 0}, {1, "10+3/m", "10**3 m-1", 0}, {1, "m1.5", "m(3/2)", 0}, {1, "m^3/2", 0, 0}, {1, "1/s", "/s", 0},
    {2, "m**(1 / 2)", "m**(1/2)", 0}, {2, "( m)", "(m)", 0}, {2, "cm -2 s -1", "cm**(-2) s**(-1)", 0}, {3, "km s-1", "km.s-1", 0},
    {4, "/m", "m**-1", 0}, {4, "1e3m", "10**3m", 0}, {4, "10**3 m", "10**3m", 0}, {1, "'m'", 0, 0}, {1, "'km/s'", "km/s", 0}, {3, "m1/2", 0, 0},
    {2, "ph.cm-2.s-1", "photon cm**(-2) s**(-1)", 0}, {2, "log10(count/s)", 0, 0}, {1, "m/s\xc2\xb2", "m/s2", 0}, {3, "m/s\xc2\xb2", "m/s2", 0},
    {1, "\xc2\xb0" "C", 0, 0}, {1, "10\xc2\xb3 m", "10**3 m", 0}, {2, "\xc3\x85", "angstrom", 0}, {3, "\xc3\x85", 0, 0}, {1, "counts/s/pixel", "count/(s pixel)", 0},
    {1, "KM/S", "km/s", 0}, {1, "counts", "count", 0}, {1, "sec", "s", 0}, {1, "DN", 0, 0}, {2, "KM/S/MPC", "km/s/Mpc", "km/s/mpc"}, {2, "ph", "photon", 0},
    {3, "m.pixel", "m.pix", 0}, {1, "m", 0, 0}, {1, "(kg/m s)", "kg m-1 s", "kg m-1 s-1"}, {1, "%", 0, 0}, {1, "((((((((kg/m.s))))))))", "kg m-1 s", 0}, {2, "10^10003 m", 0, 0}, {1, "ma1(1/2)", 0, 0}, {1, "m1**+9", 0, 0}, {1, " 10*k1m", 0, 0}, {3, "100**1%", 0, 0}, {2, "1e10000 m", 0, 0}, {2, "10^99 m", "10**99 m", 0}, {1, "\xff", 0, 0},
    {5, "J/m**2/Ang", "J/(m**2*Ang)", 0}, {5, "kg m2 s-1", "kg*m**2*s**(-1)", 0}, {5, "1/s", "s**(-1)", 0}, {5, "/s", "s**(-1)", 0}, {5, "10**3*m", 0, 0},
    {5, "10**3 erg/s", 0, 0}, {5, "25 m", 0, 0}, {5, "1 m", "m", 0}, {5, "angstrom", "Ang", 0}, {5, "\xc3\x85", "Ang", 0}, {5, "Hz^0.5", "Hz**(1/2)", 0},
    {5, "kg/m*s", "kg*m**(-1)*s", "kg/(m*s)"}, {1, "Ang", "Angstrom", 0}, {2, "Ang", "angstrom", 0}, {3, "Ang", 0, 0}, {4, "Ang", "angstrom", 0},
};

static bool same(const char *a, const char *b) {
    return a && b ? strcmp(a, b) == 0 : !a && !b;
}

static void walk_expected(void) {
    for (size_t i = 0; i < sizeof expected / sizeof expected[0]; i++) {
        static struct advice a;
        uint32_t n = expected[i].notation;
        advise(&a, n, expected[i].label, ask(n, expected[i].label).number);
        walk(n, expected[i].label);
        if (!same(a.count ? a.list[0].label : NULL, expected[i].first) || (expected[i].second && !same(a.list[1].label, expected[i].second)))
            fail("another suggestion", n, expected[i].label, a.count ? a.list[0].label : "none");
    }
}

/* the labels in the tables of words, and that no spelling is known in two notations as two units */
static void walk_words(void) {
    for (uint32_t n = 1; n <= NOTATIONS; n++)
        for (unsigned i = 0; i < 3; i++)
            if (!is_sound(n, notation_words[n].examples[i]))
                fail("an example", n, notation_words[n].examples[i], "");
    for (unsigned i = 0; i < COUNT(spelling_words); i++)
        if (!is_sound(THALINGUZE_FITS, spelling_words[i][1]) && !is_sound(THALINGUZE_OGIP, spelling_words[i][1]))
            fail("a usual spelling", 1, spelling_words[i][0], spelling_words[i][1]);
    for (int p = 0; p <= PREFIXES; p++)
        for (int u = 1; u <= THALINGUZE_UNITS; u++)
            for (int i = SYMBOL; i < WORDS && unit_words[u][i]; i++) {
                struct text t = {0};
                put(&t, "%s%s", prefix_words[p].symbol, unit_words[u][i]);
                for (uint32_t n = 1; n <= NOTATIONS; n++)
                    for (uint32_t m = 1; m < n; m++)
                        if (is_sound(n, t.s) && is_sound(m, t.s) && !same_terms(ask(n, t.s).record, ask(m, t.s).record, true))
                            fail("two units", n, t.s, notation_words[m].name);
            }
}

static void walk_file(const char *name) {
    char line[1024];
    FILE *f = fopen(name, "r");
    if (!f)
        exit(2);
    while (fgets(line, sizeof line, f)) {
        char *tab = strchr(line, '\t');
        line[strcspn(line, "\n")] = 0;
        *tab = 0;
        for (uint32_t n = 1; n <= NOTATIONS; n++)
            walk(n, tab + 1);
    }
    fclose(f);
}

int main(void) {
    static uint8_t label[LABEL_ROOM + 1];
    walk_words();
    walk_expected();
    walk_file("tests/labels.txt");
    read_vectors("vectors/readings.tsv");
    for (unsigned i = 0; i < vector_count + 5000; i++) {
        size_t size = i < vector_count ? vectors[i].size : random_label(label, 1 + below(NOTATIONS));
        if (i < vector_count)
            memcpy(label, vectors[i].label, size);
        label[size] = 0;
        for (uint32_t n = 1; n <= NOTATIONS; n++)
            walk(n, (const char *)label);
    }
    printf("%lu labels under the advice (seed %lu), %lu refused: suggestions %lu of other forms, %lu and %lu for slashes, %lu asked, %lu from other "
           "notations; %lu wrong\n", tried, SEED, refused, suggested[SAME], suggested[NEXT], suggested[REST], suggested[ASKED], suggested[ANOTHER], wrong);
    return wrong != 0 || suggested[SAME] == 0 || suggested[NEXT] == 0 || suggested[ASKED] == 0 || suggested[ANOTHER] == 0;
}
