/* Readings, accepted or refused, told to a person: the answer in the first sentence, then one fact on each line. */
#include "command.h"

/* adds the spellings of the terms on which a verdict is no: those on which it is no alone; how many they are */
static unsigned list_blamed(struct text *list, uint32_t notation, const char *label, const uint8_t *record, unsigned verdict) {
    unsigned count = 0;
    for (unsigned i = 0; i < thalinguze_count(record); i++) {
        struct text spelling = spelling_of(label, record, i);
        if (!thalinguze_field(ask(notation, spelling.s).record, verdict))
            put(list, "%s%s", count++ ? ", " : "", spelling.s);
    }
    return count;
}

static void print_first_sentence(uint32_t notation, const char *label, const uint8_t *record) {
    struct text said = {0}, blamed = {0};
    ask_words(notation, label, &said);
    unsigned unknown = list_blamed(&blamed, notation, label, record, THALINGUZE_FIELD_KNOWN);
    if (unknown)
        printf("Accepted, but %u unit%s unknown: %s.\nIt reads: %s.\n", unknown, unknown == 1 ? " is" : "s are", blamed.s, said.s);
    else if (list_blamed(&blamed, notation, label, record, THALINGUZE_FIELD_LAWFUL))
        printf("Accepted, but with an unlawful prefix in %s: %s.\nIt reads: %s.\n", notation_words[notation].name, blamed.s, said.s);
    else
        printf("Accepted: %s.\n", said.length ? said.s : "a plain number, without a unit");
}

/* the terms above and below the fraction line, where there is something below it or everything is asked for */
static void print_sides(uint32_t notation, const char *label, const uint8_t *record, bool in_full) {
    struct text sides[2] = {{0}, {0}};
    for (unsigned i = 0; i < thalinguze_count(record); i++) {
        int64_t exponent = thalinguze_term_exponent(record, i);
        struct text *side = &sides[exponent < 0];
        put(side, "%s", side->length ? ", " : "");
        ask_words(notation, spelling_of(label, record, i).s, side);
        say_power(side, exponent < 0 ? -exponent : exponent);
    }
    for (int s = 0; s < 2 && (sides[1].length || in_full); s++)
        printf("%s the line: %s.\n", s ? "Below" : "Above", sides[s].length ? sides[s].s : "nothing");
}

/* the size, unless it is 1, and what goes without saying, if it is asked for */
static void print_size(const uint8_t *record, bool in_full) {
    static const char *const answers[] = {"no", "yes"};
    struct text size = {0};
    bool one = true;
    int k = thalinguze_k(record), known = thalinguze_known(record);
    for (unsigned p = 0; p < THALINGUZE_PRIMES; p++)
        one &= thalinguze_scale(record, p) == 0;
    say_size(&size, record);
    if (in_full)
        printf("Power of ten: %s%d.\nKnown: %s.\nLawful: %s.\nRecommended: %s.\n", k < 0 ? "minus " : "", k < 0 ? -k : k, answers[known],
               answers[thalinguze_lawful(record)], answers[thalinguze_recommended(record)]);
    if (in_full || (known && !one))
        printf("Size: %s%s.\n", size.s, known ? "" : ", with unknown units left out");
}

static void print_suggestions(FILE *out, const struct advice *a) {
    static const char *const claims[] = {[SAME] = "Write: ", [ASKED] = "Did you mean: ",
        [NEXT] = "If only the unit or group straight after a slash is below the line, write: ",
        [REST] = "If all that follows the slash is below the line, write: "};
    for (unsigned i = 0; i < a->count; i++) {
        const struct suggestion *s = &a->list[i];
        struct text said = {0};
        ask_words(s->source, a->plain.s, &said);
        if (s->claim == ANOTHER)
            fprintf(out, "As %s this is %s; in %s: %s\n", notation_words[s->source].name, said.s, notation_words[a->notation].name, s->label);
        else
            fprintf(out, "%s%s\n", *s->label ? claims[s->claim] : "Write the empty label.", s->label);
    }
}

void report_reading(uint32_t notation, const char *label, const uint8_t *record, bool in_full) {
    struct advice a;
    struct text blamed = {0};
    print_first_sentence(notation, label, record);
    print_sides(notation, label, record, in_full);
    if (thalinguze_known(record) && list_blamed(&blamed, notation, label, record, THALINGUZE_FIELD_RECOMMENDED))
        printf("Not recommended: %s.\n", blamed.s);
    print_size(record, in_full);
    advise(&a, notation, label, THALINGUZE_ACCEPTED);
    print_suggestions(stdout, &a);
}

void report_refusal(FILE *out, uint32_t notation, const char *label, uint32_t number) {
    static const char *const conditions[] = { /* those that end in a space go on with the notation's name */
        [THALINGUZE_TOO_LONG] = "the label has more than 255 bytes",
        [THALINGUZE_BYTE_OUT_OF_RANGE] = "the label has signs that are not plain ASCII",
        [THALINGUZE_NOT_IN_GRAMMAR] = "the label does not follow the rules of ",
        [THALINGUZE_NUMBER_OUT_OF_BOUNDS] = "a number is out of bounds.\nExponents and powers of ten go from minus 99 to 99, with 4 digits in a row "
            "at most.\nAn exponent is not 0, and may have parts that divide 60: halves, thirds, quarters, fifths, sixths and so on",
        [THALINGUZE_TOO_DEEP] = "more than 8 brackets are open at once.\nTake brackets away",
        [THALINGUZE_TOO_MANY_TERMS] = "the label has more than 32 terms.\nWrite a unit that comes several times once, with an exponent",
        [THALINGUZE_UNKNOWN_UNIT] = "a unit is unknown, and so is its size",
        [THALINGUZE_DIMENSIONS_DIFFER] = "the dimensions differ",
        [THALINGUZE_NO_FRACTION] = "the factor between the labels is a root, not a fraction",
        [THALINGUZE_FACTOR_OUT_OF_BOUNDS] = "the factor has more than 53 bits above or below its line, or a power of ten beyond 9999",
        [THALINGUZE_NO_FORM] = "the label has no form in ",
        [THALINGUZE_RESULT_TOO_LONG] = "the label would have more than 255 bytes in ",
    };
    const struct notation_word *w = &notation_words[notation];
    struct advice a;
    bool named = conditions[number][strlen(conditions[number]) - 1] == ' ';
    fprintf(out, "Refused, number %u: %s%s.\n", (unsigned)number, conditions[number], named ? w->name : "");
    advise(&a, notation, label, number);
    fputs(a.reasons.s, out);
    print_suggestions(out, &a);
    if (number == THALINGUZE_NOT_IN_GRAMMAR && a.count == 0)
        fprintf(out, "Labels of %s look like these: %s; %s; %s\n", w->name, w->examples[0], w->examples[1], w->examples[2]);
}
