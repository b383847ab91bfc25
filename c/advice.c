/* What is wrong with a label, and what to write instead. Every suggestion is a text that the library was asked about first. */
#include "command.h"

static void suggest(struct advice *a, enum claim claim, uint32_t source, const char *label) {
    unsigned i = 0;
    while (i < a->count && (strcmp(a->list[i].label, label) != 0 || a->list[i].claim == NEXT))
        i++;
    if (i == MAX_SUGGESTIONS || (i < a->count && a->list[i].claim != ASKED))
        return;
    a->list[i].claim = claim;
    a->list[i].source = source;
    strcpy(a->list[i].label, label);
    a->count += i == a->count;
}

/* suggests a label that the notation accepts, as it is if it is sound, else in spellings that may be meant; else says why not */
static void offer(struct advice *a, enum claim claim, const char *label) {
    struct reading r = ask(a->notation, label);
    unsigned before = a->count;
    bool sound = is_sound(a->notation, label);
    if (sound)
        suggest(a, claim, 0, label);
    for (int mega = 1; mega >= 0 && claim == SAME && !sound; mega--) {
        struct text meant = {0};
        if (respell(a->notation, label, mega, &meant))
            suggest(a, ASKED, 0, meant.s);
    }
    for (unsigned i = 0; i < thalinguze_count(r.record) && a->count == before; i++) {
        struct text spelling = spelling_of(label, r.record, i);
        bool known = thalinguze_known(ask(a->notation, spelling.s).record);
        if (!is_sound(a->notation, spelling.s))
            give_reason(&a->reasons, "The %s %s is %s in %s.", known ? "prefix of" : "unit", spelling.s, known ? "not lawful" : "unknown",
                        notation_words[a->notation].name);
    }
}

/* whether two labels, each as its notation splits it, have the same spellings, exponents and power of ten */
static bool same_split(uint32_t n, const char *label, uint32_t m, const char *other) {
    struct reading here = ask(n, label), there = ask(m, other);
    bool same = !here.number && !there.number && same_terms(here.record, there.record, false);
    for (unsigned i = 0; same && i < thalinguze_count(here.record); i++)
        same = strcmp(spelling_of(label, here.record, i).s, spelling_of(other, there.record, i).s) == 0;
    return same;
}

/* offers a text if it has the split that a notation gives another, else that split written out */
static void offer_split(struct advice *a, enum claim claim, const char *near, uint32_t notation, const char *split) {
    struct text written = {0};
    if (same_split(a->notation, near, notation, split))
        offer(a, claim, near);
    else if (put_terms(a->notation, split, ask(notation, split).record, &written) && same_split(a->notation, written.s, notation, split))
        offer(a, claim, written.s);
}

static void give_rules(struct advice *a, const bool used[HABITS], bool slashes) {
    const struct notation_word *w = &notation_words[a->notation];
    const char *factors = strncmp(a->plain.s, "1/", 2) == 0 ? "no 1 is written before a slash" : w->factors;
    bool bare_point = strstr(a->plain.s, "(.") || strstr(a->plain.s, "+.") || strstr(a->plain.s, "-.");
    const char *powers = bare_point ? "a decimal has digits on both sides of its point" : w->powers;
    const char *const rules[] = {[FACTORS] = factors, [JOINTS] = w->joints, [POWERS] = powers, [SPACES] = w->spaces};
    if (used[ENDS])
        give_reason(&a->reasons, "Spaces and quotes round a label are no part of it.");
    for (unsigned h = FACTORS; h < HABITS; h++)
        if (used[h])
            give_reason(&a->reasons, "In %s %s.", w->name, rules[h]);
    if (slashes && w->slashes)
        give_reason(&a->reasons, "In %s %s.", w->name, w->slashes);
}

/* The text is brought near the notation, and also to one where a slash takes only what comes straight after it, to learn its split. */
static void suggest_by_habit(struct advice *a) {
    uint32_t n = a->notation, pivot = strchr(a->plain.s, '%') ? THALINGUZE_CDS : THALINGUZE_OGIP;
    struct text near = {0}, split = {0}, near_below = {0}, split_below = {0};
    bool used[HABITS] = {0}, unused[HABITS] = {0}, whole = replace_habits(n, a->plain.s, &near, used);
    bool has_split = replace_habits(pivot, a->plain.s, &split, unused);
    give_rules(a, used, has_split && !whole && strchr(near.s, '/'));
    put_below(near.s, joint_in(n), &near_below);
    put_below(split.s, joint_in(pivot), &split_below);
    struct reading next = ask(pivot, split.s), rest = ask(pivot, split_below.s);
    if (!has_split || rest.number != THALINGUZE_ACCEPTED)
        return;
    bool two = !same_terms(next.record, rest.record, false);
    offer_split(a, two ? NEXT : SAME, two ? "" : whole ? near.s : near_below.s, pivot, split.s);
    if (two)
        offer_split(a, REST, near_below.s, pivot, split_below.s);
}

/* What other notations read, where they know every unit, in the library's own rewriting. */
static void suggest_by_others(struct advice *a, bool as_it_stands) {
    struct text names = {0};
    for (uint32_t n = 1; n <= NOTATIONS; n++) {
        struct text said = {0}, result = {0};
        if (n == a->notation || !is_sound(n, a->plain.s))
            continue;
        ask_words(n, a->plain.s, &said);
        if (ask_rewriting(n, a->plain.s, a->notation, &result) == THALINGUZE_ACCEPTED && is_sound(a->notation, result.s)) {
            struct reading here = ask(a->notation, result.s), first = ask(a->notation, a->list[0].label);
            bool told = as_it_stands ? strcmp(a->list[0].label, result.s) == 0 : same_terms(here.record, first.record, true);
            if (a->count && a->list[0].claim == SAME && told)
                put(&names, "%s%s", names.length ? " and " : "", notation_words[n].name);
            else
                suggest(a, ANOTHER, n, result.s);
        } else if (!strstr(a->reasons.s, "unknown in")) {
            give_reason(&a->reasons, "As %s this is %s, which %s does not have.", notation_words[n].name, said.s, notation_words[a->notation].name);
        }
    }
    if (names.length && as_it_stands)
        give_reason(&a->reasons, "%s accept%s the label as it stands.", names.s, strchr(names.s, ' ') ? "" : "s");
}

void advise(struct advice *a, uint32_t notation, const char *label, uint32_t number) {
    memset(a, 0, sizeof *a);
    a->notation = notation;
    if (number == THALINGUZE_ACCEPTED) {
        offer(a, SAME, label);
        a->count = a->list[0].claim == ASKED ? a->count : 0;
    }
    bool advised = number == THALINGUZE_BYTE_OUT_OF_RANGE || number == THALINGUZE_NOT_IN_GRAMMAR;
    if (!advised || !replace_signs(notation, label, &a->plain, &a->reasons))
        return;
    if (strspn(a->plain.s, "- ") == a->plain.length) {
        give_reason(&a->reasons, "Where there is no unit, the label is empty.");
        suggest(a, SAME, 0, "");
    } else if (!blame_meaning(notation, a->plain.s, &a->reasons)) {
        suggest_by_habit(a);
        suggest_by_others(a, strcmp(label, a->plain.s) == 0);
        if (a->count == 0)
            blame_forms(notation, a->plain.s, &a->reasons);
    }
}
