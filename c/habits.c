/* Habits of writing labels: forms that a notation does not have are replaced by those that it has. No letter of a unit changes.
   What a notation has is asked of the library, with metres for units; what it writes is the library's rewriting from OGIP. */
#include <ctype.h>
#include <stdlib.h>
#include "command.h"

#define DIGITS "0123456789"

static bool is_one_of(char c, const char *signs) {
    return c != 0 && strchr(signs, c) != NULL;
}

static bool is_unit_byte(char c) {
    return isalpha((unsigned char)c) || c == '%' || c == '\'';
}

static bool starts_integer(const char *s) {
    return is_one_of(s[is_one_of(s[0], "+-")], DIGITS);
}

/* adds what an OGIP label has beside its metre, before or after it, as the notation writes it */
static bool put_beside_metre(uint32_t notation, const char *in_ogip, bool after, struct text *to) {
    struct text t = {0};
    bool written = ask_rewriting(THALINGUZE_OGIP, in_ogip, notation, &t) == THALINGUZE_ACCEPTED;
    put(to, "%.*s", written ? (int)t.length - 1 : 0, t.s + after);
    return written;
}

char joint_in(uint32_t notation) {
    struct text t = {0};
    ask_rewriting(THALINGUZE_OGIP, "m m", notation, &t);
    return t.s[1];
}

/* metres are written in place of the units, and then the spellings in place of the metres */
bool put_terms(uint32_t notation, const char *label, const uint8_t *record, struct text *result) {
    struct text metres = {0}, shape = {0};
    put(&metres, thalinguze_k(record) ? "10**%d" : "", thalinguze_k(record));
    for (unsigned i = 0; i < thalinguze_count(record); i++) {
        put(&metres, "%sm**(", metres.length ? " " : "");
        put_sixtieths(&metres, thalinguze_term_exponent(record, i), "/");
        put(&metres, ")");
    }
    if (ask_rewriting(THALINGUZE_OGIP, metres.s, notation, &shape) != THALINGUZE_ACCEPTED)
        return false;
    for (size_t at = 0, i = 0; shape.s[at]; at++)
        put(result, shape.s[at] == 'm' ? "%s" : "%.1s", shape.s[at] == 'm' ? spelling_of(label, record, (unsigned)i++).s : shape.s + at);
    return true;
}

/* an exponent in any form: how many bytes it has, 0 if there is none, and the number without its signs and brackets, with a 0 before a bare point */
static size_t power_length(const char *s, struct text *exponent) {
    size_t at = strncmp(s, "**", 2) == 0 ? 2 : s[0] == '^';
    bool bracket = s[at] == '(';
    at += bracket;
    size_t sign = is_one_of(s[at], "+-"), whole = strspn(s + at + sign, DIGITS), length = sign + whole;
    bool parted = (s[at + length] == '.' && at + whole > 0) || (s[at + length] == '/' && bracket && whole > 0);
    if (parted && is_one_of(s[at + length + 1], DIGITS))
        length += 1 + strspn(s + at + length + 1, DIGITS);
    if (length == sign || (bracket && s[at + length] != ')'))
        return 0;
    put(exponent, "%.*s%s%.*s", (int)sign, s + at, whole ? "" : "0", (int)(length - sign), s + at + sign);
    return at + length + bracket;
}

size_t exponent_length(const char *label, size_t at, struct text *exponent) {
    size_t length = at > 0 && is_unit_byte(label[at - 1]) ? power_length(label + at, exponent) : 0;
    const char *after = label + at + length;
    bool goes_on = isalnum((unsigned char)*after) || is_one_of(*after, "(^+-'%") || strncmp(after, "**", 2) == 0;
    return goes_on ? 0 : length;
}

size_t leading_number(const char *s, int *k) {
    struct text exponent = {0};
    size_t whole = strspn(s, DIGITS), end = whole, one = strspn(s, "0."), power = 0;
    if (whole == 0)
        return 0;
    if (whole == 2 && strncmp(s, "10", 2) == 0)
        power = power_length(s + 2, &exponent);
    if (s[end] == '.' && is_one_of(s[end + 1], DIGITS "eE"))
        end += 1 + strspn(s + end + 1, DIGITS);
    bool power_of_ten = one < end && s[one] == '1' && one + 1 + strspn(s + one + 1, "0.") >= end;
    *k = one < whole ? (int)(whole - one) - 1 : (int)whole - (int)one;
    if (power && exponent.length < 6 && !strpbrk(exponent.s, "./")) { /* more digits are in no label */
        *k = atoi(exponent.s);
        end = 2 + power;
    } else if (is_one_of(s[end], "eE") && starts_integer(s + end + 1) && strspn(s + end + 2, DIGITS) < 5) {
        *k += atoi(s + end + 1);
        end += 2 + strspn(s + end + 2, DIGITS);
    }
    end += strspn(s + end, " ");
    if (is_one_of(s[end], "*."))
        end += 1 + strspn(s + end + 1, " ");
    if (!power_of_ten || is_one_of(s[end], DIGITS "*^.+-"))
        *k = INT_MAX;
    return end;
}

/* spaces and quotes round the whole label */
static void replace_ends(__attribute__((unused)) uint32_t notation, const char *s, struct text *to) {
    size_t first = strspn(s, " "), end = strlen(s);
    while (end > first && s[end - 1] == ' ')
        end--;
    bool quoted = end > first + 2 && is_one_of(s[first], "'\"`") && strchr(s + first + 1, s[first]) == s + end - 1;
    quoted &= !accepts(THALINGUZE_VOUNITS, s); /* where quotes are round a unit of the author's own */
    put(to, "%.*s", (int)(end - first - 2 * quoted), s + first + quoted);
}

/* spaces that join nothing, and several that join */
static void replace_spaces(__attribute__((unused)) uint32_t notation, const char *s, struct text *to) {
    for (size_t i = 0, end; s[i]; i = end) {
        end = i + strspn(s + i, " ");
        char before = i ? s[i - 1] : 0;
        if (end == i)
            put(to, "%c", s[end++]);
        else if (!is_one_of(before, "(/*.^") && !is_one_of(s[end], ")/*.^") && !(is_unit_byte(before) && starts_integer(s + end)))
            put(to, " ");
    }
}

/* a power of ten at the start */
static void replace_factors(uint32_t notation, const char *s, struct text *to) {
    struct text as_it_is = {0}, in_ogip = {0};
    int k = 0;
    size_t length = leading_number(s, &k);
    put(&as_it_is, "%.*sm", (int)length, s);
    put(&in_ogip, k ? "10**%d m" : "m", k);
    bool written = length && !accepts(notation, as_it_is.s) && put_beside_metre(notation, in_ogip.s, false, to);
    put(to, "%s", s + (written ? length : 0));
}

/* signs that join units */
static void replace_joints(uint32_t notation, const char *s, struct text *to) {
    for (size_t i = 0; s[i]; i++) {
        const char joined[] = {'m', s[i], 'm', 0};
        bool joins = i > 0 && is_one_of(s[i], " *.") && !is_one_of(s[i - 1], "/*.( ") && (is_unit_byte(s[i + 1]) || s[i + 1] == '(');
        put(to, "%c", joins && !accepts(notation, joined) ? joint_in(notation) : s[i]);
    }
}

/* exponents */
static void replace_powers(uint32_t notation, const char *s, struct text *to) {
    for (size_t i = 0, length; s[i]; i += length) {
        struct text exponent = {0}, as_it_is = {0}, in_ogip = {0};
        length = exponent_length(s, i, &exponent);
        put(&as_it_is, "m%.*s", (int)length, s + i);
        put(&in_ogip, "m**(%s)", exponent.s);
        if (length && !accepts(notation, as_it_is.s) && put_beside_metre(notation, in_ogip.s, true, to))
            continue;
        length = length ? length : 1;
        put(to, "%.*s", (int)length, s + i);
    }
}

bool replace_habits(uint32_t notation, const char *label, struct text *result, bool used[HABITS]) {
    static void (*const replace[HABITS])(uint32_t, const char *, struct text *) = {replace_ends, replace_factors, replace_joints,
                                                                                   replace_powers, replace_spaces};
    put(result, "%s", label);
    for (unsigned h = 0; h < 2 * HABITS && !accepts(notation, result->s); h++) { /* twice: without its spaces a sign may be another habit */
        struct text next = {0};
        replace[h % HABITS](notation, result->s, &next);
        used[h % HABITS] |= strcmp(next.s, result->s) != 0;
        *result = next;
    }
    return accepts(notation, result->s);
}

void put_below(const char *label, char joint, struct text *result) {
    bool open[THALINGUZE_MAX_LABEL_SIZE + 2] = {false};
    unsigned depth = 0;
    for (size_t i = 0, length; label[i] && depth <= THALINGUZE_MAX_LABEL_SIZE; i += length) {
        struct text exponent = {0};
        bool slash = label[i] == '/', again = slash && open[depth];
        length = slash ? 1 + strspn(label + i + 1, " ") : exponent_length(label, i, &exponent);
        bool group = label[i] == '(' && length == 0;
        length = length ? length : 1;
        if (label[i] == ')' && open[depth])
            put(result, ")");
        if (again)
            put(result, "%c", joint);
        else
            put(result, "%.*s%s", (int)length, label + i, slash ? "(" : "");
        open[depth] |= slash;
        depth -= label[i] == ')' && depth > 0;
        if (group)
            open[++depth] = false;
    }
    put(result, "%s", open[0] ? ")" : "");
}
