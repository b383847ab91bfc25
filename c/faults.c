/* Faults of refused labels that only a person can mend, each explained in a sentence. */
#include <ctype.h>
#include "command.h"

void give_reason(struct text *reasons, const char *format, ...) {
    char made[TEXT_ROOM];
    va_list arguments;
    va_start(arguments, format);
    vsnprintf(made, sizeof made, format, arguments);
    va_end(arguments);
    if (!strstr(reasons->s, made))
        put(reasons, "%s\n", made);
}

bool blame_meaning(uint32_t notation, const char *label, struct text *reasons) {
    int k = 0;
    size_t before = reasons->length, number = leading_number(label, &k);
    for (unsigned f = 0; f < COUNT(function_words); f++) {
        const char *name = function_words[f], *at = strstr(label, name);
        if (at && (at == label || !isalnum((unsigned char)at[-1])) && at[strlen(name) + strspn(at + strlen(name), " ")] == '(')
            give_reason(reasons, "Labels have no functions, and %s before a bracket is one. %s.", name, strcmp(name, "sqrt") == 0
                        ? "A root is the exponent 1/2 of each unit" : "Write the plain unit, and say the function outside the label");
    }
    if (strpbrk(label, "[]"))
        give_reason(reasons, "Labels have no square brackets. For a logarithm write the plain unit, and say log outside the label.");
    if (number && label[number] == 0)
        give_reason(reasons, "A number alone is no label. Where there is no unit, the label is empty.");
    else if (k && !accepts(notation, "10**3m"))
        give_reason(reasons, "In %s %s.", notation_words[notation].name, notation_words[notation].factors);
    else if (k == INT_MAX)
        give_reason(reasons, "The only numbers before a unit are powers of ten. Take this one out and multiply the values by it.");
    return reasons->length > before;
}

void blame_forms(uint32_t notation, const char *label, struct text *reasons) {
    const struct notation_word *w = &notation_words[notation];
    int open = 0;
    for (const char *at = label; *at; at++) {
        struct text exponent = {0}, metre = {0};
        size_t size = exponent_length(label, (size_t)(at - label), &exponent);
        put(&metre, "m%.*s", (int)size, at);
        open += (*at == '(') - (*at == ')');
        if (!isalnum((unsigned char)*at) && *at != ' ' && !strchr(w->signs, *at))
            give_reason(reasons, "No %s label has %s.", w->name, find_sign((unsigned char)*at)->name);
        if (size && exponent.s[strspn(exponent.s, "+-")] == '0' && exponent.s[strspn(exponent.s, "+-") + 1] != '.')
            give_reason(reasons, "An exponent starts with 1 to 9%s.", accepts(notation, "m**(0.5)") ? ", or with one 0 and a point" : "");
        else if (size && !accepts(notation, metre.s))
            give_reason(reasons, "In %s %s.", w->name, w->powers);
        if (*at == '-' && !isdigit((unsigned char)at[1]))
            give_reason(reasons, "A hyphen is only the minus sign of a number.");
        if (strncmp(at, ".)", 2) == 0 && at > label && isdigit((unsigned char)at[-1]))
            give_reason(reasons, "A decimal has digits on both sides of its point.");
        if (*at == '/' && isdigit((unsigned char)at[1]) && open == 0)
            give_reason(reasons, "No number comes after a slash. An exponent that is a fraction is in brackets.");
        if (*at == ')' && at[1] && !isdigit((unsigned char)at[-1]) && (strchr("^+-0123456789", at[1]) || strncmp(at + 1, "**", 2) == 0))
            give_reason(reasons, "A group takes no exponent. Give each unit in it its own.");
    }
    if (open)
        give_reason(reasons, "A bracket has no partner.");
    if (reasons->length == 0)
        give_reason(reasons, "A sign or a unit is out of place or missing.");
}
