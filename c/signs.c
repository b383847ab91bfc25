/* Signs of word processors and typesetting: their names, and what labels have instead. */
#include <ctype.h>
#include "command.h"

/* the Unicode number of the first character, in UTF-8 or else in Latin-1, and how many bytes it has */
static unsigned decode(const char *s, size_t *length) {
    const unsigned char *u = (const unsigned char *)s;
    unsigned more = u[0] >= 0xf0 ? 3 : u[0] >= 0xe0 ? 2 : u[0] >= 0xc2 ? 1 : 0, code = more ? u[0] & (0x3fu >> more) : u[0];
    for (*length = 1; *length <= more && (u[*length] & 0xc0) == 0x80; ++*length)
        code = code << 6 | (u[*length] & 0x3fu);
    bool whole = *length > more;
    *length = whole ? *length : 1;
    return whole ? code : u[0];
}

const struct sign_word *find_sign(unsigned code) {
    for (unsigned i = 0; i < COUNT(sign_words); i++)
        if (sign_words[i].code == code)
            return &sign_words[i];
    return NULL;
}

/* adds a sign's name to a list of them, once */
static void add_name(struct text *names, const struct sign_word *sign, unsigned code) {
    struct text name = {0};
    put(&name, "%s", sign ? sign->name : "");
    if (!sign)
        put(&name, code < 0x100 ? "the byte hexadecimal %02X" : "the character with the Unicode number %X", code);
    if (!strstr(names->s, name.s))
        put(names, "%s%s", names->length ? ", " : "", name.s);
}

bool replace_signs(uint32_t notation, const char *label, struct text *plain, struct text *reasons) {
    struct text names = {0};
    bool replaced = true, celsius = false;
    for (size_t at = 0, length; label[at]; at += length) {
        unsigned code = decode(label + at, &length);
        const struct sign_word *sign = find_sign(code);
        celsius |= code == 0x2103 || (code == 0xb0 && (label[at + length] == 'C' || label[at + length] == 'F'));
        if (code >= 0x20 && code <= 0x7e && !(sign && sign->instead)) {
            put(plain, "%c", label[at]);
            continue;
        }
        add_name(&names, sign, code);
        const char *instead = sign && sign->instead ? sign->instead : "", *name = name_in(notation, unit_of(instead));
        replaced &= sign && sign->instead;
        if (sign && strstr(sign->name, "superscript") && at > 0 && isdigit((unsigned char)label[at - 1]))
            put(plain, "**"); /* the exponent of a power of ten */
        put(plain, "%s", name ? name : instead);
    }
    if (names.length)
        put(reasons, "No label has %s.\n", names.s);
    if (celsius)
        put(reasons, "Degrees Celsius and Fahrenheit are no units here. The unit of temperature is the kelvin, K.\n");
    return replaced && !celsius;
}
