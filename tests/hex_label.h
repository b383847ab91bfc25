/* Labels that come as a notation number and bytes in hexadecimal (- if none), lent from watched memory. */
#ifndef HEX_LABEL_H
#define HEX_LABEL_H

#include "arena.h"

enum { LABEL_ROOM = 1024, FILL = 0xa5 };

/* the width of a label's text for scanf, which takes no name */
#define LABEL_TEXT "%2047s"

struct label {
    uint32_t notation;
    char text[2 * LABEL_ROOM];
    size_t size;
    uint8_t bytes[LABEL_ROOM];
};

static bool decode(struct label *l) {
    l->size = 0;
    if (strcmp(l->text, "-") == 0)
        return true;
    for (const char *at = l->text; *at != 0; at += 2) {
        unsigned byte;
        if (l->size == LABEL_ROOM || sscanf(at, "%2x", &byte) != 1)
            return false;
        l->bytes[l->size++] = (uint8_t)byte;
    }
    return true;
}

static uint8_t *lend(struct arena *a, const struct label *l, unsigned where) {
    return place_copy(a, l->bytes, l->size, where, FILL);
}

/* whether a lent label and what is around it are as they were */
static bool kept(const struct arena *a, const struct label *l, const uint8_t *text) {
    return holds_only(a, text, l->bytes, l->size, FILL);
}

#endif
