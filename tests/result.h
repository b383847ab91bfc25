/* A label and a buffer that are lent from watched memory, and what a call answers that writes a result into the buffer. */
#ifndef RESULT_H
#define RESULT_H

#include <inttypes.h>
#include "hex_label.h"
#include "../include/thalinguze.h"

enum { ROOM = 4096 };

static struct arena label_arena, buffer_arena;

static void make_arenas(void) {
    label_arena = make_arena(LABEL_ROOM + 2 * GUARD);
    buffer_arena = make_arena(ROOM + 2 * GUARD);
}

/* whether the length is right for a buffer of that size and for results of at most that many bytes, and no byte changed but the result's */
static bool only_result(struct thalinguze_rewritten answer, const struct label *l, const uint8_t *label, const uint8_t *buffer,
                        size_t size, size_t most) {
    if (answer.length > size || answer.length > most || (answer.number != 0 && answer.length != 0))
        return false;
    return kept(&label_arena, l, label) && outside_kept(&buffer_arena, buffer, answer.length, FILL);
}

/* number, length and the result's bytes in hexadecimal, - if none */
static void print_result(struct thalinguze_rewritten answer, const uint8_t *buffer) {
    printf("%" PRIu32 " %" PRIu32 " ", answer.number, answer.length);
    for (uint32_t i = 0; i < answer.length; i++)
        printf("%02x", buffer[i]);
    printf(answer.length == 0 ? "-\n" : "\n");
}

#endif
