/* Rewrites the lines of standard input, each with a notation number, bytes in hexadecimal (- if none), the number of the target and how
   many bytes are lent, and prints each with its answer: number, length and the result's bytes in hexadecimal. The bounds of label and
   buffer are watched, and a byte that is not of the result must stay as it was. */
#define _DEFAULT_SOURCE
#include "result.h"

int main(void) {
    static struct label l;
    uint32_t target;
    size_t size;
    make_arenas();
    for (unsigned long line = 0; scanf("%" SCNu32 " " LABEL_TEXT " %" SCNu32 " %zu", &l.notation, l.text, &target, &size) == 4; line++) {
        if (!decode(&l) || size > ROOM)
            return 2;
        unsigned where = (unsigned)(line % PLACES);
        uint8_t *label = lend(&label_arena, &l, where), *buffer = place(&buffer_arena, size, where, FILL);
        struct thalinguze_rewritten answer = thalinguze_rewrite(l.notation, label, l.size, target, buffer, size);
        if (!only_result(answer, &l, label, buffer, size, THALINGUZE_MAX_LABEL_SIZE)) {
            fprintf(stderr, "a wrong length or buffer at line %lu: %s\n", line + 1, l.text);
            return 1;
        }
        printf("%" PRIu32 " %s %" PRIu32 " %zu ", l.notation, l.text, target, size);
        print_result(answer, buffer);
    }
    return 0;
}
