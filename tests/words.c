/* Writes the labels of standard input as words. Each line has a notation number, bytes in hexadecimal (- if none) and how many bytes are
   lent, and is printed with its answer: number, length and the words' bytes in hexadecimal. The bounds of label and buffer are watched,
   and a byte that is not of the words must stay as it was. */
#define _DEFAULT_SOURCE
#include "result.h"

int main(void) {
    static struct label l;
    size_t size;
    make_arenas();
    for (unsigned long line = 0; scanf("%" SCNu32 " " LABEL_TEXT " %zu", &l.notation, l.text, &size) == 3; line++) {
        if (!decode(&l) || size > ROOM)
            return 2;
        unsigned where = (unsigned)(line % PLACES);
        uint8_t *label = lend(&label_arena, &l, where), *buffer = place(&buffer_arena, size, where, FILL);
        struct thalinguze_rewritten answer = thalinguze_words(l.notation, label, l.size, buffer, size);
        if (!only_result(answer, &l, label, buffer, size, THALINGUZE_MAX_WORDS_SIZE)) {
            fprintf(stderr, "a wrong length or buffer at line %lu: %s\n", line + 1, l.text);
            return 1;
        }
        printf("%" PRIu32 " %s %zu ", l.notation, l.text, size);
        print_result(answer, buffer);
    }
    return 0;
}
