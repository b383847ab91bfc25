/* Converts the lines of standard input, each with a notation number, bytes in hexadecimal (- if none), and both again for the second
   label, and prints each with its answer: number, numerator, denominator and k. The bounds of labels and buffers are watched. Of each line
   it also checks the lent buffer: a refusal changes no byte, a buffer that is shorter than the record gets the bytes that fit, and no byte
   past the record changes. */
#define _DEFAULT_SOURCE
#include <inttypes.h>
#include "hex_label.h"
#include "../include/thalinguze.h"

enum { ROOM = THALINGUZE_CONVERSION_SIZE + 8 };

static struct arena first_arena, second_arena, record_arena;

/* converts into a buffer of that size; the first bytes, as many as a conversion writes, come into the record */
static bool convert(const struct label *a, const struct label *b, size_t size, unsigned where, uint32_t *number, uint8_t *record) {
    uint8_t *first = lend(&first_arena, a, where), *second = lend(&second_arena, b, where), *lent = place(&record_arena, size, where, FILL);
    *number = thalinguze_convert(a->notation, first, a->size, b->notation, second, b->size, lent, size);
    size_t written = *number != 0 ? 0 : size < THALINGUZE_CONVERSION_SIZE ? size : THALINGUZE_CONVERSION_SIZE;
    if (written != 0)
        memcpy(record, lent, written);
    return kept(&first_arena, a, first) && kept(&second_arena, b, second) && outside_kept(&record_arena, lent, written, FILL);
}

/* a whole record, then one of another size at another place */
static bool answer(const struct label *a, const struct label *b, unsigned long line, uint32_t *number, uint8_t *whole) {
    uint8_t part[THALINGUZE_CONVERSION_SIZE];
    uint32_t again;
    size_t size = line % ROOM, common = size < THALINGUZE_CONVERSION_SIZE ? size : THALINGUZE_CONVERSION_SIZE;
    if (!convert(a, b, ROOM, 0, number, whole) || !convert(a, b, size, (unsigned)(line / ROOM + line) % PLACES, &again, part))
        return false;
    if (*number == 0 && (memcmp(whole, part, common) != 0 || thalinguze_field(whole, THALINGUZE_CONVERSION_NUMBER) != 0))
        return false;
    return *number == again;
}

int main(void) {
    static struct label a, b;
    first_arena = make_arena(LABEL_ROOM + 2 * GUARD);
    second_arena = make_arena(LABEL_ROOM + 2 * GUARD);
    record_arena = make_arena(ROOM + 2 * GUARD);
    for (unsigned long line = 0; scanf("%" SCNu32 " " LABEL_TEXT " %" SCNu32 " " LABEL_TEXT, &a.notation, a.text, &b.notation, b.text) == 4; line++) {
        uint8_t record[THALINGUZE_CONVERSION_SIZE];
        uint32_t number;
        if (!decode(&a) || !decode(&b))
            return 2;
        if (!answer(&a, &b, line, &number, record)) {
            fprintf(stderr, "a wrong answer or buffer at line %lu: %s to %s\n", line + 1, a.text, b.text);
            return 1;
        }
        printf("%" PRIu32 " %s %" PRIu32 " %s %" PRIu32, a.notation, a.text, b.notation, b.text, number);
        if (number == 0)
            printf(" %" PRId64 " %" PRId64 " %d\n", thalinguze_numerator(record), thalinguze_denominator(record), thalinguze_conversion_k(record));
        else
            printf(" 0 1 0\n");
    }
    return 0;
}
