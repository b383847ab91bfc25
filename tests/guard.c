/* Lends the library buffers whose bounds are watched: guard [COUNT]. Each exported call gets the labels of vectors/, at null pointers too,
   and COUNT inputs made at random. A call must leave every byte that is not of its result, refused calls every byte, and every size and place
   of the lent buffer must get the same answer. */
#define _DEFAULT_SOURCE
#include <ctype.h>
#include "arena.h"
#include "labels.h"
#include "longest.h"

enum { FILL = 0xAA, PAST = 64, BUFFER_ROOM = THALINGUZE_RECORD_SIZE + PAST, NOTATIONS = THALINGUZE_STARLINK, TARGETS = NOTATIONS + 2 };

/* how many inputs a call got, and how many it accepted */
struct tally {
    const char *call;
    unsigned long inputs, accepted;
};
static struct tally reading = {"read", 0, 0}, converting = {"converted", 0, 0};
static unsigned long lendings, wrong;
static struct arena first_arena, second_arena, buffer_arena;

/* every place of a label with every place of a buffer */
static unsigned label_place(void) {
    return (unsigned)(lendings / PLACES % PLACES);
}

static unsigned buffer_place(void) {
    return (unsigned)(lendings % PLACES);
}

static void count(struct tally *t, bool accepted) {
    t->inputs++;
    t->accepted += accepted;
}

static void check(bool good, const struct tally *t, const struct vector *v, size_t lent) {
    lendings++;
    if (good)
        return;
    printf("%s wrongly: notation %u, a buffer of %zu bytes, label of %zu bytes ", t->call, (unsigned)v->notation, lent, v->size);
    for (size_t i = 0; i < v->size; i++)
        printf("%02x", v->label[i]);
    printf("\n");
    if (++wrong > 20)
        exit(1);
}

static uint8_t *lend(struct arena *a, const struct vector *v) {
    return place_copy(a, v->label, v->size, label_place(), FILL);
}

static bool kept(const struct arena *a, const uint8_t *lent, const struct vector *v) {
    return holds_only(a, lent, v->label, v->size, FILL);
}

static size_t smaller(size_t a, size_t b) {
    return a < b ? a : b;
}

/* READING */

static void lend_record(const struct vector *v, size_t lent, uint32_t number, const uint8_t *whole) {
    uint8_t *label = lend(&first_arena, v), *record = place(&buffer_arena, lent, buffer_place(), FILL);
    uint32_t answer = thalinguze_read(v->notation, label, v->size, record, lent);
    size_t written = number != 0 ? 0 : smaller(lent, THALINGUZE_RECORD_SIZE);
    check(answer == number && kept(&first_arena, label, v) && holds_only(&buffer_arena, record, whole, written, FILL), &reading, v, lent);
}

/* the whole record once, then a buffer of the next size and one at an end of the record */
static void try_read(const struct vector *v) {
    static const size_t ends[] = {0, 1, THALINGUZE_RECORD_SIZE - 1, THALINGUZE_RECORD_SIZE, THALINGUZE_RECORD_SIZE + 1};
    uint8_t whole[THALINGUZE_RECORD_SIZE];
    uint32_t number = thalinguze_read(v->notation, v->label, v->size, whole, sizeof whole);
    check(number <= THALINGUZE_TOO_MANY_TERMS, &reading, v, sizeof whole);
    lend_record(v, reading.inputs % (BUFFER_ROOM + 1), number, whole);
    lend_record(v, ends[reading.inputs % 5], number, whole);
    count(&reading, number == 0);
}

/* every size of buffer, at every place, for one accepted and one refused label */
static void try_all_sizes(void) {
    static struct vector accepted = {THALINGUZE_CDS, 21, "10+3kg.furlong/(m2.s)"}, refused = {THALINGUZE_CDS, 3, "m m"};
    uint8_t whole[THALINGUZE_RECORD_SIZE];
    check(thalinguze_read(accepted.notation, accepted.label, accepted.size, whole, sizeof whole) == 0, &reading, &accepted, sizeof whole);
    for (size_t lent = 0; lent <= BUFFER_ROOM; lent++)
        for (unsigned i = 0; i < PLACES; i++) {
            lend_record(&accepted, lent, THALINGUZE_ACCEPTED, whole);
            lend_record(&refused, lent, THALINGUZE_NOT_IN_GRAMMAR, whole);
        }
}

/* REWRITING AND WORDS */

/* a call that writes a result into a buffer: how it went so far, the call, and how many bytes hold every result */
struct writing {
    struct tally tally;
    struct thalinguze_rewritten (*write)(uint32_t source, const uint8_t *label, size_t label_size, uint32_t target, uint8_t *buffer,
                                         size_t buffer_size);
    size_t most;
};

/* words have no target */
static struct thalinguze_rewritten write_words(uint32_t source, const uint8_t *label, size_t label_size, uint32_t target, uint8_t *buffer,
                                               size_t buffer_size) {
    (void)target;
    return thalinguze_words(source, label, label_size, buffer, buffer_size);
}

static struct writing rewriting = {{"rewritten", 0, 0}, thalinguze_rewrite, THALINGUZE_MAX_LABEL_SIZE};
static struct writing speaking = {{"spoken", 0, 0}, write_words, THALINGUZE_MAX_WORDS_SIZE};

static void lend_buffer(const struct writing *w, const struct vector *v, uint32_t target, size_t lent, struct thalinguze_rewritten wanted,
                        const uint8_t *whole) {
    if (wanted.number == 0 && lent < wanted.length)
        wanted = (struct thalinguze_rewritten){THALINGUZE_BUFFER_TOO_SHORT, 0};
    uint8_t *label = lend(&first_arena, v), *buffer = place(&buffer_arena, lent, buffer_place(), FILL);
    struct thalinguze_rewritten answer = w->write(v->notation, label, v->size, target, buffer, lent);
    check(answer.number == wanted.number && answer.length == wanted.length && kept(&first_arena, label, v) &&
              holds_only(&buffer_arena, buffer, whole, wanted.length, FILL), &w->tally, v, lent);
}

/* the whole result once, then no buffer, buffers about as long as the result and about as long as the longest, and one of any length */
static struct thalinguze_rewritten try_writing(struct writing *w, const struct vector *v, uint32_t target, uint8_t *whole) {
    struct thalinguze_rewritten r = w->write(v->notation, v->label, v->size, target, whole, w->most);
    check(r.length <= w->most && (r.number == 0 || r.length == 0), &w->tally, v, w->most);
    lend_buffer(w, v, target, 0, r, whole);
    if (r.length > 0)
        lend_buffer(w, v, target, r.length - 1, r, whole);
    lend_buffer(w, v, target, r.length, r, whole);
    lend_buffer(w, v, target, r.length + 1, r, whole);
    lend_buffer(w, v, target, w->most - 1 + w->tally.inputs % 3, r, whole);
    lend_buffer(w, v, target, w->tally.inputs % (w->most + PAST), r, whole);
    count(&w->tally, r.number == 0);
    return r;
}

static void try_rewrite(const struct vector *v, uint32_t target) {
    uint8_t whole[THALINGUZE_MAX_LABEL_SIZE];
    uint32_t number = try_writing(&rewriting, v, target, whole).number;
    check(number <= THALINGUZE_TOO_MANY_TERMS || number == THALINGUZE_NO_FORM || number == THALINGUZE_RESULT_TOO_LONG, &rewriting.tally, v,
          sizeof whole);
}

/* letters, digits and single spaces, with no space at an end */
static bool are_words(const uint8_t *bytes, size_t size) {
    bool after_space = true;
    for (size_t i = 0; i < size; i++) {
        bool space = bytes[i] == ' ';
        if (space ? after_space : !isalnum(bytes[i]))
            return false;
        after_space = space;
    }
    return size == 0 || !after_space;
}

/* a label that can be read can be spoken */
static void try_words(const struct vector *v) {
    uint8_t whole[THALINGUZE_MAX_WORDS_SIZE];
    struct thalinguze_rewritten r = try_writing(&speaking, v, 0, whole);
    check(r.number == thalinguze_read(v->notation, v->label, v->size, NULL, 0) && are_words(whole, r.length), &speaking.tally, v,
          sizeof whole);
}

/* every size of buffer, at every place, for the longest words and for a refused label */
static void try_all_sizes_of_words(void) {
    static struct vector longest = {THALINGUZE_CDS, sizeof LONGEST_LABEL - 1, LONGEST_LABEL}, refused = {THALINGUZE_CDS, 3, "m m"};
    uint8_t whole[THALINGUZE_MAX_WORDS_SIZE];
    struct thalinguze_rewritten r = try_writing(&speaking, &longest, 0, whole);
    check(r.length == sizeof whole, &speaking.tally, &longest, sizeof whole);
    for (size_t lent = 0; lent <= sizeof whole + PAST; lent++)
        for (unsigned i = 0; i < PLACES; i++) {
            lend_buffer(&speaking, &longest, 0, lent, r, whole);
            lend_buffer(&speaking, &refused, 0, lent, (struct thalinguze_rewritten){THALINGUZE_NOT_IN_GRAMMAR, 0}, whole);
        }
}

/* CONVERTING */

static void lend_conversion(const struct vector *a, const struct vector *b, size_t lent, uint32_t number, const uint8_t *whole) {
    uint8_t *first = lend(&first_arena, a), *second = lend(&second_arena, b), *record = place(&buffer_arena, lent, buffer_place(), FILL);
    uint32_t answer = thalinguze_convert(a->notation, first, a->size, b->notation, second, b->size, record, lent);
    size_t written = number != 0 ? 0 : smaller(lent, THALINGUZE_CONVERSION_SIZE);
    check(answer == number && kept(&first_arena, first, a) && kept(&second_arena, second, b) &&
              holds_only(&buffer_arena, record, whole, written, FILL), &converting, a, lent);
}

static void try_convert(const struct vector *a, const struct vector *b) {
    static const size_t ends[] = {0, THALINGUZE_CONVERSION_SIZE - 1, THALINGUZE_CONVERSION_SIZE, THALINGUZE_CONVERSION_SIZE + 1};
    uint8_t whole[THALINGUZE_CONVERSION_SIZE];
    uint32_t number = thalinguze_convert(a->notation, a->label, a->size, b->notation, b->label, b->size, whole, sizeof whole);
    check(number <= THALINGUZE_FACTOR_OUT_OF_BOUNDS, &converting, a, sizeof whole);
    lend_conversion(a, b, converting.inputs % (THALINGUZE_CONVERSION_SIZE + PAST), number, whole);
    lend_conversion(a, b, ends[converting.inputs % 4], number, whole);
    count(&converting, number == 0);
}

/* NULL POINTERS */

/* nothing but null pointers: the empty label, and a buffer without a byte */
static void try_nulls(void) {
    const struct vector empty = {.size = 0};
    for (uint32_t source = 0; source < TARGETS; source++)
        for (uint32_t target = 0; target < TARGETS; target++) {
            bool from = source >= 1 && source <= NOTATIONS, both = from && target >= 1 && target <= NOTATIONS;
            struct thalinguze_rewritten r = thalinguze_rewrite(source, NULL, 0, target, NULL, 0), w = thalinguze_words(source, NULL, 0, NULL, 0);
            check(thalinguze_read(source, NULL, 0, NULL, 0) == (from ? 0 : 1), &reading, &empty, 0);
            check(r.number == (both ? 0 : 1) && r.length == 0, &rewriting.tally, &empty, 0);
            check(w.number == (from ? 0 : 1) && w.length == 0, &speaking.tally, &empty, 0);
            check(thalinguze_convert(source, NULL, 0, target, NULL, 0, NULL, 0) == (both ? 0 : 1), &converting, &empty, 0);
        }
}

/* INPUTS */

/* one label through each call, in every notation and with two numbers that are none */
static void try_everywhere(const struct vector *v) {
    struct vector other = *v;
    for (other.notation = 0; other.notation < TARGETS; other.notation++) {
        try_read(&other);
        try_rewrite(v, other.notation);
        try_words(&other);
        try_convert(v, &other);
    }
}

/* one label through each call, in its notation, with the next target */
static void try_here(const struct vector *v) {
    try_read(v);
    try_rewrite(v, rewriting.tally.inputs % TARGETS);
    try_words(v);
    try_convert(v, v);
}

static void try_file(const char *name, void (*try_label)(const struct vector *)) {
    static struct vector v;
    FILE *f = open_vectors(name);
    for (; scan_vector(f, &v); skip_line(f))
        try_label(&v);
    fclose(f);
}

static void try_pairs(const char *name) {
    static struct vector a, b;
    FILE *f = open_vectors(name);
    for (; scan_vector(f, &a) && scan_vector(f, &b); skip_line(f)) {
        try_everywhere(&a);
        try_everywhere(&b);
        try_convert(&a, &b);
    }
    fclose(f);
}

/* the number of a notation's name; 0 for any other text */
static uint32_t notation_of(const char *name) {
    static const char *const names[] = {"", "fits", "ogip", "cds", "vou", "starlink"};
    for (uint32_t n = 1; n <= NOTATIONS; n++)
        if (strcmp(names[n], name) == 0)
            return n;
    return 0;
}

/* lines with four fields that are not empty */
static void try_lines(const char *name) {
    static char line[65536];
    static struct vector v;
    FILE *f = open_vectors(name);
    while (fgets(line, sizeof line, f)) {
        char *fields[4] = {strtok(line, "\t\n"), strtok(NULL, "\t\n"), strtok(NULL, "\t\n"), strtok(NULL, "\t\n")};
        if (!fields[3] || strlen(fields[2]) > LABEL_ROOM)
            continue;
        v.notation = notation_of(fields[1]);
        v.size = strlen(fields[2]);
        memcpy(v.label, fields[2], v.size);
        try_rewrite(&v, notation_of(fields[3]));
        try_everywhere(&v);
    }
    fclose(f);
}

static uint32_t some_notation(void) {
    static const uint32_t wild[] = {0, 5, 255, 256, 257, 65537, 0x80000000, 0x80000001, UINT32_MAX};
    unsigned choice = below(40);
    return choice == 0 ? wild[below(9)] : choice == 1 ? (uint32_t)next_random() : 1 + below(4);
}

/* the second label of a conversion: any, or the first, or the first in another notation */
static void make_second(const struct vector *a, struct vector *b) {
    unsigned kind = below(3);
    *b = *a;
    if (kind == 0) {
        b->notation = some_notation();
        b->size = random_label(b->label, b->notation);
    } else if (kind == 1) {
        uint32_t target = 1 + below(4);
        struct thalinguze_rewritten r = thalinguze_rewrite(a->notation, a->label, a->size, target, b->label, sizeof b->label);
        b->notation = r.number == 0 ? target : a->notation;
        b->size = r.number == 0 ? r.length : a->size;
    }
}

static void try_random(void) {
    static struct vector a, b;
    a.notation = some_notation();
    a.size = random_label(a.label, a.notation);
    make_second(&a, &b);
    try_read(&a);
    try_rewrite(&a, some_notation());
    try_words(&a);
    try_convert(&a, &b);
}

static bool report(const struct tally *t) {
    printf("%lu labels or pairs %s, %lu accepted; ", t->inputs, t->call, t->accepted);
    return t->accepted >= t->inputs / 10;
}

int main(int argc, char **argv) {
    unsigned long inputs = argc > 1 ? strtoul(argv[1], NULL, 10) : 100000;
    first_arena = make_arena(LABEL_ROOM + 2 * GUARD);
    second_arena = make_arena(LABEL_ROOM + 2 * GUARD);
    buffer_arena = make_arena(BUFFER_ROOM + 2 * GUARD);
    try_nulls();
    try_all_sizes();
    try_all_sizes_of_words();
    try_file("vectors/readings.tsv", try_everywhere);
    try_file("vectors/symbols.tsv", try_here);
    try_file("vectors/starlink.tsv", try_here);
    try_pairs("vectors/converts.tsv");
    try_lines("vectors/lines.in");
    read_vectors("vectors/readings.tsv");
    for (unsigned long i = 0; i < inputs; i++)
        try_random();
    bool enough = report(&reading);
    enough = report(&rewriting.tally) && enough;
    enough = report(&speaking.tally) && enough;
    enough = report(&converting) && enough;
    printf("%lu watched buffers (seed %lu), %lu wrong\n", lendings, SEED, wrong);
    return wrong != 0 || !enough;
}
