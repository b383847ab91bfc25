/* Labels that come in parts: typing [COUNT [STEP]]. Every label of vectors/ (or of STEP labels the first) is cut in two at every place, sent byte by
   byte, and cut at random; COUNT labels made at random are cut at random; labels of 254 to 70,000 bytes (or 1,000) come in parts of many sizes; and
   COUNT states of random bytes get parts and ends. The answers are those of thalinguze_read to the whole label, and every byte of a state is that of a plain
   model, which takes one byte at a time. The bounds of states, parts and records are watched. */
#define _DEFAULT_SOURCE
#include "arena.h"
#include "labels.h"

enum {
    FILL = 0xA5, PAST = 8, STATE_ROOM = THALINGUZE_STATE_SIZE + PAST, LONG_ROOM = 70000, RECORD_ROOM = THALINGUZE_RECORD_SIZE + PAST,
    COUNT_PLACE = 4, ENDED_PLACE = 8, TYPED_PLACE = THALINGUZE_STATE_LABEL, NOTATIONS = THALINGUZE_STARLINK + 2
};

/* a lent state, as bytes */
struct typed {
    size_t size;
    uint8_t bytes[STATE_ROOM];
};

static struct arena state_arena, part_arena, long_part_arena, record_arena;
static unsigned long lendings, labels, accepted, refused[THALINGUZE_AFTER_THE_END + 1], live, over, wrong;

static void check(bool good, const char *what, const struct typed *t, const uint8_t *part, size_t part_size) {
    lendings++;
    if (good)
        return;
    printf("%s wrongly: a state of %zu bytes ", what, t->size);
    for (size_t i = 0; i < t->size; i++)
        printf("%02x", t->bytes[i]);
    printf(", %zu bytes sent ", part_size);
    for (size_t i = 0; i < part_size && i < 300; i++)
        printf("%02x", part[i]);
    printf("\n");
    if (++wrong > 20)
        exit(1);
}

static unsigned state_place(void) {
    return (unsigned)(lendings % PLACES);
}

static unsigned other_place(void) {
    return (unsigned)(lendings / PLACES % PLACES);
}

/* THE MODEL */

static uint32_t number_at(const uint8_t *at) {
    return at[0] | (uint32_t)at[1] << 8 | (uint32_t)at[2] << 16 | (uint32_t)at[3] << 24;
}

static bool has_ended(const struct typed *t) {
    return t->size < THALINGUZE_STATE_SIZE || t->bytes[ENDED_PLACE] != 0 || number_at(t->bytes + COUNT_PLACE) > 256;
}

/* a byte is kept where there is room for it, and counted as far as 256 */
static void type_byte(struct typed *t, uint8_t byte) {
    uint32_t count = number_at(t->bytes + COUNT_PLACE);
    if (count < 255)
        t->bytes[TYPED_PLACE + count] = byte;
    if (count < 256)
        count++;
    t->bytes[COUNT_PLACE] = (uint8_t)(count & 255);
    t->bytes[COUNT_PLACE + 1] = (uint8_t)(count >> 8);
}

/* THE CALLS, each beside the model */

static void begin(struct typed *t, uint32_t notation) {
    uint8_t *state = place_copy(&state_arena, t->bytes, t->size, state_place(), FILL);
    uint32_t number = thalinguze_begin(notation, state, t->size);
    bool room = t->size >= THALINGUZE_STATE_SIZE;
    if (room) {
        memset(t->bytes, 0, THALINGUZE_STATE_SIZE);
        for (unsigned i = 0; i < 4; i++)
            t->bytes[i] = (uint8_t)(notation >> 8 * i);
    }
    check(number == (room ? 0 : 16) && holds_only(&state_arena, state, t->bytes, t->size, FILL), "begun", t, NULL, 0);
}

static void send(struct typed *t, const uint8_t *bytes, size_t size) {
    struct arena *arena = size <= LABEL_ROOM ? &part_arena : &long_part_arena;
    uint8_t *state = place_copy(&state_arena, t->bytes, t->size, state_place(), FILL), *part = place_copy(arena, bytes, size, other_place(), FILL);
    uint32_t number = thalinguze_part(state, t->size, part, size);
    bool ended = has_ended(t);
    struct typed before = *t;
    for (size_t i = 0; i < size && !ended; i++)
        type_byte(t, bytes[i]);
    check(number == (ended ? 16 : 0) && holds_only(&state_arena, state, t->bytes, t->size, FILL) && holds_only(arena, part, bytes, size, FILL), "sent",
          &before, bytes, size);
}

/* the answer, with the record in a buffer of `lent` bytes beside the one of the one-call reader */
static uint32_t end(struct typed *t, size_t lent) {
    uint8_t whole[THALINGUZE_RECORD_SIZE];
    uint32_t notation = number_at(t->bytes), count = number_at(t->bytes + COUNT_PLACE), wanted;
    bool ended = has_ended(t);
    struct typed before = *t;
    if (ended)
        wanted = 16;
    else if (count > 255)
        wanted = notation >= 1 && notation <= THALINGUZE_STARLINK ? 2 : 1;
    else
        wanted = thalinguze_read(notation, t->bytes + TYPED_PLACE, count, whole, sizeof whole);
    uint8_t *state = place_copy(&state_arena, t->bytes, t->size, state_place(), FILL), *record = place(&record_arena, lent, other_place(), FILL);
    uint32_t number = thalinguze_end(state, t->size, record, lent);
    size_t written = wanted != 0 ? 0 : lent < sizeof whole ? lent : sizeof whole;
    if (!ended)
        t->bytes[ENDED_PLACE] = 1;
    check(number == wanted && holds_only(&state_arena, state, t->bytes, t->size, FILL) && holds_only(&record_arena, record, whole, written, FILL),
          "ended", &before, NULL, 0);
    refused[wanted]++;
    return number;
}

/* LABELS IN PARTS */

/* sizes of a record's buffer: the whole record, the next size, or about the whole */
static size_t some_size(void) {
    return labels % 3 == 0 ? THALINGUZE_RECORD_SIZE : labels % 3 == 1 ? labels % (RECORD_ROOM + 1) : THALINGUZE_RECORD_SIZE - 1 + labels % 5;
}

static void after_the_end(struct typed *t, const uint8_t *label, size_t size) {
    send(t, label, size);
    send(t, NULL, 0);
    end(t, some_size());
}

static struct typed begun(uint32_t notation) {
    struct typed t = {.size = THALINGUZE_STATE_SIZE + labels % (PAST + 1)};
    memset(t.bytes, (int)(labels & 255), sizeof t.bytes);
    begin(&t, notation);
    return t;
}

/* the end must answer what the one-call reader answers to the whole label */
static void finish(struct typed *t, uint32_t notation, const uint8_t *label, size_t size) {
    uint32_t number = end(t, some_size());
    check(number == thalinguze_read(notation, label, size, NULL, 0), "read", t, label, size);
    after_the_end(t, label, size);
    labels++;
    accepted += number == 0;
}

static void cut_in_two(uint32_t notation, const uint8_t *label, size_t size, size_t at) {
    struct typed t = begun(notation);
    send(&t, label, at);
    send(&t, label + at, size - at);
    finish(&t, notation, label, size);
}

static void byte_by_byte(uint32_t notation, const uint8_t *label, size_t size) {
    struct typed t = begun(notation);
    for (size_t i = 0; i < size; i++)
        send(&t, label + i, 1);
    finish(&t, notation, label, size);
}

/* parts of up to `most` bytes, with empty ones among them */
static void cut_at_random(uint32_t notation, const uint8_t *label, size_t size, unsigned most) {
    struct typed t = begun(notation);
    for (size_t at = 0; at < size;) {
        size_t part = below(most + 1);
        part = part < size - at ? part : size - at;
        send(&t, label + at, part);
        at += part;
    }
    finish(&t, notation, label, size);
}

/* a label for each answer */
static void try_answers(void) {
    static const struct {
        uint32_t notation;
        const char *label;
        uint32_t number;
    } samples[] = {
        {THALINGUZE_CDS, "kg/m.s", 0}, {THALINGUZE_STARLINK + 1, "kg/m.s", 1}, {THALINGUZE_CDS, "kg\t", 3}, {THALINGUZE_VOUNITS, "kg/m.s", 4},
        {THALINGUZE_CDS, "m100", 5}, {THALINGUZE_CDS, "(((((((((m)))))))))", 6},
        {THALINGUZE_CDS, "m.m.m.m.m.m.m.m.m.m.m.m.m.m.m.m.m.m.m.m.m.m.m.m.m.m.m.m.m.m.m.m.m", 7},
    };
    for (size_t i = 0; i < sizeof samples / sizeof samples[0]; i++) {
        const uint8_t *label = (const uint8_t *)samples[i].label;
        size_t size = strlen(samples[i].label);
        for (size_t at = 0; at <= size; at++)
            cut_in_two(samples[i].notation, label, size, at);
        struct typed t = begun(samples[i].notation);
        send(&t, label, size);
        check(end(&t, THALINGUZE_RECORD_SIZE) == samples[i].number, "answered", &t, label, size);
    }
}

static void try_vectors(const char *name, unsigned long step) {
    static struct vector v;
    FILE *f = open_vectors(name);
    for (unsigned long line = 0; scan_vector(f, &v); line++, skip_line(f)) {
        if (line % step != 0)
            continue;
        for (size_t at = 0; at <= v.size; at++)
            cut_in_two(v.notation, v.label, v.size, at);
        byte_by_byte(v.notation, v.label, v.size);
        for (unsigned most = 1; most <= 9; most += 2)
            cut_at_random(v.notation, v.label, v.size, most);
    }
    fclose(f);
}

/* about 255 bytes and many more: an accepted label as far as 255 bytes, one that is not in any grammar, and one of bytes that no label has */
static void try_long_labels(size_t most) {
    static const size_t sizes[] = {254, 255, 256, 257, 258, 300, 510, 511, 512, 513, 1000, 65535, 65536, 65792, LONG_ROOM};
    static const uint32_t notations[NOTATIONS] = {0, 1, 2, 3, 4, 5, UINT32_MAX};
    static const uint8_t kinds[] = {'m', ')', 0xff};
    static uint8_t label[LONG_ROOM];
    for (unsigned kind = 0; kind < sizeof kinds; kind++) {
        memset(label, kinds[kind], sizeof label);
        for (unsigned i = 0; i < sizeof sizes / sizeof sizes[0] && sizes[i] <= most; i++)
            for (unsigned n = 0; n < NOTATIONS; n++) {
                static const size_t places[] = {0, 1, 100, 253, 254, 255, 256, 257};
                for (unsigned j = 0; j < sizeof places / sizeof places[0]; j++)
                    cut_in_two(notations[n], label, sizes[i], places[j] < sizes[i] ? places[j] : sizes[i]);
                cut_at_random(notations[n], label, sizes[i], 300);
                if (sizes[i] <= 1000)
                    byte_by_byte(notations[n], label, sizes[i]);
            }
    }
}

/* STATES OF RANDOM BYTES */

/* any bytes; in many of them the label has not ended, and the count is about one at which something changes */
static struct typed random_state(void) {
    static const uint32_t counts[] = {0, 1, 2, 254, 255, 256, 257, 258, 511, 512, 65536, 65791, 0x80000000, UINT32_MAX};
    struct typed t = {.size = below(3) ? THALINGUZE_STATE_SIZE + below(PAST + 1) : below(STATE_ROOM + 1)};
    for (size_t i = 0; i < sizeof t.bytes; i++)
        t.bytes[i] = (uint8_t)next_random();
    if (below(2)) {
        memset(t.bytes, 0, COUNT_PLACE);
        t.bytes[0] = (uint8_t)below(8);
    }
    if (below(8)) {
        uint32_t count = below(2) ? counts[below(sizeof counts / sizeof counts[0])] : below(260);
        for (unsigned i = 0; i < 4; i++)
            t.bytes[COUNT_PLACE + i] = (uint8_t)(count >> 8 * i);
    }
    if (below(4))
        t.bytes[ENDED_PLACE] = 0;
    return t;
}

static void try_random_state(void) {
    static uint8_t label[LABEL_ROOM];
    struct typed t = random_state();
    size_t size = random_label(label, 1 + below(THALINGUZE_STARLINK));
    live += !has_ended(&t);
    over += has_ended(&t);
    if (below(2))
        memcpy(t.bytes + TYPED_PLACE, label, size < 255 ? size : 255);
    if (below(2))
        send(&t, label, size);
    end(&t, below(2) ? THALINGUZE_RECORD_SIZE : below(RECORD_ROOM + 1));
    after_the_end(&t, label, size);
}

/* every size of a state, with a label that is accepted */
static void try_all_sizes(void) {
    for (size_t size = 0; size <= STATE_ROOM; size++)
        for (unsigned i = 0; i < PLACES; i++) {
            struct typed t = {.size = size};
            begin(&t, THALINGUZE_CDS);
            send(&t, (const uint8_t *)"kg/m.s", 6);
            check(end(&t, THALINGUZE_RECORD_SIZE) == (size < THALINGUZE_STATE_SIZE ? 16 : 0), "lent", &t, NULL, 0);
        }
}

/* no state, no part and no record; and a fresh state that ends at once reads the empty label */
static void try_nothing(void) {
    struct typed t = {.size = 0};
    check(thalinguze_begin(THALINGUZE_CDS, NULL, 0) == 16 && thalinguze_part(NULL, 0, NULL, 0) == 16 && thalinguze_end(NULL, 0, NULL, 0) == 16,
          "without a state", &t, NULL, 0);
    for (uint32_t notation = 0; notation < NOTATIONS; notation++) {
        t = begun(notation);
        check(thalinguze_part(t.bytes, t.size, NULL, 0) == 0, "an empty part", &t, NULL, 0);
        check(end(&t, 0) == (notation >= 1 && notation <= THALINGUZE_STARLINK ? 0 : 1), "the empty label", &t, NULL, 0);
    }
}

int main(int argc, char **argv) {
    static const char *const files[] = {"vectors/readings.tsv", "vectors/symbols.tsv", "vectors/decimals.tsv", "vectors/starlink.tsv"};
    unsigned long count = argc > 1 ? strtoul(argv[1], NULL, 10) : 100000, step = argc > 2 ? strtoul(argv[2], NULL, 10) : 1;
    static uint8_t label[LABEL_ROOM];
    state_arena = make_arena(STATE_ROOM + 2 * GUARD);
    part_arena = make_arena(LABEL_ROOM + 2 * GUARD);
    long_part_arena = make_arena(LONG_ROOM + 2 * GUARD);
    record_arena = make_arena(RECORD_ROOM + 2 * GUARD);
    try_nothing();
    try_all_sizes();
    try_answers();
    read_vectors(files[0]);
    for (unsigned i = 0; i < sizeof files / sizeof files[0]; i++)
        try_vectors(files[i], step);
    try_long_labels(step == 1 ? LONG_ROOM : LABEL_ROOM);
    for (unsigned long i = 0; i < count; i++) {
        uint32_t notation = below(NOTATIONS);
        cut_at_random(notation, label, random_label(label, notation), 1 + below(20));
        try_random_state();
    }
    bool each = accepted > 0 && live > 0 && over > 0;
    for (unsigned i = 1; i <= THALINGUZE_TOO_MANY_TERMS; i++)
        if (refused[i] == 0) {
            printf("no label was refused by %u; ", i);
            each = false;
        }
    printf("%lu labels in parts, %lu accepted; %lu random states, %lu that had ended; %lu watched calls (seed %lu), %lu wrong\n", labels, accepted,
           live + over, over, lendings, SEED, wrong);
    return wrong != 0 || !each;
}
