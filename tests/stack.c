/* How much stack a call takes at most: stack [LIMIT] [COUNT]. Reads labels of repeated parts, as deep and as long as 255 bytes allow,
   under the notation numbers 0 to 6, and COUNT random labels, rewrites each in VOUnits, converts each to itself and writes each as words. Bytes
   are counted from the caller's frame on. */
#define _POSIX_C_SOURCE 200809L
#include "labels.h"
#include "longest.h"
#include "painted.h"

enum { LIMIT = 48 * 1024, REPEATS = 5 };

/* a label: the start, then some times the opening, the core, and as many times the closing */
struct shape {
    const char *start, *opening, *core, *closing;
};

static const struct shape shapes[] = {
    /* brackets */
    {"", "(", "", ""}, {"", "(", "m", ")"}, {"", "(", "m", ""}, {"", "((m)", "", ")"}, {"", "(", "m**(1/2)", ")"}, {"", "(", "m(1/2)", ")"},
    {"", ")", "", ""}, {"m**", "(", "", ""}, {"m", "(", "1", ")"}, {"10**", "(", "1", ")"}, {"", "()", "", ""},
    /* every joint, 128 units where it has one byte */
    {"", "m ", "m", ""}, {"", "m.", "m", ""}, {"", "m*", "m", ""}, {"", "m/", "m", ""}, {"", "m  ", "m", ""}, {"", "m * ", "m", ""},
    {"", "m / ", "m", ""}, {"10**3 ", "m ", "m", ""}, {"10+3", "m.", "m", ""}, {"1", "/m", "", ""},
    /* chains of slashes */
    {"", "/", "", ""}, {"", "/", "m", ""}, {"", "/m", "", ""}, {"", " / m", "", ""}, {"m", "//m", "", ""}, {"", "/(", "m", ")"},
    {"", "/(m)", "", ""}, {"", "m/(", "m", ")"}, {"", "(m/", "m", ")"}, {"", "(/", "m", ")"}, {"m", "/(m/m)", "", ""}, {"m", " / ( / m)", "", ""},
    /* groups in products and products in groups */
    {"", "m.(", "m", ")"}, {"", "m (", "m", ")"}, {"", "m*(", "m", ")"}, {"", "(m.", "m", ")"}, {"", "(m ", "m", ")"}, {"", "(m*", "m", ")"},
    {"", "(m).", "m", ""}, {"", "(m) ", "m", ""}, {"", "(m)*", "m", ""}, {"", "((m).", "m", ")"}, {"", "((m) ", "m", ")"},
    {"m.m.m.m/", "(", "m.m/m", ")"}, {"m m m m/", "(", "m m", ")"},
    /* factors, exponents, digits */
    {"1", "0", "m", ""}, {"10**", "9", "m", ""}, {"10**(", "9", ")m", ""}, {"10+", "9", "m", ""}, {"10^(-", "9", ") m", ""}, {"", "10**3 ", "m", ""},
    {"m**(", "9", ")", ""}, {"m**(1.", "9", ")", ""}, {"m**(1/", "9", ")", ""}, {"m(1/", "9", ")", ""}, {"m", "9", "", ""}, {"m-", "9", "", ""},
    {"", "m**(1/2).", "m", ""}, {"", "m(-9999.9999) ", "m", ""}, {"", "m**(1/2)/", "m", ""}, {"", "m2.", "m", ""}, {"", "m**-2 ", "m", ""},
    /* spellings, plain and quoted */
    {"", "M", "", ""}, {"", "da", "", ""}, {"", "solMass.", "m", ""}, {"", "furlong ", "m", ""}, {"", "%.", "%", ""}, {"'", "m", "'", ""},
    {"da'", "m", "'", ""}, {"", "'m'.", "m", ""}, {"", "k'm'.", "m", ""}, {"", "('m'.", "m", ")"}, {"", "'m'**(1/2).", "'m'", ""}, {"", "'", "", ""},
    {"", "'m'", "", ""}, {"10**3'", "m", "'", ""},
    /* the longest words */
    {"", LONGEST_LABEL, "", ""},
};

/* a call, and the label for which it took most */
struct measured {
    const char *name;
    reader *call;
    size_t use, size;
    uint32_t notation;
    uint8_t label[LABEL_ROOM];
};
enum { CALLS = 5 };
static struct measured measured[CALLS] = {
    {.name = "reading", .call = thalinguze_read}, {.name = "rewriting", .call = rewrite_in_vounits},
    {.name = "converting", .call = convert_to_itself}, {.name = "words", .call = write_as_words},
    {.name = "reading in parts", .call = read_in_parts},
};
static unsigned long labels;

/* with room for the whole record, and with less */
static void measure_call(struct measured *m, uint32_t notation, const uint8_t *label, size_t size) {
    size_t record_size = labels % 2 ? labels % THALINGUZE_RECORD_SIZE : ROOM_FOR_RECORD;
    size_t use = stack_use((struct call){m->call, notation, label, size, record_size});
    if (use <= m->use)
        return;
    m->use = use;
    m->size = size;
    m->notation = notation;
    memcpy(m->label, label, size);
}

static void measure(uint32_t notation, const uint8_t *label, size_t size) {
    for (unsigned i = 0; i < CALLS; i++)
        measure_call(&measured[i], notation, label, size);
    labels++;
}

/* the shape with as many repeats as fit into the bytes of a label, and with fewer */
static void measure_shape(const struct shape *shape, unsigned times) {
    static uint8_t label[LABEL_ROOM];
    size_t once = strlen(shape->opening) + strlen(shape->closing), rest = strlen(shape->start) + strlen(shape->core);
    size_t most = (THALINGUZE_MAX_LABEL_SIZE - rest) / once, size = add(label, 0, shape->start);
    if (times == 0 || times > most)
        times = (unsigned)most;
    for (unsigned i = 0; i < times; i++)
        size = add(label, size, shape->opening);
    size = add(label, size, shape->core);
    for (unsigned i = 0; i < times; i++)
        size = add(label, size, shape->closing);
    for (uint32_t notation = 0; notation <= THALINGUZE_STARLINK + 1; notation++) {
        measure(notation, label, size);
        measure(notation, label, size);
    }
}

static void print_label(const struct measured *m) {
    enum { SHOWN = 24 };
    printf("%s: at most %zu bytes of stack, notation %u, %zu bytes, ", m->name, m->use, (unsigned)m->notation, m->size);
    for (size_t i = 0; i < m->size && i < SHOWN; i++)
        putchar(m->label[i] >= 0x20 && m->label[i] < 0x7f ? m->label[i] : '?');
    printf("%s\n", m->size > SHOWN ? ".." : "");
}

int main(int argc, char **argv) {
    static const unsigned repeats[REPEATS] = {0, 8, 9, 31, 32};
    size_t limit = argc > 1 ? strtoul(argv[1], NULL, 10) : LIMIT;
    unsigned long count = argc > 2 ? strtoul(argv[2], NULL, 10) : 30000;
    static uint8_t label[LABEL_ROOM];
    read_vectors("vectors/readings.tsv");
    for (size_t i = 0; i < sizeof shapes / sizeof shapes[0]; i++)
        for (unsigned j = 0; j < REPEATS; j++)
            measure_shape(&shapes[i], repeats[j]);
    for (unsigned i = 0; i < vector_count; i++)
        measure(vectors[i].notation, vectors[i].label, vectors[i].size);
    for (unsigned long i = 0; i < count; i++) {
        uint32_t notation = below(THALINGUZE_STARLINK + 2);
        measure(notation, label, random_label(label, notation));
    }
    size_t most = 0;
    for (unsigned i = 0; i < CALLS; i++) {
        print_label(&measured[i]);
        most = measured[i].use > most ? measured[i].use : most;
    }
    printf("%lu labels through each call took at most %zu bytes of stack, %zu allowed\n", labels, most, limit);
    return most > limit;
}
