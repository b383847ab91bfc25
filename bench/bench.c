/* How long reading, rewriting, converting and words take and how much stack, as tables in Markdown: bench. The figures are ratios of one run: in
   each round every reader reads all labels, and the best round of each counts. Nothing is timed before the readers agree on every label.
   bench library I, bench before I: one reading of spelling I, for a count of its instructions. */
#define _POSIX_C_SOURCE 200809L
#include <time.h>
#include "../tests/labels.h"
#include "../tests/painted.h"
#include "others.h"
#include "reader.h"

enum { LABELS = 1000, ROUNDS = 120, PASSES = 2, LABEL_BYTES = 40000, NOTATIONS = THALINGUZE_STARLINK, MAX_READERS = 3, RANDOM_LABELS = 50000 };

#ifdef HAVE_BEFORE
reader before_read;
static reader *const read_before = before_read;
#else
static reader *const read_before = NULL;
#endif

static const char *const files[NOTATIONS + 1] = {NULL, "bench/labels-fits.txt", "bench/labels-ogip.txt", "bench/labels-cds.txt",
                                                 "bench/labels-vou.txt", "bench/labels-starlink.txt"};
static const char *const notation_names[NOTATIONS + 1] = {NULL, "FITS", "OGIP", "CDS", "VOUnits", "Starlink"};

struct text {
    const uint8_t *bytes; /* a 0 byte follows */
    size_t size;
};
struct list {
    uint32_t notation;
    unsigned count;
    struct text texts[LABELS];
};
static struct list lists[NOTATIONS + 1];
static uint8_t record[ROOM_FOR_RECORD];

/* LABELS */

static void fail(const char *what, uint32_t notation, const uint8_t *label, size_t size) {
    printf("%s: notation %u, %.*s\n", what, (unsigned)notation, (int)size, (const char *)label);
    exit(1);
}

static void read_list(uint32_t notation) {
    static char bytes[NOTATIONS + 1][LABEL_BYTES];
    struct list *list = &lists[notation];
    FILE *f = fopen(files[notation], "r");
    if (!f) {
        perror(files[notation]);
        exit(2);
    }
    char *text = bytes[notation];
    list->notation = notation;
    while (list->count < LABELS && fgets(text, (int)(bytes[notation] + LABEL_BYTES - text), f)) {
        size_t size = strcspn(text, "\n");
        text[size] = 0;
        list->texts[list->count++] = (struct text){(const uint8_t *)text, size};
        text += size + 1;
    }
    fclose(f);
    if (list->count != LABELS) {
        printf("%s has fewer than %d labels\n", files[notation], LABELS);
        exit(2);
    }
}

/* whether the reader in plain C gives the library's answer and record, and the reader before the same answer */
static uint32_t check_label(uint32_t notation, const uint8_t *label, size_t size) {
    static uint8_t ours[THALINGUZE_RECORD_SIZE], plain[THALINGUZE_RECORD_SIZE];
    memset(ours, 0x55, sizeof ours);
    memset(plain, 0x55, sizeof plain);
    uint32_t number = thalinguze_read(notation, label, size, ours, sizeof ours);
    if (bench_read(notation, label, size, plain, sizeof plain) != number || memcmp(ours, plain, sizeof ours) != 0)
        fail("the reader in plain C differs", notation, label, size);
    if (read_before && read_before(notation, label, size, record, sizeof record) != number)
        fail("the reader before differs", notation, label, size);
    return number;
}

static void check_all(void) {
    static uint8_t label[LABEL_ROOM];
    unsigned long accepted = 0;
    for (uint32_t notation = 1; notation <= NOTATIONS; notation++)
        for (unsigned i = 0; i < LABELS; i++)
            if (check_label(notation, lists[notation].texts[i].bytes, lists[notation].texts[i].size) != 0)
                fail("refused", notation, lists[notation].texts[i].bytes, lists[notation].texts[i].size);
    for (unsigned long i = 0; i < RANDOM_LABELS; i++) {
        uint32_t notation = below(NOTATIONS + 2);
        accepted += check_label(notation, label, random_label(label, notation)) == 0;
    }
    printf("The readers agree on the %d labels of the lists and on %d random labels, %lu of them accepted.\n\n", NOTATIONS * LABELS,
           RANDOM_LABELS, accepted);
}

/* TIME */

/* the processor's time, so that other programs count little */
static double now(void) {
    struct timespec t;
    clock_gettime(CLOCK_THREAD_CPUTIME_ID, &t);
    return (double)t.tv_sec * 1e9 + (double)t.tv_nsec;
}

static double time_once(reader *read, const struct list *list, unsigned passes) {
    volatile uint32_t sink = 0;
    double from = now();
    for (unsigned pass = 0; pass < passes; pass++)
        for (unsigned i = 0; i < list->count; i++)
            sink += read(list->notation, list->texts[i].bytes, list->texts[i].size, record, sizeof record);
    return (now() - from) / passes / list->count;
}

/* the best time a label of each reader that is not NULL */
static void time_readers(reader *const *readers, double *best, const struct list *list, unsigned passes) {
    for (unsigned i = 0; i < MAX_READERS; i++)
        best[i] = 1e18;
    for (unsigned round = 0; round < ROUNDS; round++)
        for (unsigned i = 0; i < MAX_READERS; i++)
            if (readers[i] && list->count > 0) {
                double ns = time_once(readers[i], list, passes);
                best[i] = ns < best[i] ? ns : best[i];
            }
}

static void print_row_beside(const char *name, const double *ns) {
    printf("| %s | %.0f | %.0f | %.2f |", name, ns[0], ns[1], ns[0] / ns[1]);
    if (read_before)
        printf(" %.0f | %.2f |", ns[2], ns[0] / ns[2]);
    printf("\n");
}

/* the library, the reader in plain C and the reader before */
static void table_of_readers(void) {
    reader *const readers[MAX_READERS] = {thalinguze_read, bench_read, read_before};
    double ns[MAX_READERS], sums[MAX_READERS] = {0};
    printf("| ns a label | library | plain C | library / plain C |%s\n", read_before ? " before | library / before |" : "");
    printf("|---|---|---|---|%s\n", read_before ? "---|---|" : "");
    for (uint32_t notation = 1; notation <= NOTATIONS; notation++) {
        time_readers(readers, ns, &lists[notation], PASSES);
        print_row_beside(notation_names[notation], ns);
        for (unsigned i = 0; i < MAX_READERS; i++)
            sums[i] += ns[i] / NOTATIONS;
    }
    print_row_beside("all five", sums);
    printf("\nAt most 3 times plain C: %s, %.2f.\n\n", sums[0] <= 3 * sums[1] ? "reached" : "not reached", sums[0] / sums[1]);
}

/* another call beside reading; the limit is 2.5 times a reading */
static void table_of_calls(const char *name, reader *call) {
    reader *const readers[MAX_READERS] = {call, thalinguze_read, NULL};
    double ns[MAX_READERS], most = 0;
    printf("| ns a label | %s | reading | ratio |\n|---|---|---|---|\n", name);
    for (uint32_t notation = 1; notation <= NOTATIONS; notation++) {
        time_readers(readers, ns, &lists[notation], PASSES);
        printf("| %s | %.0f | %.0f | %.2f |\n", notation_names[notation], ns[0], ns[1], ns[0] / ns[1]);
        most = ns[0] / ns[1] > most ? ns[0] / ns[1] : most;
    }
    printf("\nAt most 2.5 times a reading: %s, %.2f.\n\n", most <= 2.5 ? "reached" : "not reached", most);
}

static uint32_t read_byte_by_byte(uint32_t notation, const uint8_t *label, size_t size, uint8_t *buffer, size_t buffer_size) {
    static uint8_t state[THALINGUZE_STATE_SIZE];
    thalinguze_begin(notation, state, sizeof state);
    for (size_t i = 0; i < size; i++)
        thalinguze_part(state, sizeof state, label + i, 1);
    return thalinguze_end(state, sizeof state, buffer, buffer_size);
}

/* labels in two parts and byte by byte, beside one call; what one part takes is from the difference of the first two */
static void table_of_parts(void) {
    reader *const readers[MAX_READERS] = {read_in_parts, read_byte_by_byte, thalinguze_read};
    double ns[MAX_READERS];
    printf("| ns a label | in two parts | byte by byte | at once | two parts / at once | ns a part of one byte |\n|---|---|---|---|---|---|\n");
    for (uint32_t notation = 1; notation <= NOTATIONS; notation++) {
        size_t bytes = 0;
        for (unsigned i = 0; i < LABELS; i++)
            bytes += lists[notation].texts[i].size;
        time_readers(readers, ns, &lists[notation], PASSES);
        printf("| %s | %.0f | %.0f | %.0f | %.2f | %.0f |\n", notation_names[notation], ns[0], ns[1], ns[2], ns[0] / ns[2],
               (ns[1] - ns[0]) / ((double)bytes / LABELS - 2));
    }
    printf("\n");
}

static struct list taken_by(reader *read, const struct list *from) {
    struct list taken = {.notation = from->notation};
    for (unsigned i = 0; i < from->count; i++)
        if (read(from->notation, from->texts[i].bytes, from->texts[i].size, record, sizeof record) == 0)
            taken.texts[taken.count++] = from->texts[i];
    return taken;
}

/* another library, on the labels that it takes; the ratio on FITS labels */
static double table_beside(const char *name, reader *read) {
    double of_fits = 0;
    if (!read) {
        printf("Not measured beside %s: it is not installed.\n\n", name);
        return 0;
    }
    printf("| ns a label that %s takes | labels | library | %s | library / %s |\n|---|---|---|---|---|\n", name, name, name);
    for (uint32_t notation = 1; notation <= NOTATIONS; notation++) {
        reader *const readers[MAX_READERS] = {thalinguze_read, read, NULL};
        double ns[MAX_READERS];
        struct list taken = taken_by(read, &lists[notation]);
        time_readers(readers, ns, &taken, PASSES);
        if (taken.count > 0)
            printf("| %s | %u | %.0f | %.0f | %.2f |\n", notation_names[notation], taken.count, ns[0], ns[1], ns[0] / ns[1]);
        if (notation == THALINGUZE_FITS)
            of_fits = ns[0] / ns[1];
    }
    printf("\n");
    return of_fits;
}

/* LOOKUPS */

/* FITS labels of one spelling: known, known and long, and unknown */
static const char *const spellings[] = {"m", "solMass", "xxxxxxxxxxxxxxxxxxxx", NULL};

/* the spelling of that place; the last is as long as a label can be */
static struct text spelling(unsigned i) {
    static uint8_t longest[LABEL_ROOM];
    if (spellings[i])
        return (struct text){(const uint8_t *)spellings[i], strlen(spellings[i])};
    memset(longest, 'x', THALINGUZE_MAX_LABEL_SIZE);
    return (struct text){longest, THALINGUZE_MAX_LABEL_SIZE};
}

static void table_of_spellings(void) {
    reader *const readers[MAX_READERS] = {thalinguze_read, bench_read, read_before};
    printf("| ns a FITS label of one spelling | library | plain C | library / plain C |%s\n", read_before ? " before | library / before |" : "");
    printf("|---|---|---|---|%s\n", read_before ? "---|---|" : "");
    for (unsigned i = 0; i < sizeof spellings / sizeof spellings[0]; i++) {
        static struct list one;
        double ns[MAX_READERS];
        char name[64];
        one = (struct list){.notation = THALINGUZE_FITS, .count = 1, .texts = {spelling(i)}};
        time_readers(readers, ns, &one, 400);
        if (one.texts[0].size < 8)
            snprintf(name, sizeof name, "`%s`", spellings[i]);
        else
            snprintf(name, sizeof name, "an unknown one of %zu letters", one.texts[0].size);
        print_row_beside(name, ns);
    }
    printf("\n");
}

/* one reading of the spelling of that place, for a count of its instructions */
static int read_once(reader *read, unsigned i) {
    struct text text = spelling(i);
    return read ? (int)read(THALINGUZE_FITS, text.bytes, text.size, record, sizeof record) : 2;
}

/* GROWTH */

/* one label in each notation: time, and the largest use of stack */
static void print_growth(const char *what, unsigned number, uint8_t made[NOTATIONS + 1][LABEL_ROOM], const size_t *sizes) {
    reader *const readers[MAX_READERS] = {thalinguze_read, NULL, read_before};
    size_t most = 0, most_before = 0, largest = 0;
    printf("| %s %u |", what, number);
    for (uint32_t notation = 1; notation <= NOTATIONS; notation++)
        largest = sizes[notation] > largest ? sizes[notation] : largest;
    printf(" %zu |", largest);
    for (uint32_t notation = 1; notation <= NOTATIONS; notation++) {
        static struct list one;
        double ns[MAX_READERS];
        one.notation = notation;
        one.count = 1;
        one.texts[0] = (struct text){made[notation], sizes[notation]};
        time_readers(readers, ns, &one, 400);
        printf(" %.0f |", ns[0]);
        struct call call = {thalinguze_read, notation, made[notation], sizes[notation], sizeof record};
        size_t use = stack_use(call);
        call.read = read_before;
        size_t before = read_before ? stack_use(call) : 0;
        most = use > most ? use : most;
        most_before = before > most_before ? before : most_before;
    }
    printf(" %zu |", most);
    if (read_before)
        printf(" %zu |", most_before);
    printf("\n");
}

/* the opening so many times, the core, and the closing as many times; an opening of one sign for each notation */
static void growth_row(const char *what, unsigned times, const char *const *opening, const char *core, const char *closing) {
    static uint8_t made[NOTATIONS + 1][LABEL_ROOM];
    size_t sizes[NOTATIONS + 1] = {0};
    for (uint32_t notation = 1; notation <= NOTATIONS; notation++) {
        for (unsigned i = 0; i < times; i++)
            sizes[notation] = add(made[notation], sizes[notation], opening[notation]);
        sizes[notation] = add(made[notation], sizes[notation], core);
        for (unsigned i = 0; i < times; i++)
            sizes[notation] = add(made[notation], sizes[notation], closing);
    }
    print_growth(what, times + (core[0] != 0 && closing[0] == 0), made, sizes);
}

static void table_of_growth(void) {
    static const char *const letters[] = {"", "x", "x", "x", "x", "x"}, *const joined[] = {"", "km ", "km ", "km.", "km.", "km*"};
    static const char *const brackets[] = {"", "(", "(", "(", "(", "("};
    static const unsigned bytes[] = {0, 1, 7, 31, 127, 254}, terms[] = {1, 2, 4, 8, 16, 24, 32}, depths[] = {1, 2, 3, 4, 5, 6, 7, 8, 127};
    printf("| label | bytes | FITS ns | OGIP ns | CDS ns | VOUnits ns | Starlink ns | most stack, bytes |%s\n", read_before ? " before |" : "");
    printf("|---|---|---|---|---|---|---|---|%s\n", read_before ? "---|" : "");
    for (size_t i = 0; i < sizeof bytes / sizeof bytes[0]; i++)
        growth_row("letters of one unknown unit:", bytes[i], letters, "x", "");
    for (size_t i = 0; i < sizeof terms / sizeof terms[0]; i++)
        growth_row("terms `km`:", terms[i] - 1, joined, "km", "");
    for (size_t i = 0; i < sizeof depths / sizeof depths[0]; i++)
        growth_row("brackets around `m`:", depths[i], brackets, "m", ")");
    growth_row("opening brackets alone:", 255, brackets, "", "");
    growth_row("terms `km`, refused:", 84, joined, "km", "");
    printf("\n");
}

int main(int argc, char **argv) {
    if (argc == 3)
        return read_once(strcmp(argv[1], "before") == 0 ? read_before : thalinguze_read, (unsigned)atoi(argv[2]));
    bench_prepare();
    prepare_others();
    read_vectors("vectors/readings.tsv");
    for (uint32_t notation = 1; notation <= NOTATIONS; notation++)
        read_list(notation);
    check_all();
    table_of_readers();
    table_of_calls("rewriting in VOUnits", rewrite_in_vounits);
    /* which reads the label twice */
    table_of_calls("converting to itself", convert_to_itself);
    table_of_calls("words", write_as_words);
    table_of_parts();
    double beside_wcslib = table_beside("wcslib", read_by_wcslib);
    if (beside_wcslib > 0)
        printf("At most 0.4 of wcslib on FITS labels: %s, %.2f.\n\n", beside_wcslib <= 0.4 ? "reached" : "not reached", beside_wcslib);
    table_beside("udunits2", read_by_udunits);
    table_of_spellings();
    table_of_growth();
    return 0;
}
