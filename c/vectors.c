/* Lines of vectors/readings.tsv and vectors/converts.tsv: what is given is read from standard input, the library's answer is added. */
#define _POSIX_C_SOURCE 200809L
#include <inttypes.h>
#include <stdlib.h>
#include "command.h"

/* a notation number and a label, in hexadecimal until it is decoded in place */
struct given {
    uint32_t notation;
    uint8_t *label;
    size_t size;
};

/* takes a number, a space and pairs of hexadecimal digits, or a hyphen for none; where that ends, or NULL if it is malformed */
static char *take(char *line, struct given *g) {
    char *number = line + (*line == '-'), *hex = number + strspn(number, "0123456789") + 1;
    if (hex == number + 1 || hex[-1] != ' ')
        return NULL;
    unsigned long long value = strtoull(number, NULL, 10);
    size_t digits = strspn(hex, "0123456789abcdefABCDEF");
    g->notation = *line != '-' && value <= UINT32_MAX ? (uint32_t)value : 0; /* 0 is no notation either */
    g->label = (uint8_t *)hex;
    g->size = digits / 2;
    return *hex == '-' ? hex + 1 : digits && digits % 2 == 0 ? hex + digits : NULL;
}

static void decode(struct given *g) {
    for (size_t i = 0; i < g->size; i++) {
        const char pair[] = {(char)g->label[2 * i], (char)g->label[2 * i + 1], 0};
        g->label[i] = (uint8_t)strtoul(pair, NULL, 16);
    }
}

static void put_term(struct text *t, const struct given *g, const uint8_t *record, unsigned i) {
    int prefix = thalinguze_term_prefix(record, i), unit = thalinguze_term_unit(record, i);
    size_t start = thalinguze_term_start(record, i), length = thalinguze_term_length(record, i);
    size_t first = thalinguze_term_letters_start(record, i), count = thalinguze_term_letters_length(record, i);
    put(t, "%s%zu+%zu:", i ? " " : "", start, length);
    put(t, prefix ? "ten^%d:" : "-:", prefix_words[prefix].power);
    if (unit != THALINGUZE_UNIT_UNKNOWN)
        put(t, "%s:", unit_words[unit][SYMBOL]);
    else /* a quoted spelling goes on after the letters */
        put(t, "?%.*s%s:", (int)count, (const char *)g->label + first, first + count < start + length ? "'" : "");
    put_sixtieths(t, thalinguze_term_exponent(record, i), "/");
}

static int by_symbol(const void *a, const void *b) {
    return strcmp(base_symbols[*(const unsigned *)a], base_symbols[*(const unsigned *)b]);
}

static void put_reading(struct text *t, const struct given *g) {
    uint8_t record[THALINGUZE_RECORD_SIZE] = {0};
    unsigned order[THALINGUZE_BASES], count = 0;
    uint32_t number = thalinguze_read(g->notation, g->label, g->size, record, sizeof record);
    put(t, " %u k=%d %c%c%c place=0 [", (unsigned)number, thalinguze_k(record), "ny"[thalinguze_known(record)],
        "ny"[thalinguze_lawful(record)], "ny"[thalinguze_recommended(record)]);
    for (unsigned i = 0; i < thalinguze_count(record); i++)
        put_term(t, g, record, i);
    for (unsigned b = 0; b < THALINGUZE_BASES; b++)
        if (thalinguze_dimension(record, b))
            order[count++] = b;
    qsort(order, count, sizeof order[0], by_symbol);
    put(t, "] {");
    for (unsigned i = 0; i < count; i++) {
        put(t, "%s%s:", i ? " " : "", base_symbols[order[i]]);
        put_sixtieths(t, thalinguze_dimension(record, order[i]), "/");
    }
    put(t, "}");
    for (unsigned p = 0; p < THALINGUZE_PRIMES; p++) {
        put(t, p ? "/" : " ");
        put_sixtieths(t, thalinguze_scale(record, p), "/");
    }
}

static void put_conversion(struct text *t, const struct given *g, const struct given *h) {
    uint8_t record[THALINGUZE_CONVERSION_SIZE];
    uint32_t number = thalinguze_convert(g->notation, g->label, g->size, h->notation, h->label, h->size, record, sizeof record);
    int64_t n = number ? 0 : thalinguze_numerator(record), d = number ? 1 : thalinguze_denominator(record);
    put(t, " %u %" PRId64 " %" PRId64 " %d", (unsigned)number, n, d, number ? 0 : thalinguze_conversion_k(record));
}

/* prints a line with the answer; false if it is malformed */
static bool print_line(char *line, const char *end, bool converting) {
    struct given first, second = {0};
    struct text answer = {0};
    char *rest = take(line, &first);
    if (rest && converting)
        rest = *rest == ' ' ? take(rest + 1, &second) : NULL;
    if (rest != end)
        return false;
    fputs(line, stdout);
    decode(&first);
    decode(&second);
    if (converting)
        put_conversion(&answer, &first, &second);
    else
        put_reading(&answer, &first);
    puts(answer.s);
    return true;
}

int print_vectors(bool converting) {
    char *line = NULL;
    size_t room = 0;
    int status = 0;
    ssize_t size;
    setvbuf(stdout, NULL, _IOLBF, 0); /* an answer to each line at once, for a program that waits for it */
    for (size_t number = 1; !ferror(stdout) && (size = getline(&line, &room, stdin)) >= 0; number++) {
        if (line[size - 1] == '\n')
            line[--size] = 0;
        if (!print_line(line, line + size, converting)) {
            fprintf(stderr, "thalinguze: line %zu is malformed: it needs a notation number, one space, and bytes in hexadecimal or -%s\n",
                    number, converting ? ", one space, and the same again" : "");
            status = WRONG_CALL;
        }
    }
    free(line);
    if (ferror(stdin))
        perror("thalinguze: standard input");
    return ferror(stdin) ? WRONG_CALL : status;
}
