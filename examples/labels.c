/* Reads a label, rewrites it in another notation, converts from one
   label to another, and speaks a label. */
#include <stdio.h>
#include <string.h>
#include <thalinguze.h>

/* a label as the calls take it: its bytes, and how many they are */
#define LABEL(text) (const uint8_t *)(text), strlen(text)

static void read_label(uint32_t notation, const char *label) {
    uint8_t record[THALINGUZE_RECORD_SIZE];
    uint32_t refusal = thalinguze_read(notation, LABEL(label),
                                       record, sizeof record);
    if (refusal != THALINGUZE_ACCEPTED) {
        printf("%s is refused, number %u\n", label, (unsigned)refusal);
        return;
    }
    for (unsigned i = 0; i < thalinguze_count(record); i++)
        printf("unit %d, exponent %d sixtieths\n",
               thalinguze_term_unit(record, i),
               thalinguze_term_exponent(record, i));
}

/* what rewriting and words answer */
static void print_result(const char *label, const char *how,
                         struct thalinguze_rewritten answer,
                         const uint8_t *result) {
    if (answer.number != THALINGUZE_ACCEPTED)
        printf("%s is refused, number %u\n", label,
               (unsigned)answer.number);
    else
        printf("%s is %s as %.*s\n", label, how,
               (int)answer.length, (const char *)result);
}

static void rewrite_label(uint32_t source, const char *label,
                          uint32_t target) {
    uint8_t result[THALINGUZE_MAX_LABEL_SIZE];
    struct thalinguze_rewritten answer = thalinguze_rewrite(
        source, LABEL(label), target, result, sizeof result);
    print_result(label, "rewritten", answer, result);
}

static void speak_label(uint32_t notation, const char *label) {
    uint8_t words[THALINGUZE_MAX_WORDS_SIZE];
    struct thalinguze_rewritten answer = thalinguze_words(
        notation, LABEL(label), words, sizeof words);
    print_result(label, "spoken", answer, words);
}

static void convert_label(uint32_t first, const char *from,
                          uint32_t second, const char *to) {
    uint8_t record[THALINGUZE_CONVERSION_SIZE];
    uint32_t refusal = thalinguze_convert(
        first, LABEL(from), second, LABEL(to), record, sizeof record);
    if (refusal != THALINGUZE_ACCEPTED)
        printf("%s to %s is refused, number %u\n", from, to,
               (unsigned)refusal);
    else
        printf("%s to %s: times %lld/%lld times ten to the %d\n",
               from, to, (long long)thalinguze_numerator(record),
               (long long)thalinguze_denominator(record),
               thalinguze_conversion_k(record));
}

int main(void) {
    if (thalinguze_version() / 10000 != THALINGUZE_VERSION_MAJOR) {
        printf("the library is not one of %s\n",
               THALINGUZE_VERSION_STRING);
        return 1;
    }
    read_label(THALINGUZE_CDS, "kg/m.s");
    read_label(THALINGUZE_FITS, "kg/m.s");
    rewrite_label(THALINGUZE_CDS, "10+3pix/h", THALINGUZE_OGIP);
    convert_label(THALINGUZE_CDS, "km/h", THALINGUZE_CDS, "m/s");
    speak_label(THALINGUZE_CDS, "kg/m.s");
    return 0;
}
