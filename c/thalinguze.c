/* The command thalinguze: its arguments, its help and its exit status. */
#include <strings.h>
#include "command.h"

static const char help[] = /* the sign % is for the notations */
    "usage: thalinguze read NOTATION LABEL           what a unit label means\n"
    "       thalinguze rewrite FROM LABEL TO         the label in another notation\n"
    "       thalinguze convert FROM LABEL TO LABEL   the factor between two labels\n"
    "       thalinguze words NOTATION LABEL          the label as it is spoken\n"
    "       thalinguze list NOTATION                 the units that a notation knows\n"
    "       thalinguze read --vectors, convert --vectors   both for programs\n"
    "       thalinguze --version, --help\n"
    "A notation is %s, in small or\n"
    "capital letters. read also takes all, for every notation. A label is one\n"
    "argument: put quotes round it. With --long, read and convert leave nothing out.\n"
    "  thalinguze read cds 'kg/m.s'\n"
    "  thalinguze rewrite cds '10+3pix/h' ogip\n"
    "  thalinguze convert cds km/h fits m/s\n"
    "  thalinguze words cds 'kg/m.s' | espeak-ng\n"
    "A term is above the line if its exponent is positive, below if it is negative.\n"
    "A unit is known if the notation has it. A prefix is lawful on a unit that takes\n"
    "prefixes. Angstrom, erg, gauss and barn are known, but not recommended. What is\n"
    "suggested for a refused label is accepted, and its units are known.\n"
    "read answers on standard output, also where it refuses. rewrite, convert and\n"
    "words print their result alone there, and a refusal on standard error.\n"
    "Exit status: 0 accepted (read all: in one notation at least), 1 refused, 2 a\n"
    "wrong call, a malformed line, or a failure to read or write.\n"
    "--vectors reads lines from standard input: the number of a notation, a space and\n"
    "the label's bytes in hexadecimal, or - for the empty label; for convert, a space\n"
    "and the same again. It prints each line with its answer, in the formats of\n"
    "vectors/README.md, and names malformed lines on standard error.\n";

/* the notations' names, with their numbers */
static struct text notation_list(void) {
    struct text t = {0};
    for (uint32_t n = 1; n <= NOTATIONS; n++)
        put(&t, "%s%s (%u)", n == 1 ? "" : n < NOTATIONS ? ", " : " or ", notation_words[n].argument, (unsigned)n);
    return t;
}

static int wrong_call(const char *what, const char *more) {
    fprintf(stderr, "thalinguze: %s%s\nFor help: thalinguze --help\n", what, more);
    return WRONG_CALL;
}

/* the number of a notation's name; 0 for any other text */
static uint32_t notation_of(const char *name) {
    for (uint32_t n = 1; n <= NOTATIONS; n++)
        if (strcasecmp(name, notation_words[n].argument) == 0 || strcasecmp(name, notation_words[n].name) == 0)
            return n;
    return 0;
}

/* reads a label in the notations from the first to the last; where they are several, it is said first which accept it */
static int read_label(uint32_t first, uint32_t last, const char *label, bool in_full) {
    int status = REFUSED;
    struct text names[2] = {{0}, {0}};
    for (uint32_t n = first; n <= last; n++)
        put(&names[accepts(n, label)], ", %s", notation_words[n].name);
    if (first < last)
        printf("Accepted in %s. Refused in %s.\n\n", names[1].length ? names[1].s + 2 : "none", names[0].length ? names[0].s + 2 : "none");
    for (uint32_t n = first; n <= last; n++) {
        struct reading r = ask(n, label);
        if (first < last)
            printf("%sIn %s: ", n > first ? "\n" : "", notation_words[n].name);
        if (r.number == THALINGUZE_ACCEPTED)
            report_reading(n, label, r.record, in_full);
        else
            report_refusal(stdout, n, label, r.number);
        status = r.number == THALINGUZE_ACCEPTED ? 0 : status;
    }
    return status;
}

/* a command with its words, without --long */
static int run_command(int count, char **words, bool in_full) {
    static const char *const names[] = {"read", "rewrite", "convert", "list", "words"};
    static const int counts[] = {3, 4, 5, 2, 3};
    int c = 0;
    while (c < 5 && (count == 0 || strcmp(words[0], names[c]) != 0))
        c++;
    if (c == 5)
        return wrong_call("the first word must be read, rewrite, convert, words or list", "");
    if (count == 2 && strcmp(words[1], "--vectors") == 0 && (c == 0 || c == 2))
        return print_vectors(c == 2);
    if (count != counts[c])
        return wrong_call("there are too few words or too many; put quotes round a label with spaces or brackets", "");
    if (c == 0 && strcasecmp(words[1], "all") == 0)
        return read_label(1, NOTATIONS, words[2], in_full);
    uint32_t from = notation_of(words[1]), to = c == 1 || c == 2 ? notation_of(words[3]) : from;
    if (from == 0 || to == 0)
        return wrong_call("there is no such notation; a notation is ", notation_list().s);
    return c == 0 ? read_label(from, from, words[2], in_full) : c == 1 ? rewrite_label(from, words[2], to)
         : c == 2 ? convert_labels(from, words[2], to, words[4], in_full) : c == 3 ? list_units(from) : speak_label(from, words[2]);
}

int main(int argc, char **argv) {
    char *words[6] = {0};
    bool in_full = false, wants_help = false;
    int count = 0, status = 0;
    for (int i = 1; i < argc; i++) {
        in_full |= strcmp(argv[i], "--long") == 0;
        wants_help |= strcmp(argv[i], "--help") == 0 || strcmp(argv[i], "-h") == 0;
        if (strcmp(argv[i], "--long") != 0 && count < 6)
            words[count++] = argv[i];
    }
    if (wants_help)
        printf(help, notation_list().s);
    else if (count == 1 && strcmp(words[0], "--version") == 0)
        printf("thalinguze %s\n", THALINGUZE_VERSION_STRING);
    else
        status = run_command(count, words, in_full);
    bool failed = fflush(stdout) != 0 || ferror(stdout);
    if (failed)
        perror("thalinguze: standard output");
    return failed ? WRONG_CALL : status;
}
