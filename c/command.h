/* What the parts of the command offer each other. Labels end in a byte 0. */
#ifndef COMMAND_H
#define COMMAND_H

#include <limits.h>
#include <stdarg.h>
#include <stdbool.h>
#include <stdio.h>
#include <string.h>
#include "words.h"

enum { REFUSED = 1, WRONG_CALL = 2, TEXT_ROOM = 4096 }; /* exit statuses; how many bytes a text has */
/* Text that is added to, ended by a byte 0; starts as {0}. What does not fit is left out; a label of that length is refused anyway. */
struct text {
    size_t length;
    char s[TEXT_ROOM];
};
__attribute__((format(printf, 2, 3))) void put(struct text *t, const char *format, ...);

/* ask.c: the library's answers */
struct reading {
    uint32_t number;                        /* 0 if the label is accepted */
    uint8_t record[THALINGUZE_RECORD_SIZE]; /* all zeros if it is refused */
};
struct reading ask(uint32_t notation, const char *label);
bool accepts(uint32_t notation, const char *label);
bool is_sound(uint32_t notation, const char *label); /* accepted, every unit known, every prefix lawful */
uint32_t ask_rewriting(uint32_t source, const char *label, uint32_t target, struct text *result);
uint32_t ask_words(uint32_t notation, const char *label, struct text *words);
int unit_of(const char *symbol);                  /* the code of a unit, or 0 */
const char *name_in(uint32_t notation, int unit); /* the first of a unit's names that the notation knows, or NULL */
struct text spelling_of(const char *label, const uint8_t *record, unsigned i);
bool same_terms(const uint8_t *a, const uint8_t *b, bool units); /* the same k and exponents, and if asked the same prefixes and units */
/* say.c: sizes and numbers in words */
void put_sixtieths(struct text *t, int64_t sixtieths, const char *over); /* in lowest terms, with that for a fraction line */
void say_power(struct text *t, int64_t sixtieths);
void say_dimensions(struct text *t, const uint8_t *record);
void say_size(struct text *t, const uint8_t *record);
int say_fraction(struct text *t, int64_t n, int64_t d, int64_t k); /* n/d times ten to the k; -1, 0, 1 if it is below, at or above 1 */
/* signs.c: the label with signs replaced that no label has; false where one cannot be. The signs are named in the reasons. */
bool replace_signs(uint32_t notation, const char *label, struct text *plain, struct text *reasons);
const struct sign_word *find_sign(unsigned code);
/* habits.c: forms that a notation does not have, replaced by those that it has */
enum habit { ENDS, FACTORS, JOINTS, POWERS, SPACES, HABITS };
bool replace_habits(uint32_t notation, const char *label, struct text *result, bool used[HABITS]); /* whether it is accepted then */
size_t leading_number(const char *label, int *k); /* its length, with what joins it to the rest; INT_MAX if it is no power of ten */
size_t exponent_length(const char *label, size_t at, struct text *exponent); /* of an exponent after a unit that ends there, or 0 */
char joint_in(uint32_t notation);
void put_below(const char *label, char joint, struct text *result); /* with brackets round all that follows a slash in its group */
bool put_terms(uint32_t notation, const char *label, const uint8_t *record, struct text *result); /* the record's split, as written there */
/* spelling.c: an accepted label with its unknown units spelled so that they are known; M is mega or milli. False where it cannot be. */
bool respell(uint32_t notation, const char *label, bool mega, struct text *result);
/* faults.c: explanations where no label can be suggested */
__attribute__((format(printf, 2, 3))) void give_reason(struct text *reasons, const char *format, ...); /* a line, once */
bool blame_meaning(uint32_t notation, const char *label, struct text *reasons); /* functions, square brackets, other numbers; whether there are any */
void blame_forms(uint32_t notation, const char *label, struct text *reasons);
/* advice.c: what is wrong with a label, and what to write instead. A suggestion is accepted and sound in the notation. */
enum { MAX_SUGGESTIONS = 6 };
enum claim {
    SAME,   /* other forms, but the same spellings, exponents and power of ten */
    NEXT,   /* so, if a slash puts only what comes straight after it below the line */
    REST,   /* so, if it puts all that follows below */
    ASKED,  /* as SAME, with other spellings: a question */
    ANOTHER /* what the label is in the source, rewritten by the library */
};
struct advice {
    uint32_t notation;
    struct text plain;   /* the label after replace_signs */
    struct text reasons; /* a sentence on each line */
    unsigned count;
    struct suggestion {
        enum claim claim;
        uint32_t source;
        char label[THALINGUZE_MAX_LABEL_SIZE + 1];
    } list[MAX_SUGGESTIONS];
};
void advise(struct advice *a, uint32_t notation, const char *label, uint32_t number); /* on one accepted or refused with that number */
/* report.c: a reading told to a person: the answer in the first sentence, then one fact on each line */
void report_reading(uint32_t notation, const char *label, const uint8_t *record, bool in_full);
void report_refusal(FILE *out, uint32_t notation, const char *label, uint32_t number);
/* commands.c, vectors.c: the commands; each returns the exit status */
int rewrite_label(uint32_t source, const char *label, uint32_t target);
int convert_labels(uint32_t first, const char *label, uint32_t second, const char *other, bool in_full);
int list_units(uint32_t notation);
int speak_label(uint32_t notation, const char *label);
int print_vectors(bool converting);

#endif
