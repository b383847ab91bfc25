/* The label with the longest words, which are THALINGUZE_MAX_WORDS_SIZE bytes: a CDS label of THALINGUZE_MAX_LABEL_SIZE bytes. */
#ifndef LONGEST_H
#define LONGEST_H

#define FIVE_TIMES(text) text text text text text

/* a factor, 31 times /hAU, and an unknown unit of 125 letters */
#define LONGEST_LABEL "10-9" FIVE_TIMES(FIVE_TIMES("/hAU") "/hAU") "/hAU/h" FIVE_TIMES(FIVE_TIMES(FIVE_TIMES("x")))

#endif
