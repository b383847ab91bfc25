/* Other readers of unit labels, in the form of thalinguze_read. Each takes a label that ends with a 0 byte, leaves the record alone and
   returns 0 where it takes the label. NULL where the library was not installed when this was built. */
#ifndef BENCH_OTHERS_H
#define BENCH_OTHERS_H

#include "../tests/reader.h"

extern reader *const read_by_wcslib, *const read_by_udunits;

/* Loads what the other readers need. To be called once. */
void prepare_others(void);

#endif
