/* The version of the library: the one call that is C. */
#include "../include/thalinguze.h"

uint32_t thalinguze_version(void) {
    return THALINGUZE_VERSION_NUMBER;
}
