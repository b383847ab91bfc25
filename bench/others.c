/* wcslib and udunits2 as readers, each where it was installed when this was built. */
#include <stdio.h>
#include <stdlib.h>
#include "others.h"

#ifdef HAVE_WCSLIB
#include <wcslib/wcsunits.h>

static uint32_t by_wcslib(uint32_t notation, const uint8_t *label, size_t label_size, uint8_t *record, size_t record_size) {
    (void)notation, (void)label_size, (void)record, (void)record_size;
    double units[WCSUNITS_NTYPE], scale;
    int function;
    return (uint32_t)wcsulexe((const char *)label, &function, &scale, units, NULL);
}
reader *const read_by_wcslib = by_wcslib;
#else
reader *const read_by_wcslib = NULL;
#endif

#ifdef HAVE_UDUNITS
#include <udunits2.h>

static ut_system *units_of_udunits;

static uint32_t by_udunits(uint32_t notation, const uint8_t *label, size_t label_size, uint8_t *record, size_t record_size) {
    (void)notation, (void)label_size, (void)record, (void)record_size;
    ut_unit *unit = ut_parse(units_of_udunits, (const char *)label, UT_ASCII);
    if (unit == NULL)
        return 1;
    ut_free(unit);
    return 0;
}
reader *const read_by_udunits = by_udunits;

void prepare_others(void) {
    ut_set_error_message_handler(ut_ignore);
    units_of_udunits = ut_read_xml(NULL);
    if (units_of_udunits == NULL) {
        printf("udunits2 finds no units\n");
        exit(2);
    }
}
#else
reader *const read_by_udunits = NULL;

void prepare_others(void) {
}
#endif
