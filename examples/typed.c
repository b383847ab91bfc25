/* Reads labels that are typed: each byte of standard input is sent as it
   comes, and a newline ends a label. */
#include <stdio.h>
#include <stdlib.h>
#include <thalinguze.h>
#include <unistd.h>

static void end_label(uint8_t *state, size_t size) {
    uint8_t record[THALINGUZE_RECORD_SIZE];
    uint32_t refusal = thalinguze_end(state, size, record, sizeof record);
    if (refusal == THALINGUZE_ACCEPTED)
        printf("accepted, terms: %u\n", thalinguze_count(record));
    else
        printf("refused, number %u\n", (unsigned)refusal);
}

int main(int argc, char **argv) {
    uint8_t state[THALINGUZE_STATE_SIZE], byte;
    uint32_t notation = argc > 1 ? (uint32_t)atoi(argv[1]) : THALINGUZE_CDS;
    size_t typed = 0;
    thalinguze_begin(notation, state, sizeof state);
    while (read(STDIN_FILENO, &byte, 1) == 1) {
        if (byte != '\n') {
            thalinguze_part(state, sizeof state, &byte, 1);
            typed++;
            continue;
        }
        end_label(state, sizeof state);
        thalinguze_begin(notation, state, sizeof state);
        typed = 0;
    }
    if (typed > 0)
        end_label(state, sizeof state);
    return 0;
}
