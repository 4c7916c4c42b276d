// Writes the words of every refusal of the table, and of every cause with a number to each side.
#include "galumper.h"

#include <inttypes.h>
#include <stdio.h>

int main(void) {
    for (uint32_t refusal = GALUMPER_ILL_FORMED; refusal <= GALUMPER_NO_START; refusal++) {
        printf("refusal %" PRIu32 ": %s\n", refusal, galumper_refusal_name(refusal));
    }
    for (uint32_t cause = 0; cause <= GALUMPER_REMOVED + 1; cause++) {
        printf("cause %" PRIu32 ": %s\n", cause, galumper_cause_name(cause));
    }
    return 0;
}
