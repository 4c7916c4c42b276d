// Creates a buffer, and tells whether what was there before was touched.
#include "galumper.h"

#include <inttypes.h>
#include <stdio.h>
#include <string.h>

static galumper_buffer buffer, before;

int main(void) {
    const uint8_t kinds[] = {GALUMPER_VIDEO};
    memset(&before, 0x5a, sizeof before);
    memset(&buffer, 0x5a, sizeof buffer);
    const galumper_answer answer = galumper_create(&buffer, kinds, 1);
    const bool same = memcmp(&buffer, &before, sizeof buffer) == 0;
    printf("%s: refused %" PRIu32 ", %s, and %s\n", galumper_matches() ? "matches" : "does not match", answer.refusal,
           galumper_refusal_name(answer.refusal), same ? "untouched" : "touched");
    return 0;
}
