// Offers frames whose flag is neither 0 nor 1, each with one fault more that is refused before or after it.
#include "galumper.h"

#include <inttypes.h>
#include <stdio.h>
#include <string.h>

static galumper_buffer buffer, before;
static galumper_fate fates[GALUMPER_FATES], lent[GALUMPER_FATES];

// Tells how a frame is refused, and whether a refusal left a trace.
static void offer(const char *what, galumper_offered frame, size_t lines) {
    memcpy(&before, &buffer, sizeof buffer);
    memcpy(lent, fates, sizeof fates);
    const uint32_t refusal = galumper_append(&buffer, frame, fates, lines).refusal;
    const bool same = memcmp(&before, &buffer, sizeof buffer) == 0 && memcmp(lent, fates, sizeof fates) == 0;
    printf("%s: refused %" PRIu32 "%s\n", what, refusal, refusal != GALUMPER_DONE && !same ? ", and changed" : "");
}

int main(void) {
    const uint8_t kinds[] = {GALUMPER_VIDEO, GALUMPER_AUDIO};
    galumper_offered frame = {.track = 1, .flagged = 2, .duration = 40000, .pts = 0, .dts = 0};
    memset(fates, 0x5a, sizeof fates);
    if (galumper_create(&buffer, kinds, 2).refusal != GALUMPER_DONE) {
        return 1;
    }
    offer("a flag of 2", frame, GALUMPER_FATES);
    frame.flagged = 255;
    offer("a flag of 255", frame, GALUMPER_FATES);
    frame.duration = 0;
    offer("and a duration of 0", frame, GALUMPER_FATES);
    buffer.head.last = UINT32_MAX;
    offer("and the last number given", frame, GALUMPER_FATES);
    frame.track = 3;
    offer("and no such track", frame, GALUMPER_FATES);
    offer("and a short fate list", frame, GALUMPER_FATES - 1);
    buffer.head.settings.offset.bits = UINT64_C(0x7ff4deadbeef0042); // a NaN
    offer("and a buffer that is not well-formed", frame, GALUMPER_FATES - 1);

    galumper_create(&buffer, kinds, 2);
    const galumper_offered point = {.track = 1, .flagged = 1, .duration = 40000, .pts = 0, .dts = 0};
    const galumper_offered after = {.track = 1, .flagged = 0, .duration = 40000, .pts = 40000, .dts = 40000};
    offer("a flag of 1", point, GALUMPER_FATES);
    offer("a flag of 0", after, GALUMPER_FATES);
    return 0;
}
