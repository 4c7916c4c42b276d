// Seeks in a buffer of two tracks, and tells what each call answered.
#include "galumper.h"

#include <inttypes.h>
#include <stdio.h>
#include <string.h>

static galumper_buffer buffer, before;
static galumper_fate fates[GALUMPER_FATES];

// Offers a frame that lasts 100 microseconds. It is stored, and takes the place of none.
static void append(uint32_t track, uint8_t flagged, int64_t pts, int64_t dts) {
    const galumper_offered frame = {.track = track, .flagged = flagged, .duration = 100, .pts = pts, .dts = dts};
    const galumper_answer answer = galumper_append(&buffer, frame, fates, GALUMPER_FATES);
    if (answer.refusal != GALUMPER_DONE || answer.count > 0) {
        printf("refused %" PRIu32 ", count %zu\n", answer.refusal, answer.count);
    }
}

// Tells of a call, which changes nothing.
static void seek(const char *call, uint32_t track, int64_t instant) {
    memcpy(&before, &buffer, sizeof buffer);
    const galumper_start start = galumper_seek(&before, track, instant);
    const bool same = memcmp(&before, &buffer, sizeof buffer) == 0;
    printf("%s: refused %" PRIu32 ", target %" PRIu32 ", flagged %" PRIu32 ", count %zu%s\n", call, start.refusal, start.target,
           start.flagged, start.count, same ? "" : ", and touched the buffer");
}

int main(void) {
    const uint8_t kinds[] = {GALUMPER_VIDEO, GALUMPER_AUDIO};
    if (galumper_create(&buffer, kinds, 2).refusal != GALUMPER_DONE) {
        return 1;
    }
    seek("nothing stored", 1, 0);
    append(1, 1, 0, 0);
    append(1, 0, 500, 150);
    galumper_abort(&buffer);
    append(1, 1, 100, 50);
    append(1, 0, 200, 200);
    append(1, 1, 300, 250);
    append(2, 1, INT64_C(5000000000), INT64_C(5000000000));
    append(2, 0, INT64_C(5000000100), INT64_C(5000000100));
    seek("past a random access point of another group", 1, 550);
    seek("past a frame of another group", 1, 250);
    seek("the last of a frame", 1, 399);
    seek("the first of a frame", 1, 0);
    seek("an end", 1, 400);
    seek("before all", 1, -1);
    seek("the least instant", 1, INT64_MIN);
    seek("the greatest instant", 1, INT64_MAX);
    seek("track 2", 2, INT64_C(5000000199));
    seek("track 2, the lower half of the instant", 2, INT64_C(705032903));
    seek("track 2, what track 1 has", 2, 250);
    seek("track 0", 0, 0);
    seek("track 3, no such instant", 3, -1);
    buffer.tags[0][1] = 0; // the first frame is no random access point any more
    seek("no random access point of its group", 1, 550);
    seek("nor is it itself", 1, 0);
    seek("another group", 1, 250);
    buffer.head.mode = 2;
    seek("an ill-formed buffer", 1, 250);
    seek("an ill-formed buffer, no such track", 3, 250);
    return 0;
}
