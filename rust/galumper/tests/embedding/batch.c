// Appends batches of frames, and tells what each call answered, wrote and stored.
#include "galumper.h"

#include <inttypes.h>
#include <stdio.h>
#include <string.h>

static galumper_buffer buffer, before;
static galumper_listed_frame frames[GALUMPER_BATCH + 1];
static galumper_fate fates[GALUMPER_BATCH_FATES], lent[GALUMPER_BATCH_FATES];

// Tells of a call; lines past its count shall not be touched, and if it is refused nothing.
static void append(const char *call, size_t nframes, size_t lines) {
    memcpy(&before, &buffer, sizeof buffer);
    memset(fates, 0x5a, sizeof fates);
    const galumper_batch batch = galumper_append_batch(&buffer, nframes ? frames : NULL, nframes, lines ? fates : NULL, lines);
    const size_t count = batch.count;
    const bool rest = memcmp(fates + count, lent + count, (GALUMPER_BATCH_FATES - count) * sizeof *fates) == 0;
    const bool same = batch.refusal == GALUMPER_DONE || memcmp(&before, &buffer, sizeof buffer) == 0;
    printf("%s: refused %" PRIu32 ", stop %" PRIu32 ", accepted %zu, count %zu%s\n", call, batch.refusal, batch.stop, batch.accepted,
           count, rest && same ? "" : ", and touched more");
    for (size_t i = 0; i < count; i++) {
        printf("  frame %" PRIu32 ", cause %" PRIu32 "\n", fates[i].number, fates[i].cause);
    }
}

static void tell_stored(void) {
    for (size_t i = 0; i < buffer.head.nframes; i++) {
        const uint32_t *tag = buffer.tags[i];
        printf("stored: track %" PRIu32 ", pts %" PRId64 ", dts %" PRId64, tag[0], buffer.times[i][0], buffer.times[i][1]);
        printf(", duration %" PRIu32 ", flagged %" PRIu32 ", number %" PRIu32 ", group %" PRIu32 "\n", tag[2], tag[1], tag[3], tag[4]);
    }
}

int main(void) {
    const uint8_t kinds[] = {GALUMPER_VIDEO, GALUMPER_AUDIO};
    memset(lent, 0x5a, sizeof lent);
    if (galumper_create(&buffer, kinds, 2).refusal != GALUMPER_DONE) {
        return 1;
    }
    frames[0] = (galumper_listed_frame){.track = 2, .pts = 0, .dts = 0, .duration = 20000, .flagged = 0, .size = 9};
    frames[1] = (galumper_listed_frame){.track = 2, .pts = 20000, .dts = 10000, .duration = 30000, .flagged = 1, .size = 8};
    frames[2] = (galumper_listed_frame){.track = 1, .pts = -1, .dts = -2, .duration = 40000, .flagged = 1, .size = 7};
    frames[3] = (galumper_listed_frame){.track = 1, .pts = 5, .dts = 4, .duration = 40000, .flagged = 2, .size = 6};
    append("three frames", 3, GALUMPER_BATCH_FATES);
    tell_stored();
    append("and one whose flag is 2", 4, GALUMPER_BATCH_FATES);
    tell_stored();
    frames[0].track = INT64_C(0x100000002);
    append("a track that is none", 4, GALUMPER_BATCH_FATES);
    append("no frames", 0, GALUMPER_BATCH_FATES);
    append("a line too few", 4, GALUMPER_BATCH_FATES - 1);
    append("no frames, no lines", 0, 0);
    append("65 frames", GALUMPER_BATCH + 1, GALUMPER_BATCH_FATES);
    append("65 frames, no lines", GALUMPER_BATCH + 1, 0);
    buffer.head.mode = 2;
    append("65 frames, no lines, an ill-formed buffer", GALUMPER_BATCH + 1, 0);
    append("nothing, an ill-formed buffer", 0, 0);
    return 0;
}
