// Reads a media segment of the recorder from a file, and appends its frames.
#include "galumper.h"

#include <inttypes.h>
#include <stdio.h>
#include <stdlib.h>

static uint8_t segment[1000000];
static galumper_listed_frame frames[1000];
static galumper_buffer buffer;
static galumper_fate fates[GALUMPER_FATES];
static galumper_range ranges[GALUMPER_RANGES];

// Gives the count that a call answered. A refusal ends the program.
static size_t done(galumper_answer answer) {
    if (answer.refusal != GALUMPER_DONE) {
        fprintf(stderr, "refused %" PRIu32 ": %s\n", answer.refusal, galumper_refusal_name(answer.refusal));
        exit(EXIT_FAILURE);
    }
    return answer.count;
}

int main(int argc, char **argv) {
    FILE *file = argc == 2 ? fopen(argv[1], "rb") : NULL;
    if (!file) {
        fprintf(stderr, "the name of a media segment is missing\n");
        return EXIT_FAILURE;
    }
    const size_t length = fread(segment, 1, sizeof segment, file);
    fclose(file);
    const uint8_t kinds[] = {GALUMPER_VIDEO};
    done(galumper_create(&buffer, kinds, 1));

    // The initialization segment has them: the ID in tkhd, the timescale in mdhd, the defaults in trex.
    const galumper_segment_track of = {.id = 1, .track = 1, .timescale = 12800, .duration = 0, .size = 0, .flags = 0};
    const size_t count = done(galumper_list_segment(of, segment, length, frames, sizeof frames / sizeof *frames));
    int64_t bytes = 0;
    for (size_t i = 0; i < count; i++) {
        const galumper_listed_frame row = frames[i];
        const galumper_offered frame = {.track = (uint32_t)row.track, .flagged = (uint8_t)row.flagged,
                                        .duration = (uint32_t)row.duration, .pts = row.pts, .dts = row.dts};
        done(galumper_append(&buffer, frame, fates, GALUMPER_FATES));
        bytes += row.size;
    }
    printf("%zu frames of %" PRId64 " bytes\n", count, bytes);
    const size_t held = done(galumper_track_ranges(&buffer, 1, ranges, GALUMPER_RANGES));
    for (size_t i = 0; i < held; i++) {
        printf("held from %" PRId64 " to %" PRId64 "\n", ranges[i].start, ranges[i].end);
    }
    return EXIT_SUCCESS;
}
