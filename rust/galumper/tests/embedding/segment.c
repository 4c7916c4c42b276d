// Lists a segment made by hand, and tells what each call answered and wrote.
#include "galumper.h"

#include <inttypes.h>
#include <stdio.h>
#include <string.h>

#define PLACES 5

static const uint8_t segment[] = {
    0, 0, 0, 8, 'f', 'r', 'e', 'e',
    0, 0, 0, 96, 'm', 'o', 'o', 'f',
    0, 0, 0, 88, 't', 'r', 'a', 'f',
    0, 0, 0, 16, 't', 'f', 'h', 'd', 0, 2, 0, 0, 0, 0, 0, 3, // track ID 3
    0, 0, 0, 16, 't', 'f', 'd', 't', 0, 0, 0, 0, 0, 0, 0, 90, // from 90
    0, 0, 0, 32, 't', 'r', 'u', 'n', 1, 0, 15, 0, 0, 0, 0, 1, // one sample, with all that it can have
    0, 0, 0, 3, 0, 0, 1, 244, 0, 0, 0, 0, 255, 255, 255, 255, // duration 3, size 500, flags 0, offset -1
    0, 0, 0, 16, 't', 'r', 'u', 'n', 0, 0, 0, 0, 0, 0, 0, 2, // two samples by default
};

static const galumper_segment_track track = {.id = 3, .track = 2, .timescale = 90, .duration = 2, .size = 400, .flags = 65536};
static galumper_listed_frame frames[PLACES], before[PLACES];

// Tells of a call on a list that holds no frame, whose places past the count shall not be touched.
static void list(const char *call, galumper_segment_track of, const uint8_t *bytes, size_t length, size_t places) {
    memset(frames, 0x5a, sizeof frames);
    const galumper_answer answer = galumper_list_segment(of, bytes, length, places ? frames : NULL, places);
    const size_t count = answer.count;
    const bool same = memcmp(frames + count, before + count, (PLACES - count) * sizeof *frames) == 0;
    printf("%s: refused %" PRIu32 ", count %zu%s\n", call, answer.refusal, count, same ? "" : ", and touched the rest");
    for (size_t i = 0; i < count; i++) {
        const galumper_listed_frame row = frames[i];
        printf("  track %" PRId64 ", pts %" PRId64 ", dts %" PRId64 ", duration %" PRId64 ", flagged %" PRId64 ", size %" PRId64 "\n",
               row.track, row.pts, row.dts, row.duration, row.flagged, row.size);
    }
}

int main(void) {
    const size_t length = sizeof segment;
    memset(before, 0x5a, sizeof before);
    list("list", track, segment, length, PLACES);
    list("as many places", track, segment, length, 3);
    list("a place too few", track, segment, length, 2);
    list("no place", track, segment, length, 0);
    galumper_segment_track of = track;
    of.id = 1;
    list("another track", of, segment, length, PLACES);
    list("another track, no place", of, segment, length, 0);
    of = track;
    of.duration = 0;
    list("a frame that does not last", of, segment, length, 0);
    of = track;
    of.timescale = 1000001;
    list("too fine a timescale", of, segment, length, 0);
    of.timescale = 0;
    list("no timescale", of, segment, length, 0);
    list("and a byte less", of, segment, length - 1, 0);
    list("no movie fragment", track, segment, 8, PLACES);
    list("no segment", track, NULL, 0, PLACES);
    return 0;
}
