// Takes a segment made by hand in lumps, and tells what each call answered, wrote and left.
#include "galumper.h"

#include <inttypes.h>
#include <stdio.h>
#include <string.h>

#define SIZE (GALUMPER_LUMP + 8)
#define PLACES 4

static const uint8_t segment[] = {
    0, 0, 0, 8, 'f', 'r', 'e', 'e',
    0, 0, 0, 64, 'm', 'o', 'o', 'f',
    0, 0, 0, 56, 't', 'r', 'a', 'f',
    0, 0, 0, 16, 't', 'f', 'h', 'd', 0, 0, 0, 0, 0, 0, 0, 3, // track ID 3
    0, 0, 0, 16, 't', 'f', 'd', 't', 0, 0, 0, 0, 0, 0, 0, 90, // from 90
    0, 0, 0, 16, 't', 'r', 'u', 'n', 0, 0, 0, 0, 0, 0, 0, 2, // two samples by default
    0, 0, 0, 1, 'm', 'd', 'a', 't', 0, 0, 0, 0, 0, 0, 0, 20, 1, 2, 3, 4,
};
static const uint8_t large[] = {0, 1, 0, 1, 'm', 'o', 'o', 'f'};

static galumper_segment_track of = {.id = 3, .track = 2, .timescale = 90, .duration = 2, .size = 400, .flags = 65536};
static galumper_lump_reader reader, before;
static uint8_t buffer[SIZE], lent[SIZE], longer[GALUMPER_LUMP + 1];
static galumper_listed_frame frames[PLACES], rest[PLACES];

// Whether a call that answered so left the places past its count, the bytes past those that are kept, and if it was refused everything.
static bool left(galumper_answer answer, bool last) {
    const bool refused = answer.refusal != GALUMPER_DONE;
    const size_t count = answer.count, kept = refused || last ? 0 : reader.kept;
    return memcmp(frames + count, rest + count, (PLACES - count) * sizeof *frames) == 0
        && memcmp(buffer + kept, lent + kept, SIZE - kept) == 0 && (!refused || memcmp(&reader, &before, sizeof reader) == 0);
}

static void take(const char *call, size_t size, const uint8_t *lump, size_t length, bool last, size_t places) {
    before = reader;
    memcpy(lent, buffer, SIZE);
    memset(frames, 0x5a, sizeof frames);
    const galumper_answer answer =
        galumper_take_lump(&reader, of, size ? buffer : NULL, size, lump, length, last, places ? frames : NULL, places);
    printf("%s: refused %" PRIu32 ", count %zu%s\n", call, answer.refusal, answer.count, left(answer, last) ? "" : ", and touched more");
    for (size_t i = 0; i < answer.count; i++) {
        const galumper_listed_frame row = frames[i];
        printf("  track %" PRId64 ", pts %" PRId64 ", dts %" PRId64 ", duration %" PRId64 ", flagged %" PRId64 ", size %" PRId64 "\n",
               row.track, row.pts, row.dts, row.duration, row.flagged, row.size);
    }
}

// A lump of so many bytes from a place of the segment on, without the end.
static void more(size_t from, size_t length) {
    take("more", GALUMPER_LUMP, segment + from, length, false, 0);
    printf("  seen %zu, left %" PRIu64 ", kept %zu, phase %" PRIu32 ", fragments %" PRIu32 ", in the buffer", reader.seen, reader.left,
           reader.kept, reader.phase, reader.fragments);
    for (size_t i = reader.kept < 4 ? 0 : reader.kept - 4; i < reader.kept; i++) {
        printf(" %d", buffer[i]);
    }
    printf("\n");
}

// Whether the library's own functions, which this header's call chooses from, hand back the reader that they refused.
static bool handed_back(void) {
    const galumper_lumped more = galumper_lent_take_lump(reader, buffer, SIZE, segment, 1);
    const galumper_lumped last = galumper_lent_take_last(reader, of, buffer, SIZE, segment, 1, frames, PLACES);
    return memcmp(&more.reader, &reader, sizeof reader) == 0 && memcmp(&last.reader, &reader, sizeof reader) == 0;
}

int main(void) {
    const galumper_lump_reader zeros = {.phase = 0}, fresh = galumper_fresh_reader();
    memset(buffer, 0x5a, SIZE);
    memset(rest, 0x5a, sizeof rest);
    printf("a fresh reader is %s\n", memcmp(&fresh, &zeros, sizeof fresh) == 0 ? "zeros" : "something");
    more(0, 3);
    more(3, 13);
    more(16, 30);
    take("nothing", SIZE, NULL, 0, false, 0);
    take("too long a lump", SIZE, longer, GALUMPER_LUMP + 1, false, 0);
    take("too short a buffer", GALUMPER_LUMP - 1, segment + 46, 1, false, 0);
    take("no buffer", 0, NULL, 0, true, 0);
    take("a byte too few", SIZE, segment + 46, 45, true, PLACES);
    take("no place", SIZE, segment + 46, 46, true, 0);
    of.timescale = 0;
    take("no timescale", SIZE, segment + 46, 46, true, 0);
    of.timescale = 90;
    take("the rest", SIZE, segment + 46, 46, true, PLACES);
    take("and again", SIZE, NULL, 0, true, PLACES);
    more(0, 72);
    more(72, 8);
    more(80, 10);
    more(90, 2);
    take("a large movie fragment", SIZE, large, sizeof large, false, 0);
    take("a byte less of it, and the end", SIZE, large, sizeof large - 1, true, PLACES);
    take("as many places", GALUMPER_LUMP, NULL, 0, true, 2);
    take("all at once", GALUMPER_LUMP, segment, sizeof segment, true, 2);
    reader.phase = UINT32_MAX;
    take("an ill-formed reader", 0, longer, GALUMPER_LUMP + 1, true, 0);
    printf("the library hands %s back\n", handed_back() ? "the same" : "another");
    return 0;
}
