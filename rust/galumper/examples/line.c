// A survey line from bytes to the buffer: the frames of each segment are listed, and appended 64 at a time.
#include "galumper.h"

#include <inttypes.h>
#include <stdio.h>
#include <stdlib.h>

static uint8_t segment[1000000];
static galumper_listed_frame frames[1000];
static galumper_buffer buffer;
static galumper_fate fates[GALUMPER_BATCH_FATES];
static galumper_range ranges[GALUMPER_RANGES];

// A refusal that nobody expects ends the program.
static void check(uint32_t refusal) {
    if (refusal != GALUMPER_DONE) {
        fprintf(stderr, "refused %" PRIu32 ": %s\n", refusal, galumper_refusal_name(refusal));
        exit(EXIT_FAILURE);
    }
}

// Gives the count that a call answered.
static size_t done(galumper_answer answer) {
    check(answer.refusal);
    return answer.count;
}

// Lists the frames of a segment; gives their count.
static size_t list(const char *name) {
    FILE *file = fopen(name, "rb");
    check(file ? GALUMPER_DONE : GALUMPER_MALFORMED); // what cannot be read is no segment
    const size_t length = fread(segment, 1, sizeof segment, file);
    fclose(file);
    // The initialization segment has them: the ID in tkhd, the timescale in mdhd, the defaults in trex.
    const galumper_segment_track of = {.id = 1, .track = 1, .timescale = 12800, .duration = 0, .size = 0, .flags = 0};
    return done(galumper_list_segment(of, segment, length, frames, sizeof frames / sizeof *frames));
}

// The store is full: the ten oldest seconds go.
static void make_room(void) {
    static int oldest = 0; // the seconds before this one are gone
    oldest += 10;
    const size_t removed = done(galumper_remove(&buffer, 0.0, oldest, fates, GALUMPER_BATCH_FATES));
    printf("full after %" PRIu32 " frames: %zu before second %d go\n", buffer.head.last, removed, oldest);
}

// Appends the frames that are listed. Those that a full store did not accept are offered again when there is room.
static void append(size_t count) {
    for (size_t next = 0; next < count;) {
        const size_t left = count - next, nframes = left < GALUMPER_BATCH ? left : GALUMPER_BATCH;
        const galumper_batch batch = galumper_append_batch(&buffer, frames + next, nframes, fates, GALUMPER_BATCH_FATES);
        check(batch.refusal);
        next += batch.accepted;
        if (batch.stop == GALUMPER_FULL) {
            make_room();
        } else {
            check(batch.stop);
        }
    }
}

int main(int argc, char **argv) {
    const uint8_t kinds[] = {GALUMPER_VIDEO};
    done(galumper_create(&buffer, kinds, 1));
    int64_t time = 0; // each segment counts from 0: the timestamp offset puts it after those before
    for (int n = 1; n < argc; n++) {
        const size_t count = list(argv[n]);
        done(galumper_set_offset(&buffer, (double)time / 1000000));
        append(count);
        for (size_t i = 0; i < count; i++) {
            time += frames[i].duration;
        }
    }
    printf("%" PRIu32 " frames, %zu of them stored\n", buffer.head.last, buffer.head.nframes);
    const size_t held = done(galumper_track_ranges(&buffer, 1, ranges, GALUMPER_RANGES));
    for (size_t i = 0; i < held; i++) {
        printf("held from %" PRId64 " to %" PRId64 "\n", ranges[i].start, ranges[i].end);
    }
}
