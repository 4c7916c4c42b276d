// A console that seeks: it finds where to start decoding for an instant, and feeds the decoder without a copy.
#include "galumper.h"

#include <inttypes.h>
#include <stdio.h>
#include <stdlib.h>
#include <string.h>

// Where a frame's bytes are.
typedef struct {
    int file;
    size_t start, end;
} place;

// The initialization bytes, then segments with one track of up to 64 frames. They stay where they are.
static uint8_t files[9][100000];
static size_t lengths[9];
static place places[9 * GALUMPER_BATCH]; // by a frame's number
static galumper_listed_frame frames[GALUMPER_BATCH];
static galumper_buffer buffer;
static galumper_fate fates[GALUMPER_BATCH_FATES];

// A refusal that nobody expects ends the program.
static void check(uint32_t refusal) {
    if (refusal != GALUMPER_DONE) {
        fprintf(stderr, "refused %" PRIu32 ": %s\n", refusal, galumper_refusal_name(refusal));
        exit(EXIT_FAILURE);
    }
}

// Where the media data of a segment begins, past the header of its box: with one track, the frames stand there one after the other. A box
// whose size has 64 bits is not read here. Where none is found, every frame's place overruns the segment, and what is fed is empty.
static size_t media_data(const uint8_t *segment, size_t length) {
    for (size_t at = 0, size = 8; size >= 8 && at + 8 <= length; at += size) {
        const uint8_t *box = segment + at;
        size = (size_t)box[0] << 24 | (size_t)box[1] << 16 | (size_t)box[2] << 8 | box[3];
        if (size >= 8 && memcmp(box + 4, "mdat", 4) == 0) {
            return at + 8;
        }
    }
    return length;
}

// Appends the frames of a segment, and keeps where each is, by the number that it is about to have.
static void append(int file) {
    // The initialization segment has them: the ID in tkhd, the timescale in mdhd, the defaults in trex.
    const galumper_segment_track of = {.id = 1, .track = 1, .timescale = 12800, .duration = 0, .size = 0, .flags = 0};
    const galumper_answer listed = galumper_list_segment(of, files[file], lengths[file], frames, GALUMPER_BATCH);
    check(listed.refusal);
    place at = {.file = file, .start = 0, .end = media_data(files[file], lengths[file])};
    for (size_t i = 0; i < listed.count; i++) {
        at.start = at.end;
        at.end += (size_t)frames[i].size;
        places[buffer.head.last + 1 + i] = at;
    }
    const galumper_batch batch = galumper_append_batch(&buffer, frames, listed.count, fates, GALUMPER_BATCH_FATES);
    check(batch.refusal ? batch.refusal : batch.stop);
}

// Feeds the decoder, which here tells how many bytes it is fed: the initialization bytes, or the part of a segment.
static void feed(bool whole, place at) {
    const galumper_bytes fed = galumper_feed(files[0], lengths[0], files[at.file], lengths[at.file], whole, at.start, at.end);
    printf(" %zu", fed.length);
}

// Shows what the track has at an instant.
static void show(int64_t instant) {
    const galumper_start start = galumper_seek(&buffer, 1, instant);
    if (start.refusal != GALUMPER_DONE) {
        printf("%" PRId64 ": %s\n", instant, galumper_refusal_name(start.refusal));
        return;
    }
    printf("%" PRId64 ": frame %" PRIu32 ", %zu to decode from frame %" PRIu32 " on:", instant, start.target, start.count, start.flagged);
    size_t row = 0;
    while (buffer.tags[row][3] != start.flagged) {
        row++;
    }
    const uint32_t group = buffer.tags[row][4];
    feed(true, places[start.flagged]);
    for (size_t left = start.count; left > 0; row++) {
        if (buffer.tags[row][4] == group) { // frames of other groups, which may stand between, are passed over
            feed(false, places[buffer.tags[row][3]]);
            left--;
        }
    }
    printf(" bytes\n");
}

int main(int argc, char **argv) {
    const uint8_t kinds[] = {GALUMPER_VIDEO};
    check(galumper_create(&buffer, kinds, 1).refusal);
    for (int n = 0; n < 9 && n + 1 < argc; n++) {
        FILE *file = fopen(argv[n + 1], "rb");
        check(file ? GALUMPER_DONE : GALUMPER_MALFORMED); // what cannot be read is no segment
        lengths[n] = fread(files[n], 1, sizeof files[n], file);
        fclose(file);
        if (n > 0) {
            append(n);
        }
    }
    show(400000);
    show(530000);
    show(610000);
}
