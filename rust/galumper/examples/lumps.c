// Segments over the radio link: each comes in lumps, cut anywhere, and its frames are listed when its end is told.
#include "galumper.h"

#include <inttypes.h>
#include <stdio.h>
#include <stdlib.h>

// The initialization segment has them: the ID in tkhd, the timescale in mdhd, the defaults in trex.
static const galumper_segment_track of = {.id = 1, .track = 1, .timescale = 12800, .duration = 0, .size = 0, .flags = 0};

static galumper_lump_reader reader; // zeros: a fresh one
static uint8_t buffer[GALUMPER_LUMP];
static galumper_listed_frame *frames;
static size_t places;

// Doubles the list.
static void lengthen(void) {
    places = places ? 2 * places : 16;
    frames = realloc(frames, places * sizeof *frames);
    if (!frames) {
        abort();
    }
}

// Takes a lump. An end whose frames have too few places has taken nothing: it is told again, with a longer list.
static galumper_answer take(const uint8_t *lump, size_t length, bool last) {
    for (;;) {
        const galumper_answer answer = galumper_take_lump(&reader, of, buffer, sizeof buffer, lump, length, last, frames, places);
        if (answer.refusal != GALUMPER_SHORT_LIST) {
            return answer;
        }
        lengthen();
    }
}

// Takes a segment as the link hands it over, up to its end or a refusal.
static galumper_answer receive(FILE *link) {
    uint8_t lump[188];
    for (size_t length; (length = fread(lump, 1, sizeof lump, link)) > 0;) {
        const galumper_answer answer = take(lump, length, false);
        if (answer.refusal != GALUMPER_DONE) {
            return answer;
        }
    }
    return take(NULL, 0, true);
}

// Tells what a segment lists. One that is refused is passed over, and the next begins with a fresh reader.
static void tell(galumper_answer answer) {
    if (answer.refusal != GALUMPER_DONE) {
        reader = galumper_fresh_reader();
        printf("passed over: %s\n", galumper_refusal_name(answer.refusal));
        return;
    }
    int64_t bytes = 0;
    for (size_t i = 0; i < answer.count; i++) {
        bytes += frames[i].size;
    }
    printf("%zu frames of %" PRId64 " bytes\n", answer.count, bytes);
}

int main(int argc, char **argv) {
    if (!galumper_matches()) { // no buffer is created here, which would ask it
        return EXIT_FAILURE;
    }
    for (int n = 1; n < argc; n++) {
        FILE *link = fopen(argv[n], "rb");
        if (!link) {
            return EXIT_FAILURE;
        }
        tell(receive(link));
        fclose(link);
    }
    free(frames);
    return EXIT_SUCCESS;
}
