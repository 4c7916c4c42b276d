// The normal loop of a console: the frames of a survey line are appended, and when the store is full the oldest seconds go.
#include "galumper.h"

#include <inttypes.h>
#include <stdio.h>
#include <stdlib.h>

static galumper_buffer buffer;
static galumper_fate fates[GALUMPER_FATES];
static galumper_range ranges[GALUMPER_RANGES];

// How many frames are gone by each cause, and the first of them.
static size_t gone[GALUMPER_REMOVED + 1];
static uint32_t first[GALUMPER_REMOVED + 1];

// The n-th frame of the line: 25 a second, the first of each second a random access point.
static galumper_offered frame(int n) {
    const int64_t time = INT64_C(40000) * n;
    const galumper_offered offered = {.track = 1, .flagged = n % 25 == 0, .duration = 40000, .pts = time, .dts = time};
    return offered;
}

// Gives the count that a call answered. A refusal that nobody expects ends the program.
static size_t done(galumper_answer answer) {
    if (answer.refusal != GALUMPER_DONE) {
        fprintf(stderr, "refused %" PRIu32 ": %s\n", answer.refusal, galumper_refusal_name(answer.refusal));
        exit(EXIT_FAILURE);
    }
    return answer.count;
}

// Books the fate lines of a call; gives their count.
static size_t book(size_t lines) {
    for (size_t i = 0; i < lines; i++) {
        const galumper_fate fate = fates[i];
        if (gone[fate.cause]++ == 0) {
            first[fate.cause] = fate.number;
        }
    }
    return lines;
}

int main(void) {
    const uint8_t kinds[] = {GALUMPER_VIDEO};
    done(galumper_create(&buffer, kinds, 1));
    int oldest = 0; // the seconds before this one are gone

    // The camera is switched on in the middle of a second, and for another it sends nothing.
    for (int n = 10; n < 2000; n++) {
        if (n / 25 == 60) {
            continue;
        }
        galumper_answer answer = galumper_append(&buffer, frame(n), fates, GALUMPER_FATES);
        if (answer.refusal == GALUMPER_FULL) {
            oldest += 10;
            const size_t removed = book(done(galumper_remove(&buffer, 0.0, oldest, fates, GALUMPER_FATES)));
            printf("%" PRId64 ": %s, %zu frames before second %d go\n", frame(n).pts,
                   galumper_refusal_name(answer.refusal), removed, oldest);
            answer = galumper_append(&buffer, frame(n), fates, GALUMPER_FATES); // the same frame again
        }
        book(done(answer));
    }

    for (uint32_t cause = 1; cause <= GALUMPER_REMOVED; cause++) {
        if (gone[cause] > 0) {
            printf("%zu frames, from number %" PRIu32 ": %s\n", gone[cause], first[cause], galumper_cause_name(cause));
        }
    }
    const size_t count = done(galumper_track_ranges(&buffer, 1, ranges, GALUMPER_RANGES));
    for (size_t i = 0; i < count; i++) {
        printf("held from %" PRId64 " to %" PRId64 "\n", ranges[i].start, ranges[i].end);
    }
    const int64_t instant = 60500000;
    printf("%" PRId64 " is %s\n", instant, galumper_held(ranges, count, instant) ? "held" : "not held");
    return 0;
}
