// Makes every call of the header that has no program of its own beside this one, and tells what it answered and what it left.
#include "galumper.h"

#include <inttypes.h>
#include <math.h>
#include <stdio.h>

static galumper_buffer buffer;
static galumper_fate fates[GALUMPER_FATES];
static galumper_range ranges[GALUMPER_RANGES];

static void tell(const char *call, galumper_answer answer) {
    const galumper_head *head = &buffer.head;
    printf("%s: refused %" PRIu32 ", count %zu; %zu frames, mode %" PRIu32 ", group %" PRIu32 ", its start %s\n", call,
           answer.refusal, answer.count, head->nframes, head->mode, head->group.number, head->group.begun ? "set" : "unset");
}

static void tell_fates(const char *call, galumper_answer answer) {
    tell(call, answer);
    for (size_t i = 0; i < answer.count; i++) {
        printf("  frame %" PRIu32 ", cause %" PRIu32 "\n", fates[i].number, fates[i].cause);
    }
}

static void tell_ranges(const char *call, galumper_answer answer) {
    tell(call, answer);
    for (size_t i = 0; i < answer.count; i++) {
        printf("  from %" PRId64 " to %" PRId64 "\n", ranges[i].start, ranges[i].end);
    }
}

static void tell_settings(void) {
    const galumper_reading reading = galumper_read_settings(&buffer);
    printf("settings: refused %" PRIu32 ", offset %g, start %g, bounded %d, end %g\n", reading.refusal, reading.offset, reading.start,
           reading.bounded, reading.end);
}

// Offers a random access point that lasts a second.
static galumper_answer append(uint32_t track, int64_t time) {
    const galumper_offered frame = {.track = track, .flagged = 1, .duration = 1000000, .pts = time, .dts = time};
    return galumper_append(&buffer, frame, fates, GALUMPER_FATES);
}

int main(void) {
    const uint8_t kinds[] = {GALUMPER_VIDEO, GALUMPER_AUDIO};
    tell("create", galumper_create(&buffer, kinds, 2));
    tell("set sequence", galumper_set_sequence(&buffer));
    tell("set segments", galumper_set_segments(&buffer));
    tell("set offset", galumper_set_offset(&buffer, 0.5));
    tell("set window start", galumper_set_window_start(&buffer, 0.25));
    tell("set window end", galumper_set_window_end(&buffer, 10.0));
    tell_settings();
    tell_fates("append on track 1", append(1, 0));
    tell_fates("append on track 1", append(1, 1000000));
    tell_fates("append on track 2", append(2, 700000));
    tell_fates("append past the window", append(1, 9500000));
    tell_ranges("ranges of track 1", galumper_track_ranges(&buffer, 1, ranges, GALUMPER_RANGES));
    tell_ranges("ranges of track 2", galumper_track_ranges(&buffer, 2, ranges, GALUMPER_RANGES));
    tell_ranges("common ranges", galumper_common_ranges(&buffer, ranges, GALUMPER_RANGES));
    tell("walk of track 1", galumper_walked(&buffer, 1, GALUMPER_RANGES));
    tell("walk of track 2", galumper_walked(&buffer, 2, GALUMPER_RANGES));
    tell("walk of track 1 without places", galumper_walked(&buffer, 1, 0));
    tell("walk of track 3", galumper_walked(&buffer, 3, 0));
    tell_fates("remove", galumper_remove(&buffer, 1.3, INFINITY, fates, GALUMPER_FATES));
    tell("abort", galumper_abort(&buffer));
    tell_settings();
    // Lists of no places, which may be null.
    tell("append without lines", galumper_append(&buffer, (galumper_offered){.track = 1, .duration = 1}, NULL, 0));
    tell("remove without lines", galumper_remove(&buffer, 0.0, 1.0, NULL, 0));
    tell("ranges without places", galumper_track_ranges(&buffer, 1, NULL, 0));
    tell("common ranges without places", galumper_common_ranges(&buffer, NULL, 0));
    tell("create without kinds", galumper_create(&buffer, NULL, 0));
    const uint8_t unknown[] = {2};
    tell("create with an unknown kind", galumper_create(&buffer, unknown, 1));
    buffer.head.group.number = UINT32_MAX;
    tell("abort in the last group", galumper_abort(&buffer));
    return 0;
}
