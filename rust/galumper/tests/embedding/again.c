// Buffers with settings half way between two microseconds: tells which of them every call refuses, and makes their settings again.
#include "galumper.h"

#include <inttypes.h>
#include <stdio.h>
#include <string.h>

// A double from its bits.
static double double_of(uint64_t bits) {
    double seconds;
    memcpy(&seconds, &bits, sizeof seconds);
    return seconds;
}

// Makes `buffer` a fresh one with the kinds, the settings and the mode of a saved one. It ends at the first call that is refused, and
// answers as the last that it made.
static galumper_answer make_again(galumper_buffer *buffer, galumper_head saved) {
    const galumper_settings settings = saved.settings;
    const double offset = double_of(settings.offset.bits);
    const bool sequence = saved.mode == GALUMPER_SEQUENCE;
    const bool starts_there = saved.group.begun == 1 && saved.group.start == settings.offset.micros;
    const size_t ntracks = saved.ntracks <= GALUMPER_TRACKS ? saved.ntracks : 0; // of which a creation is refused
    uint8_t kinds[GALUMPER_TRACKS];
    for (size_t i = 0; i < GALUMPER_TRACKS; i++) {
        kinds[i] = saved.tracks[i].kind;
    }
    galumper_answer answer = galumper_create(buffer, kinds, ntracks);
    if (answer.refusal == GALUMPER_DONE) {
        answer = galumper_set_window_start(buffer, double_of(settings.start.bits));
    }
    if (answer.refusal == GALUMPER_DONE && settings.bounded == 1) {
        answer = galumper_set_window_end(buffer, double_of(settings.end));
    }
    if (answer.refusal == GALUMPER_DONE) {
        answer = galumper_set_offset(buffer, offset);
    }
    if (answer.refusal == GALUMPER_DONE && sequence) {
        answer = galumper_set_sequence(buffer);
    }
    if (answer.refusal == GALUMPER_DONE && sequence && starts_there) {
        answer = galumper_set_offset(buffer, offset); // in sequence mode it is also where the next group starts
    }
    return answer;
}

static galumper_buffer saved, lent;
static galumper_fate fates[GALUMPER_BATCH_FATES];
static galumper_range ranges[GALUMPER_RANGES];

static const int calls = 14; // that take a buffer

// Makes one of them on the lent buffer, and gives its refusal: none but 1, as all else that is handed in is good.
static uint32_t call(int n) {
    const galumper_offered frame = {1, 1, 100, 0, 0};
    const galumper_listed_frame row = {1, 0, 0, 100, 1, 0};
    switch (n) {
    case 0: return galumper_append(&lent, frame, fates, GALUMPER_FATES).refusal;
    case 1: return galumper_append_batch(&lent, &row, 1, fates, GALUMPER_BATCH_FATES).refusal;
    case 2: return galumper_remove(&lent, 0.0, 1.0, fates, GALUMPER_FATES).refusal;
    case 3: return galumper_abort(&lent).refusal;
    case 4: return galumper_set_segments(&lent).refusal;
    case 5: return galumper_set_sequence(&lent).refusal;
    case 6: return galumper_set_offset(&lent, 0.0).refusal;
    case 7: return galumper_set_window_start(&lent, 0.0).refusal;
    case 8: return galumper_set_window_end(&lent, 1.0).refusal;
    case 9: return galumper_read_settings(&lent).refusal;
    case 10: return galumper_track_ranges(&lent, 1, ranges, GALUMPER_RANGES).refusal;
    case 11: return galumper_common_ranges(&lent, ranges, GALUMPER_RANGES).refusal;
    case 12: return galumper_walked(&lent, 1, GALUMPER_RANGES).refusal;
    default: return galumper_seek(&lent, 1, 0).refusal;
    }
}

static bool sevens(const void *list, size_t bytes) {
    const uint8_t *byte = (const uint8_t *)list;
    while (bytes > 0 && *byte == 7) {
        byte++;
        bytes--;
    }
    return bytes == 0;
}

static void tell_calls(void) {
    int taken = 0;
    int refused = 0;
    for (int n = 0; n < calls; n++) {
        lent = saved;
        memset(fates, 7, sizeof fates);
        memset(ranges, 7, sizeof ranges);
        const uint32_t refusal = call(n);
        const bool kept = memcmp(&lent, &saved, sizeof saved) == 0 && sevens(fates, sizeof fates) && sevens(ranges, sizeof ranges);
        taken += refusal == GALUMPER_DONE;
        refused += refusal == GALUMPER_ILL_FORMED && kept;
    }
    printf("%d calls take it, %d are refused 1 and change nothing\n", taken, refused);
}

static galumper_setting setting(double seconds, int64_t micros) {
    galumper_setting kept = {0, micros};
    memcpy(&kept.bits, &seconds, sizeof seconds);
    return kept;
}

// Whether a setting is read back bit for bit.
static bool same(double read, uint64_t bits) {
    return setting(read, 0).bits == bits;
}

// Makes the settings of the saved buffer again, in its own place.
static void tell_again(void) {
    lent = saved;
    const galumper_answer answer = make_again(&lent, lent.head);
    if (answer.refusal != GALUMPER_DONE) {
        printf("  made again: refused %" PRIu32 ", %s\n", answer.refusal, galumper_refusal_name(answer.refusal));
        return;
    }
    const galumper_head *head = &lent.head;
    const galumper_settings *before = &saved.head.settings;
    const galumper_reading reading = galumper_read_settings(&lent);
    const bool read = same(reading.offset, before->offset.bits) && same(reading.start, before->start.bits) &&
                      same(reading.end, before->end) && reading.bounded == before->bounded;
    printf("  made again: offset as %" PRId64 ", window from %" PRId64, head->settings.offset.micros, head->settings.start.micros);
    if (reading.bounded) {
        printf(" to %" PRId64, head->settings.limit);
    }
    printf(", %s; %zu tracks, %zu frames, mode %" PRIu32, read ? "read back" : "not read back", head->ntracks, head->nframes, head->mode);
    if (head->group.begun) {
        printf(", group start %" PRId64, head->group.start);
    }
    printf("\n");
}

// Makes the saved buffer one of two tracks, with a frame from 0 to 100.
static void save(void) {
    const uint8_t kinds[] = {GALUMPER_VIDEO, GALUMPER_AUDIO};
    const galumper_offered frame = {1, 1, 100, 0, 0};
    galumper_create(&saved, kinds, 2);
    galumper_append(&saved, frame, fates, GALUMPER_FATES);
}

static void tell_offset(double seconds, int64_t micros) {
    save();
    saved.head.settings.offset = setting(seconds, micros);
    printf("offset %g as %" PRId64 ": ", seconds, micros);
    tell_calls();
    tell_again();
}

static void tell_window(const char *which, galumper_setting start, galumper_setting end) {
    save();
    saved.head.settings.start = start;
    saved.head.settings.bounded = end.micros > 0;
    saved.head.settings.end = end.bits;
    saved.head.settings.limit = end.micros;
    printf("%s: ", which);
    tell_calls();
    tell_again();
}

int main(void) {
    const galumper_setting none = {0, 0};
    tell_offset(0.0078125, 7812);
    tell_offset(0.0078125, 7813);
    tell_offset(-0.0234375, -23438);
    tell_offset(-0.0234375, -23437);
    tell_offset(0.0234375, 23438);
    tell_offset(-0.0078125, -7812);
    tell_window("start as 7812", setting(0.0078125, 7812), none);
    tell_window("start as 7813", setting(0.0078125, 7813), none);
    tell_window("start as 23438", setting(0.0234375, 23438), none);
    tell_window("end as 7812", none, setting(0.0078125, 7812));
    tell_window("end as 7813", none, setting(0.0078125, 7813));
    tell_window("both as before", setting(0.0078125, 7812), setting(0.0390625, 39062));
    tell_window("a microsecond that is none now", setting(0.0078125, 7812), setting(0.007813, 7813));

    printf("in sequence mode, where the next group is to start at the offset\n");
    save();
    galumper_set_sequence(&saved);
    galumper_set_offset(&saved, 0.007812);
    saved.head.settings.offset = setting(0.0078125, 7812);
    tell_again();
    printf("in sequence mode, where it is to start at the end of the frames\n");
    save();
    galumper_set_sequence(&saved);
    saved.head.settings.offset = setting(0.0078125, 7812);
    tell_again();
    printf("an offset that only an append can have set\n");
    saved.head.settings.offset = setting(1000000.000001, INT64_C(1000000000001));
    tell_again();
    printf("five tracks\n");
    saved.head.ntracks = 5;
    tell_again();
    return 0;
}
