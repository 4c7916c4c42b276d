// Narrows buffers to the bytes that were saved before version 0.6.0, loads these, and tells whether the same buffer comes back.
#include "galumper.h"

#include <stdio.h>
#include <string.h>

// Loads a buffer that was saved before version 0.6.0: each row of its tags is widened by group 0. What stands for the group's number
// is 0 there, or else that buffer was not well-formed.
static bool load_former(galumper_buffer *buffer, const uint8_t former[32968]) {
    const size_t before = offsetof(galumper_buffer, tags);
    memset(buffer, 0, sizeof *buffer);
    memcpy(buffer, former, before);
    for (size_t i = 0; i < GALUMPER_PLACES; i++) {
        memcpy(buffer->tags[i], former + before + 16 * i, 16);
    }
    return buffer->head.group.number == 0;
}

static galumper_buffer buffer, loaded;
static galumper_fate fates[GALUMPER_FATES];
static uint8_t former[32968];

static void tell(const char *what) {
    const size_t before = offsetof(galumper_buffer, tags);
    memcpy(former, &buffer, before);
    for (size_t i = 0; i < GALUMPER_PLACES; i++) {
        memcpy(former + before + 16 * i, buffer.tags[i], 16);
    }
    const bool good = load_former(&loaded, former);
    const bool same = memcmp(&buffer, &loaded, sizeof buffer) == 0;
    printf("%s: %s, %s\n", what, good ? "loaded" : "not loaded", same ? "the same" : "another");
}

int main(void) {
    const uint8_t kinds[] = {GALUMPER_VIDEO, GALUMPER_AUDIO};
    if (galumper_create(&buffer, kinds, 2).refusal != GALUMPER_DONE) {
        return 1;
    }
    tell("fresh");
    for (uint32_t n = 0; n < GALUMPER_PLACES; n++) {
        const int64_t time = n / 2 * 100;
        const galumper_offered frame = {.track = n % 2 + 1, .flagged = 1, .duration = 100, .pts = time, .dts = time};
        galumper_append(&buffer, frame, fates, GALUMPER_FATES);
    }
    galumper_set_sequence(&buffer);
    tell("full");
    buffer.head.group.number = 1; // as a group start beyond 32 bits was
    tell("not well-formed");
    return 0;
}
