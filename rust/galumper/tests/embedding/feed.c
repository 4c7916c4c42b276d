// Asks what to feed, and tells the bytes and where they stand.
#include "galumper.h"

#include <stdio.h>

static const uint8_t initialization[] = "moov", segment[] = "moofmdatframes";

// The places of the two, but for the zeros that end them.
#define FIRST (sizeof initialization - 1)
#define LENGTH (sizeof segment - 1)

static void tell(const char *call, galumper_bytes fed) {
    printf("%s: [%.*s] at", call, (int)fed.length, fed.bytes ? (const char *)fed.bytes : "");
    for (size_t i = 0; i <= FIRST; i++) {
        if (fed.bytes == initialization + i) {
            printf(" %zu of the initialization bytes", i);
        }
    }
    for (size_t i = 0; i <= LENGTH; i++) {
        if (fed.bytes == segment + i) {
            printf(" %zu of the segment", i);
        }
    }
    printf("%s\n", fed.bytes ? "" : " null");
}

// Of the two, both lent.
static void feed(const char *call, bool whole, size_t start, size_t end) {
    tell(call, galumper_feed(initialization, FIRST, segment, LENGTH, whole, start, end));
}

int main(void) {
    feed("whole", true, 0, 0);
    feed("whole, whatever the place", true, 3, SIZE_MAX);
    feed("a part", false, 8, 13);
    feed("another", false, 4, 8);
    feed("all of the segment", false, 0, LENGTH);
    feed("its last byte", false, LENGTH - 1, LENGTH);
    feed("no byte", false, 8, 8);
    feed("none at the end", false, LENGTH, LENGTH);
    feed("a byte too many", false, 8, LENGTH + 1);
    feed("none past the end", false, LENGTH + 1, LENGTH + 1);
    feed("up to the greatest place", false, 0, SIZE_MAX);
    feed("only the greatest place", false, SIZE_MAX - 1, SIZE_MAX);
    feed("from the greatest place", false, SIZE_MAX, 0);
    feed("a start above its end", false, 9, 8);
    // What has no length may be null.
    tell("nothing lent, whole", galumper_feed(NULL, 0, NULL, 0, true, 0, 0));
    tell("nothing lent, a part", galumper_feed(NULL, 0, NULL, 0, false, 0, 0));
    tell("nothing lent, an overrun", galumper_feed(NULL, 0, NULL, 0, false, 1, 2));
    tell("no initialization bytes, whole", galumper_feed(NULL, 0, segment, LENGTH, true, 0, 4));
    tell("no initialization bytes, a part", galumper_feed(NULL, 0, segment, LENGTH, false, 0, 4));
    tell("no segment, whole", galumper_feed(initialization, FIRST, NULL, 0, true, 0, 4));
    tell("no segment, an overrun", galumper_feed(initialization, FIRST, NULL, 0, false, 0, 4));
    tell("no bytes of the two, whole", galumper_feed(initialization + 2, 0, segment + 2, 0, true, 0, 0));
    tell("no bytes of the two, a part", galumper_feed(initialization + 2, 0, segment + 2, 0, false, 0, 0));
    tell("a segment within, an overrun", galumper_feed(initialization, FIRST, segment + 4, 4, false, 2, 5));
    tell("a segment within, a part", galumper_feed(initialization, FIRST, segment + 4, 4, false, 2, 4));
    // The library's own takes any number but 0 for true.
    const galumper_part part = galumper_lent_feed(initialization, FIRST, segment, LENGTH, UINT32_MAX, 1, 2);
    printf("the greatest number: %zu bytes from %zu on\n", part.length, part.start);
    return 0;
}
