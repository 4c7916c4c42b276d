// Tells for instants on and beside the edges of two ranges whether they are held.
#include "galumper.h"

#include <inttypes.h>
#include <stdio.h>

int main(void) {
    const galumper_range ranges[] = {{0, 10}, {20, 30}};
    const int64_t instants[] = {-1, 0, 9, 10, 19, 20, 29, 30};
    for (size_t i = 0; i < sizeof instants / sizeof *instants; i++) {
        printf("%" PRId64 ": %d %d\n", instants[i], galumper_held(ranges, 1, instants[i]), galumper_held(ranges, 2, instants[i]));
    }
    return 0;
}
