// A library of another layout. It says so; a program that calls any other of its functions has not listened, and ends.
#include <stddef.h>
#include <stdint.h>
#include <stdlib.h>

uint32_t galumper_abi(void) {
    return 9;
}

size_t galumper_size(void) {
    return 37064;
}

#define ENDS(call) \
    void galumper_lent_##call(void) { \
        abort(); \
    }
ENDS(create)
ENDS(append)
ENDS(append_batch)
ENDS(remove)
ENDS(abort)
ENDS(set_segments)
ENDS(set_sequence)
ENDS(set_offset)
ENDS(set_window_start)
ENDS(set_window_end)
ENDS(read_settings)
ENDS(track_ranges)
ENDS(common_ranges)
ENDS(walked)
ENDS(seek)
ENDS(feed)
ENDS(list_segment)
ENDS(take_lump)
ENDS(take_last)
