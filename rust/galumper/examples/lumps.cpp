// Segments over the radio link: each comes in lumps, cut anywhere, and its frames are listed when its end is told.
#include "galumper.h"

#include <array>
#include <fstream>
#include <iostream>
#include <stdexcept>
#include <vector>

// A segment that comes over the link.
class Incoming {
    galumper_segment_track of{};
    galumper_lump_reader reader{}; // zeros: a fresh one
    std::vector<uint8_t> buffer = std::vector<uint8_t>(GALUMPER_LUMP);

public:
    std::vector<galumper_listed_frame> frames = std::vector<galumper_listed_frame>(16);

    // The initialization segment has them: the ID in tkhd, the timescale in mdhd, the defaults in trex.
    Incoming() {
        of.id = of.track = 1;
        of.timescale = 12800;
    }

    // Takes a lump. An end whose frames have too few places has taken nothing: it is told again, with a longer list.
    galumper_answer take(const uint8_t *lump, size_t length, bool last) {
        for (;;) {
            const auto answer = galumper_take_lump(&reader, of, buffer.data(), buffer.size(), lump, length, last,
                                                   frames.data(), frames.size());
            if (answer.refusal != GALUMPER_SHORT_LIST) {
                return answer;
            }
            frames.resize(2 * frames.size());
        }
    }

    // Begins anew: the segment is passed over.
    void pass() {
        reader = galumper_fresh_reader();
    }
};

// Takes a segment as the link hands it over, up to its end or a refusal.
static galumper_answer receive(Incoming &incoming, std::istream &link) {
    std::array<char, 188> lump;
    while (link.read(lump.data(), lump.size()), link.gcount() > 0) {
        const auto length = static_cast<size_t>(link.gcount());
        const auto answer = incoming.take(reinterpret_cast<const uint8_t *>(lump.data()), length, false);
        if (answer.refusal != GALUMPER_DONE) {
            return answer;
        }
    }
    return incoming.take(nullptr, 0, true);
}

int main(int argc, char **argv) {
    if (!galumper_matches()) { // no buffer is created here, which would ask it
        throw std::runtime_error(galumper_refusal_name(GALUMPER_OTHER_LAYOUT));
    }
    Incoming incoming;
    for (int n = 1; n < argc; n++) {
        std::ifstream link(argv[n], std::ios::binary);
        const auto answer = receive(incoming, link);
        if (answer.refusal != GALUMPER_DONE) {
            incoming.pass();
            std::cout << "passed over: " << galumper_refusal_name(answer.refusal) << "\n";
            continue;
        }
        int64_t bytes = 0;
        for (size_t i = 0; i < answer.count; i++) {
            bytes += incoming.frames[i].size;
        }
        std::cout << answer.count << " frames of " << bytes << " bytes\n";
    }
}
