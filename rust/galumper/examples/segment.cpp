// Reads a media segment of the recorder from a file, and appends its frames.
#include "galumper.h"

#include <fstream>
#include <iostream>
#include <iterator>
#include <memory>
#include <stdexcept>
#include <vector>

// Gives the count that a call answered. A refusal is thrown.
static size_t done(galumper_answer answer) {
    if (answer.refusal != GALUMPER_DONE) {
        throw std::runtime_error(galumper_refusal_name(answer.refusal));
    }
    return answer.count;
}

// A listed frame as it is offered.
static galumper_offered offered(const galumper_listed_frame &row) {
    galumper_offered frame{};
    frame.track = static_cast<uint32_t>(row.track);
    frame.flagged = static_cast<uint8_t>(row.flagged);
    frame.duration = static_cast<uint32_t>(row.duration);
    frame.pts = row.pts;
    frame.dts = row.dts;
    return frame;
}

int main(int argc, char **argv) {
    std::ifstream file(argc == 2 ? argv[1] : "", std::ios::binary);
    if (!file) {
        throw std::runtime_error("the name of a media segment is missing");
    }
    const std::vector<uint8_t> segment{std::istreambuf_iterator<char>(file), {}};
    const auto buffer = std::make_unique<galumper_buffer>();
    std::vector<galumper_fate> fates(GALUMPER_FATES);
    std::vector<galumper_range> ranges(GALUMPER_RANGES);
    std::vector<galumper_listed_frame> frames(1000);
    const uint8_t kinds[] = {GALUMPER_VIDEO};
    done(galumper_create(buffer.get(), kinds, 1));

    // The initialization segment has them: the ID in tkhd, the timescale in mdhd, the defaults in trex.
    galumper_segment_track of{};
    of.id = of.track = 1;
    of.timescale = 12800;
    frames.resize(done(galumper_list_segment(of, segment.data(), segment.size(), frames.data(), frames.size())));
    int64_t bytes = 0;
    for (const auto &row : frames) {
        done(galumper_append(buffer.get(), offered(row), fates.data(), fates.size()));
        bytes += row.size;
    }
    std::cout << frames.size() << " frames of " << bytes << " bytes\n";
    ranges.resize(done(galumper_track_ranges(buffer.get(), 1, ranges.data(), ranges.size())));
    for (const auto &range : ranges) {
        std::cout << "held from " << range.start << " to " << range.end << "\n";
    }
}
