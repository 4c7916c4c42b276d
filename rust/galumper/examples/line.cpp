// A survey line from bytes to the buffer: the frames of each segment are listed, and appended 64 at a time.
#include "galumper.h"

#include <algorithm>
#include <fstream>
#include <iostream>
#include <iterator>
#include <memory>
#include <stdexcept>
#include <vector>

// A refusal that nobody expects is thrown.
static void check(uint32_t refusal) {
    if (refusal != GALUMPER_DONE) {
        throw std::runtime_error(galumper_refusal_name(refusal));
    }
}

// Gives the count that a call answered.
static size_t done(galumper_answer answer) {
    check(answer.refusal);
    return answer.count;
}

// Lists the frames of a segment. What cannot be read is no segment.
static std::vector<galumper_listed_frame> listed(const char *name) {
    std::ifstream file(name, std::ios::binary);
    const std::vector<uint8_t> segment{std::istreambuf_iterator<char>(file), {}};
    std::vector<galumper_listed_frame> frames(1000);
    // The initialization segment has them: the ID in tkhd, the timescale in mdhd, the defaults in trex.
    galumper_segment_track of{};
    of.id = of.track = 1;
    of.timescale = 12800;
    frames.resize(done(galumper_list_segment(of, segment.data(), segment.size(), frames.data(), frames.size())));
    return frames;
}

int main(int argc, char **argv) {
    const auto buffer = std::make_unique<galumper_buffer>();
    std::vector<galumper_fate> fates(GALUMPER_BATCH_FATES);
    std::vector<galumper_range> ranges(GALUMPER_RANGES);
    const uint8_t kinds[] = {GALUMPER_VIDEO};
    done(galumper_create(buffer.get(), kinds, 1));
    int oldest = 0; // the seconds before this one are gone

    // The store is full: the ten oldest seconds go.
    const auto make_room = [&] {
        oldest += 10;
        const auto removed = done(galumper_remove(buffer.get(), 0.0, oldest, fates.data(), fates.size()));
        std::cout << "full after " << buffer->head.last << " frames: " << removed << " before second " << oldest << " go\n";
    };

    int64_t time = 0; // each segment counts from 0: the timestamp offset puts it after those before
    for (int n = 1; n < argc; n++) {
        const auto frames = listed(argv[n]);
        done(galumper_set_offset(buffer.get(), static_cast<double>(time) / 1000000));
        // Frames that a full store did not accept are offered again when there is room.
        for (size_t next = 0; next < frames.size();) {
            const auto nframes = std::min<size_t>(frames.size() - next, GALUMPER_BATCH);
            const auto batch = galumper_append_batch(buffer.get(), &frames[next], nframes, fates.data(), fates.size());
            check(batch.refusal);
            next += batch.accepted;
            if (batch.stop == GALUMPER_FULL) {
                make_room();
            } else {
                check(batch.stop);
            }
        }
        for (const auto &frame : frames) {
            time += frame.duration;
        }
    }
    std::cout << buffer->head.last << " frames, " << buffer->head.nframes << " of them stored\n";
    ranges.resize(done(galumper_track_ranges(buffer.get(), 1, ranges.data(), ranges.size())));
    for (const auto &range : ranges) {
        std::cout << "held from " << range.start << " to " << range.end << "\n";
    }
}
