// The normal loop of a console: the frames of a survey line are appended, and when the store is full the oldest seconds go.
#include "galumper.h"

#include <iostream>
#include <map>
#include <memory>
#include <stdexcept>
#include <vector>

// How many frames are gone by a cause, and the first of them.
struct Gone {
    size_t count;
    uint32_t first;
};

// The n-th frame of the line: 25 a second, the first of each second a random access point.
static galumper_offered frame(int n) {
    galumper_offered offered{};
    offered.track = 1;
    offered.flagged = n % 25 == 0;
    offered.duration = 40000;
    offered.pts = offered.dts = int64_t{40000} * n;
    return offered;
}

// Gives the count that a call answered. A refusal that nobody expects is thrown.
static size_t done(galumper_answer answer) {
    if (answer.refusal != GALUMPER_DONE) {
        throw std::runtime_error(galumper_refusal_name(answer.refusal));
    }
    return answer.count;
}

int main() {
    const auto buffer = std::make_unique<galumper_buffer>();
    std::vector<galumper_fate> fates(GALUMPER_FATES);
    std::vector<galumper_range> ranges(GALUMPER_RANGES);
    std::map<uint32_t, Gone> gone;

    // Books the fate lines of a call; gives their count.
    const auto book = [&](size_t lines) {
        for (size_t i = 0; i < lines; i++) {
            const auto place = gone.try_emplace(fates[i].cause, Gone{0, fates[i].number}).first;
            place->second.count++;
        }
        return lines;
    };

    const uint8_t kinds[] = {GALUMPER_VIDEO};
    done(galumper_create(buffer.get(), kinds, 1));
    int oldest = 0; // the seconds before this one are gone

    // The camera is switched on in the middle of a second, and for another it sends nothing.
    for (int n = 10; n < 2000; n++) {
        if (n / 25 == 60) {
            continue;
        }
        auto answer = galumper_append(buffer.get(), frame(n), fates.data(), fates.size());
        if (answer.refusal == GALUMPER_FULL) {
            oldest += 10;
            const auto removed = book(done(galumper_remove(buffer.get(), 0.0, oldest, fates.data(), fates.size())));
            std::cout << frame(n).pts << ": " << galumper_refusal_name(answer.refusal) << ", " << removed
                      << " frames before second " << oldest << " go\n";
            answer = galumper_append(buffer.get(), frame(n), fates.data(), fates.size()); // the same frame again
        }
        book(done(answer));
    }

    for (const auto &[cause, so_far] : gone) {
        std::cout << so_far.count << " frames, from number " << so_far.first << ": " << galumper_cause_name(cause) << "\n";
    }
    ranges.resize(done(galumper_track_ranges(buffer.get(), 1, ranges.data(), ranges.size())));
    for (const auto &range : ranges) {
        std::cout << "held from " << range.start << " to " << range.end << "\n";
    }
    const int64_t instant = 60500000;
    std::cout << instant << (galumper_held(ranges.data(), ranges.size(), instant) ? " is held\n" : " is not held\n");
}
