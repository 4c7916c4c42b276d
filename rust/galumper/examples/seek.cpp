// A console that seeks: it finds where to start decoding for an instant, and feeds the decoder without a copy.
#include "galumper.h"

#include <cstring>
#include <fstream>
#include <iostream>
#include <iterator>
#include <map>
#include <memory>
#include <stdexcept>
#include <vector>

using Bytes = std::vector<uint8_t>;

// Where a frame's bytes are.
struct Place {
    const Bytes *segment;
    size_t start, end;
};

// A refusal that nobody expects is thrown.
static void check(uint32_t refusal) {
    if (refusal != GALUMPER_DONE) {
        throw std::runtime_error(galumper_refusal_name(refusal));
    }
}

// Where the media data of a segment begins, past the header of its box: with one track, the frames stand there one after the other. A box
// whose size has 64 bits is not read here. Where none is found, every frame's place overruns the segment, and what is fed is empty.
static size_t media_data(const Bytes &segment) {
    for (size_t at = 0, size = 8; size >= 8 && at + 8 <= segment.size(); at += size) {
        const auto box = &segment[at];
        size = size_t{box[0]} << 24 | size_t{box[1]} << 16 | size_t{box[2]} << 8 | box[3];
        if (size >= 8 && std::memcmp(box + 4, "mdat", 4) == 0) {
            return at + 8;
        }
    }
    return segment.size();
}

int main(int argc, char **argv) {
    // The initialization bytes, then segments with one track of up to 64 frames. They stay where they are.
    std::vector<Bytes> files;
    for (int n = 1; n < argc; n++) {
        std::ifstream file(argv[n], std::ios::binary);
        files.emplace_back(std::istreambuf_iterator<char>(file), std::istreambuf_iterator<char>());
    }
    const auto buffer = std::make_unique<galumper_buffer>();
    std::vector<galumper_fate> fates(GALUMPER_BATCH_FATES);
    std::vector<galumper_listed_frame> frames(GALUMPER_BATCH);
    std::map<uint32_t, Place> places; // by a frame's number
    const uint8_t kinds[] = {GALUMPER_VIDEO};
    check(galumper_create(buffer.get(), kinds, 1).refusal);

    // The initialization segment has them: the ID in tkhd, the timescale in mdhd, the defaults in trex.
    galumper_segment_track of{};
    of.id = of.track = 1;
    of.timescale = 12800;
    for (size_t n = 1; n < files.size(); n++) {
        const auto listed = galumper_list_segment(of, files[n].data(), files[n].size(), frames.data(), frames.size());
        check(listed.refusal);
        Place at{&files[n], 0, media_data(files[n])};
        for (uint32_t i = 0; i < listed.count; i++) {
            at.start = at.end;
            at.end += static_cast<size_t>(frames[i].size);
            places[buffer->head.last + 1 + i] = at; // which the frame is about to have
        }
        const auto batch = galumper_append_batch(buffer.get(), frames.data(), listed.count, fates.data(), fates.size());
        check(batch.refusal ? batch.refusal : batch.stop);
        for (size_t i = 0; i < batch.count; i++) {
            places.erase(fates[i].number);
        }
    }

    // Feeds the decoder, which here tells how many bytes it is fed: the initialization bytes, or the part of a segment.
    const auto feed = [&](bool whole, const Place &at) {
        const auto &first = files[0], &segment = *at.segment;
        const auto fed = galumper_feed(first.data(), first.size(), segment.data(), segment.size(), whole, at.start, at.end);
        std::cout << " " << fed.length;
    };

    for (const int64_t instant : {400000, 530000, 610000}) {
        const auto start = galumper_seek(buffer.get(), 1, instant);
        if (start.refusal != GALUMPER_DONE) {
            std::cout << instant << ": " << galumper_refusal_name(start.refusal) << "\n";
            continue;
        }
        std::cout << instant << ": frame " << start.target << ", " << start.count << " to decode from frame " << start.flagged << " on:";
        auto row = buffer->tags;
        while ((*row)[3] != start.flagged) {
            row++;
        }
        const auto group = (*row)[4];
        feed(true, places.at(start.flagged));
        for (auto left = start.count; left > 0; row++) {
            if ((*row)[4] == group) { // frames of other groups, which may stand between, are passed over
                feed(false, places.at((*row)[3]));
                left--;
            }
        }
        std::cout << " bytes\n";
    }
}
