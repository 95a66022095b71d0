// Tests of what needs no device: places of pieces, masks, and the order of submission.
#include "drain.hpp"
#include "ending.hpp"
#include "masks.hpp"
#include "places.hpp"

#include <cstdio>

namespace {

using namespace replay;

int failures = 0;

void expect(bool holds, const char *what) {
    if (!holds) {
        ++failures;
        std::fprintf(stderr, "not so: %s\n", what);
    }
}

void test_places() {
    const Places fitting = places_of({{0, 64, 64, 64}, {64, 128, 64, 64}});
    expect(fitting.placing == Placing::as_told && fitting.starts[1] == 64, "pieces that fit lie where the file has them");
    const Places apart = places_of({{0, 64, 256, 64}, {64, 128, 256, 64}});
    expect(apart.placing == Placing::spread && apart.starts[1] == 256, "pieces that need more bytes are moved apart");
    const Places same = places_of({{0, 64, 256, 64}, {32, 96, 256, 64}});
    expect(same.placing == Placing::spread && same.starts[1] < 256, "pieces that overlap still do");
    const Places between = places_of({{0, 64, 256, 64}, {32, 96, 64, 64}, {0, 32, 128, 64}});
    expect(between.placing == Placing::spread && between.starts[1] == 128, "of three the two that are apart stay apart");
    const Places lost = places_of({{0, 64, 64, 64}, {32, 96, 64, 64}, {0, 32, 128, 64}});
    expect(lost.placing == Placing::separate, "where no places have the same overlaps, pieces are separate");
}

void test_masks() {
    expect(stages_of("") == 0, "the empty text is the empty mask");
    expect(stages_of("COPY|CLEAR") == (VK_PIPELINE_STAGE_2_COPY_BIT | VK_PIPELINE_STAGE_2_CLEAR_BIT), "names are joined by bars");
    expect(!stages_of("COPY|"), "a bar at the end is refused");
    expect(!stages_of("|COPY"), "a bar at the front is refused");
    expect(!accesses_of("COPY"), "a stage is no access");
    expect(layout_of("GENERAL") == VK_IMAGE_LAYOUT_GENERAL, "a layout by its name");
}

Batch waiting(uint32_t queue, uint64_t value) {
    Batch batch;
    batch.waits.push_back({queue, value, VK_PIPELINE_STAGE_2_ALL_COMMANDS_BIT});
    return batch;
}

Batch signalling(uint64_t value) {
    Batch batch;
    batch.signal = Signal{value, VK_PIPELINE_STAGE_2_ALL_COMMANDS_BIT};
    return batch;
}

void test_drain() {
    Program program;
    program.queues = {{Family::graphics, {signalling(1), waiting(1, 1)}}, {Family::compute, {signalling(1)}}};
    const auto lowest = drain(program, Direction::lowest_first);
    expect(lowest.size() == 3 && lowest[0].queue == 0 && lowest[1].queue == 1 && lowest[2].queue == 0, "the lowest queue goes until it waits");
    const auto highest = drain(program, Direction::highest_first);
    expect(highest.size() == 2 && highest[0].queue == 1 && highest[1].count == 2, "batches of one queue are one run");
    program.queues[1].batches.clear();
    try {
        drain(program, Direction::lowest_first);
        expect(false, "a wait without its signal is stuck");
    } catch (const Ended &ended) {
        expect(ended.ending == Ending::stuck, "a wait without its signal is stuck");
    }
}

} // namespace

int main() {
    test_places();
    test_masks();
    test_drain();
    return failures == 0 ? 0 : 1;
}
