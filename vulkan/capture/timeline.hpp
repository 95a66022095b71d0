#pragma once
#include <cstdint>
#include <string>
#include <utility>
#include <variant>
#include <vector>

#include "commands.hpp"

// A signal of a queue of the file.
struct Point {
    size_t queue = 0;
    uint64_t value = 0;
};

// What a semaphore or fence stands for: all these signals. None: what was before the file.
using Points = std::vector<Point>;

struct Semaphore {
    bool timeline = false;
    Points last;
    // Of a timeline: what reaches which value, in rising order.
    std::vector<std::pair<uint64_t, Points>> signals;
    // The value that it has without any signal of the file.
    uint64_t before = 0;

    // The first signal that reaches a value; nothing where none does so far.
    const Points *reaching(uint64_t value) const;
};

struct Fence {
    Points points;
};

struct DependencyItem {
    const char *call;
    std::vector<Barrier> barriers;
};

struct ActionItem {
    std::string name;
    std::vector<Touch> touches;
};

using Item = std::variant<DependencyItem, ActionItem>;

// A wait for a point, or for a value of a timeline that may be signalled later.
struct Wait {
    std::variant<Point, std::pair<Ref<Semaphore>, uint64_t>> what;
    VkPipelineStageFlags2 stages = VK_PIPELINE_STAGE_2_ALL_COMMANDS_BIT;
};

struct Batch {
    uint64_t turn = 0;
    std::vector<Wait> waits;
    std::vector<Item> items;
    uint64_t value = 0;
    VkPipelineStageFlags2 signal_stages = VK_PIPELINE_STAGE_2_ALL_COMMANDS_BIT;
};

struct FileQueue {
    enum class Kind { device, presentation };
    Kind kind = Kind::device;
    std::string name;
    VkQueueFlags family = 0;
    std::vector<Batch> batches;
    // What this queue has waited for of each queue because the host knew of it.
    std::vector<uint64_t> waited;
    uint64_t last_value() const { return batches.empty() ? 0 : batches.back().value; }
};
