// The order in which batches are handed to the device, so that no wait stands before its signal.
#pragma once

#include "program.hpp"

namespace replay {

enum class Direction { lowest_first, highest_first };

// A run of batches of one queue: what one call of vkQueueSubmit2 takes.
struct Run {
    uint32_t queue;
    size_t first, count;
};

// Ends with `stuck` where no queue can go on and batches are left.
std::vector<Run> drain(const Program &program, Direction direction);

} // namespace replay
