// Actions as real draws, dispatches and transfers.
#pragma once

#include "context.hpp"
#include "scratch.hpp"

namespace replay {

// How many commands it took.
size_t record(Context &context, Scratch &scratch, VkCommandBuffer commands, const Action &action);

} // namespace replay
