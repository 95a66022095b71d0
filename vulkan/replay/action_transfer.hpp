// An action's copies, blits, resolves and clears, each with a scratch resource on the other side.
#pragma once

#include "context.hpp"
#include "scratch.hpp"

namespace replay {

void record_transfer(Context &context, Scratch &scratch, VkCommandBuffer commands, const Use &use);

} // namespace replay
