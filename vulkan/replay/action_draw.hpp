// An action's draw: one rendering with its attachments, buffers and descriptors.
#pragma once

#include "action_plan.hpp"

namespace replay {

void record_draw(Context &context, VkCommandBuffer commands, const Shaded &draw);
void record_dispatch(Context &context, VkCommandBuffer commands, const Shaded &dispatch);

} // namespace replay
