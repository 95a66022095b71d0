// Which commands an action is: its uses, parted so that each part fits into one command.
#pragma once

#include "context.hpp"

namespace replay {

// Uses of one draw or of one dispatch.
struct Shaded {
    std::vector<Use> uses;
};

struct ActionPlan {
    std::vector<Shaded> draws;
    std::vector<Shaded> dispatches;
    std::vector<Use> transfers; // a command each

    size_t commands() const { return draws.size() + dispatches.size() + transfers.size(); }
};

inline constexpr VkPipelineStageFlags2 graphics_shaders = VK_PIPELINE_STAGE_2_VERTEX_SHADER_BIT | VK_PIPELINE_STAGE_2_FRAGMENT_SHADER_BIT;

ActionPlan plan_of(const Context &context, const Action &action);

} // namespace replay
