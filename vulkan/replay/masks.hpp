// Words of submission files for stages, accesses and layouts, and Vulkan's bits for them.
#pragma once

#include <vulkan/vulkan.h>

#include <optional>
#include <string_view>

namespace replay {

struct Masks {
    VkPipelineStageFlags2 source_stages = 0;
    VkAccessFlags2 source_accesses = 0;
    VkPipelineStageFlags2 destination_stages = 0;
    VkAccessFlags2 destination_accesses = 0;
};

// A mask is names joined by `|`; nothing is told where a name is unknown.
std::optional<VkPipelineStageFlags2> stages_of(std::string_view text);
std::optional<VkAccessFlags2> accesses_of(std::string_view text);
std::optional<VkImageLayout> layout_of(std::string_view text);

} // namespace replay
