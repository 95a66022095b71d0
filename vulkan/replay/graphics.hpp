// Pipelines for draws.
#pragma once

#include "handles.hpp"

#include <optional>
#include <vector>

namespace replay {

struct VertexBinding {
    uint32_t stride;
};

// What a graphics pipeline is made of here: all else is the same for every draw.
struct GraphicsPipeline {
    VkPipelineLayout layout = VK_NULL_HANDLE;
    VkShaderModule vertex = VK_NULL_HANDLE;
    VkShaderModule fragment = VK_NULL_HANDLE;
    std::vector<VkFormat> colors;
    VkFormat depth = VK_FORMAT_UNDEFINED;
    bool depth_writes = false;
    VkSampleCountFlagBits samples = VK_SAMPLE_COUNT_1_BIT;
    std::optional<VkLogicOp> logic;
    std::vector<VertexBinding> vertices;
    VkRenderPass render_pass = VK_NULL_HANDLE; // none: dynamic rendering

    OwnedPipeline make(VkDevice device) const;
};

// Viewport and scissor of a draw over a whole image, or over a part of it.
void set_area(VkCommandBuffer commands, VkExtent2D image, VkRect2D part);

} // namespace replay
