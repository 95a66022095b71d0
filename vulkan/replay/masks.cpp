#include "masks.hpp"

#include <span>

namespace replay {

namespace {

struct Name {
    std::string_view text;
    uint64_t bits;
};

constexpr Name stage_names[] = {
    {"DRAW_INDIRECT", VK_PIPELINE_STAGE_2_DRAW_INDIRECT_BIT},
    {"VERTEX_INPUT", VK_PIPELINE_STAGE_2_VERTEX_INPUT_BIT},
    {"VERTEX_SHADER", VK_PIPELINE_STAGE_2_VERTEX_SHADER_BIT},
    {"FRAGMENT_SHADER", VK_PIPELINE_STAGE_2_FRAGMENT_SHADER_BIT},
    {"EARLY_FRAGMENT_TESTS", VK_PIPELINE_STAGE_2_EARLY_FRAGMENT_TESTS_BIT},
    {"LATE_FRAGMENT_TESTS", VK_PIPELINE_STAGE_2_LATE_FRAGMENT_TESTS_BIT},
    {"COLOR_ATTACHMENT_OUTPUT", VK_PIPELINE_STAGE_2_COLOR_ATTACHMENT_OUTPUT_BIT},
    {"COMPUTE_SHADER", VK_PIPELINE_STAGE_2_COMPUTE_SHADER_BIT},
    {"ALL_TRANSFER", VK_PIPELINE_STAGE_2_ALL_TRANSFER_BIT},
    {"HOST", VK_PIPELINE_STAGE_2_HOST_BIT},
    {"ALL_GRAPHICS", VK_PIPELINE_STAGE_2_ALL_GRAPHICS_BIT},
    {"ALL_COMMANDS", VK_PIPELINE_STAGE_2_ALL_COMMANDS_BIT},
    {"COPY", VK_PIPELINE_STAGE_2_COPY_BIT},
    {"RESOLVE", VK_PIPELINE_STAGE_2_RESOLVE_BIT},
    {"BLIT", VK_PIPELINE_STAGE_2_BLIT_BIT},
    {"CLEAR", VK_PIPELINE_STAGE_2_CLEAR_BIT},
    {"INDEX_INPUT", VK_PIPELINE_STAGE_2_INDEX_INPUT_BIT},
    {"VERTEX_ATTRIBUTE_INPUT", VK_PIPELINE_STAGE_2_VERTEX_ATTRIBUTE_INPUT_BIT},
    {"PRE_RASTERIZATION_SHADERS", VK_PIPELINE_STAGE_2_PRE_RASTERIZATION_SHADERS_BIT},
};

constexpr Name access_names[] = {
    {"INDIRECT_COMMAND_READ", VK_ACCESS_2_INDIRECT_COMMAND_READ_BIT},
    {"INDEX_READ", VK_ACCESS_2_INDEX_READ_BIT},
    {"VERTEX_ATTRIBUTE_READ", VK_ACCESS_2_VERTEX_ATTRIBUTE_READ_BIT},
    {"UNIFORM_READ", VK_ACCESS_2_UNIFORM_READ_BIT},
    {"INPUT_ATTACHMENT_READ", VK_ACCESS_2_INPUT_ATTACHMENT_READ_BIT},
    {"SHADER_READ", VK_ACCESS_2_SHADER_READ_BIT},
    {"SHADER_WRITE", VK_ACCESS_2_SHADER_WRITE_BIT},
    {"COLOR_ATTACHMENT_READ", VK_ACCESS_2_COLOR_ATTACHMENT_READ_BIT},
    {"COLOR_ATTACHMENT_WRITE", VK_ACCESS_2_COLOR_ATTACHMENT_WRITE_BIT},
    {"DEPTH_STENCIL_ATTACHMENT_READ", VK_ACCESS_2_DEPTH_STENCIL_ATTACHMENT_READ_BIT},
    {"DEPTH_STENCIL_ATTACHMENT_WRITE", VK_ACCESS_2_DEPTH_STENCIL_ATTACHMENT_WRITE_BIT},
    {"TRANSFER_READ", VK_ACCESS_2_TRANSFER_READ_BIT},
    {"TRANSFER_WRITE", VK_ACCESS_2_TRANSFER_WRITE_BIT},
    {"HOST_READ", VK_ACCESS_2_HOST_READ_BIT},
    {"HOST_WRITE", VK_ACCESS_2_HOST_WRITE_BIT},
    {"MEMORY_READ", VK_ACCESS_2_MEMORY_READ_BIT},
    {"MEMORY_WRITE", VK_ACCESS_2_MEMORY_WRITE_BIT},
    {"SHADER_SAMPLED_READ", VK_ACCESS_2_SHADER_SAMPLED_READ_BIT},
    {"SHADER_STORAGE_READ", VK_ACCESS_2_SHADER_STORAGE_READ_BIT},
    {"SHADER_STORAGE_WRITE", VK_ACCESS_2_SHADER_STORAGE_WRITE_BIT},
};

constexpr Name layout_names[] = {
    {"UNDEFINED", VK_IMAGE_LAYOUT_UNDEFINED},
    {"GENERAL", VK_IMAGE_LAYOUT_GENERAL},
    {"COLOR_ATTACHMENT_OPTIMAL", VK_IMAGE_LAYOUT_COLOR_ATTACHMENT_OPTIMAL},
    {"DEPTH_STENCIL_ATTACHMENT_OPTIMAL", VK_IMAGE_LAYOUT_DEPTH_STENCIL_ATTACHMENT_OPTIMAL},
    {"DEPTH_STENCIL_READ_ONLY_OPTIMAL", VK_IMAGE_LAYOUT_DEPTH_STENCIL_READ_ONLY_OPTIMAL},
    {"SHADER_READ_ONLY_OPTIMAL", VK_IMAGE_LAYOUT_SHADER_READ_ONLY_OPTIMAL},
    {"TRANSFER_SRC_OPTIMAL", VK_IMAGE_LAYOUT_TRANSFER_SRC_OPTIMAL},
    {"TRANSFER_DST_OPTIMAL", VK_IMAGE_LAYOUT_TRANSFER_DST_OPTIMAL},
    {"READ_ONLY_OPTIMAL", VK_IMAGE_LAYOUT_READ_ONLY_OPTIMAL},
    {"ATTACHMENT_OPTIMAL", VK_IMAGE_LAYOUT_ATTACHMENT_OPTIMAL},
    {"PRESENT_SRC_KHR", VK_IMAGE_LAYOUT_PRESENT_SRC_KHR},
};

std::optional<uint64_t> bits_of(std::span<const Name> names, std::string_view text) {
    for (const Name &name : names)
        if (name.text == text)
            return name.bits;
    return std::nullopt;
}

std::optional<uint64_t> mask_of(std::span<const Name> names, std::string_view text) {
    uint64_t mask = 0;
    while (!text.empty()) {
        const size_t end = std::min(text.find('|'), text.size());
        const auto bits = bits_of(names, text.substr(0, end));
        // A bar at the end has an empty name behind it.
        if (!bits || end + 1 == text.size())
            return std::nullopt;
        mask |= *bits;
        text.remove_prefix(std::min(end + 1, text.size()));
    }
    return mask;
}

} // namespace

std::optional<VkPipelineStageFlags2> stages_of(std::string_view text) { return mask_of(stage_names, text); }

std::optional<VkAccessFlags2> accesses_of(std::string_view text) { return mask_of(access_names, text); }

std::optional<VkImageLayout> layout_of(std::string_view text) {
    const auto number = bits_of(layout_names, text);
    return number ? std::optional(static_cast<VkImageLayout>(*number)) : std::nullopt;
}

} // namespace replay
