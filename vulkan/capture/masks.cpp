#include "masks.hpp"

#include <algorithm>

namespace {

struct StageWord {
    VkPipelineStageFlags2 bit;
    const char *word;
};

constexpr StageWord stage_list[] = {
    {VK_PIPELINE_STAGE_2_DRAW_INDIRECT_BIT, "DRAW_INDIRECT"},
    {VK_PIPELINE_STAGE_2_VERTEX_INPUT_BIT, "VERTEX_INPUT"},
    {VK_PIPELINE_STAGE_2_VERTEX_SHADER_BIT, "VERTEX_SHADER"},
    {VK_PIPELINE_STAGE_2_FRAGMENT_SHADER_BIT, "FRAGMENT_SHADER"},
    {VK_PIPELINE_STAGE_2_EARLY_FRAGMENT_TESTS_BIT, "EARLY_FRAGMENT_TESTS"},
    {VK_PIPELINE_STAGE_2_LATE_FRAGMENT_TESTS_BIT, "LATE_FRAGMENT_TESTS"},
    {VK_PIPELINE_STAGE_2_COLOR_ATTACHMENT_OUTPUT_BIT, "COLOR_ATTACHMENT_OUTPUT"},
    {VK_PIPELINE_STAGE_2_COMPUTE_SHADER_BIT, "COMPUTE_SHADER"},
    {VK_PIPELINE_STAGE_2_ALL_TRANSFER_BIT, "ALL_TRANSFER"},
    {VK_PIPELINE_STAGE_2_HOST_BIT, "HOST"},
    {VK_PIPELINE_STAGE_2_ALL_GRAPHICS_BIT, "ALL_GRAPHICS"},
    {VK_PIPELINE_STAGE_2_ALL_COMMANDS_BIT, "ALL_COMMANDS"},
    {VK_PIPELINE_STAGE_2_COPY_BIT, "COPY"},
    {VK_PIPELINE_STAGE_2_RESOLVE_BIT, "RESOLVE"},
    {VK_PIPELINE_STAGE_2_BLIT_BIT, "BLIT"},
    {VK_PIPELINE_STAGE_2_CLEAR_BIT, "CLEAR"},
    {VK_PIPELINE_STAGE_2_INDEX_INPUT_BIT, "INDEX_INPUT"},
    {VK_PIPELINE_STAGE_2_VERTEX_ATTRIBUTE_INPUT_BIT, "VERTEX_ATTRIBUTE_INPUT"},
    {VK_PIPELINE_STAGE_2_PRE_RASTERIZATION_SHADERS_BIT, "PRE_RASTERIZATION_SHADERS"},
};

constexpr VkPipelineStageFlags2 shaders = VK_PIPELINE_STAGE_2_VERTEX_SHADER_BIT | VK_PIPELINE_STAGE_2_FRAGMENT_SHADER_BIT |
                                          VK_PIPELINE_STAGE_2_COMPUTE_SHADER_BIT;
constexpr VkPipelineStageFlags2 tests =
    VK_PIPELINE_STAGE_2_EARLY_FRAGMENT_TESTS_BIT | VK_PIPELINE_STAGE_2_LATE_FRAGMENT_TESTS_BIT;
constexpr VkPipelineStageFlags2 moves = VK_PIPELINE_STAGE_2_COPY_BIT | VK_PIPELINE_STAGE_2_RESOLVE_BIT | VK_PIPELINE_STAGE_2_BLIT_BIT;
constexpr VkPipelineStageFlags2 every = ~VkPipelineStageFlags2{0};

// An access, and the stages that support it.
struct AccessWord {
    VkAccessFlags2 bit;
    const char *word;
    VkPipelineStageFlags2 stages;
};

constexpr AccessWord access_list[] = {
    {VK_ACCESS_2_INDIRECT_COMMAND_READ_BIT, "INDIRECT_COMMAND_READ", VK_PIPELINE_STAGE_2_DRAW_INDIRECT_BIT},
    {VK_ACCESS_2_INDEX_READ_BIT, "INDEX_READ", VK_PIPELINE_STAGE_2_INDEX_INPUT_BIT},
    {VK_ACCESS_2_VERTEX_ATTRIBUTE_READ_BIT, "VERTEX_ATTRIBUTE_READ", VK_PIPELINE_STAGE_2_VERTEX_ATTRIBUTE_INPUT_BIT},
    {VK_ACCESS_2_UNIFORM_READ_BIT, "UNIFORM_READ", shaders},
    {VK_ACCESS_2_INPUT_ATTACHMENT_READ_BIT, "INPUT_ATTACHMENT_READ", VK_PIPELINE_STAGE_2_FRAGMENT_SHADER_BIT},
    {VK_ACCESS_2_SHADER_READ_BIT, "SHADER_READ", shaders},
    {VK_ACCESS_2_SHADER_WRITE_BIT, "SHADER_WRITE", shaders},
    {VK_ACCESS_2_COLOR_ATTACHMENT_READ_BIT, "COLOR_ATTACHMENT_READ", VK_PIPELINE_STAGE_2_COLOR_ATTACHMENT_OUTPUT_BIT},
    {VK_ACCESS_2_COLOR_ATTACHMENT_WRITE_BIT, "COLOR_ATTACHMENT_WRITE", VK_PIPELINE_STAGE_2_COLOR_ATTACHMENT_OUTPUT_BIT},
    {VK_ACCESS_2_DEPTH_STENCIL_ATTACHMENT_READ_BIT, "DEPTH_STENCIL_ATTACHMENT_READ", tests},
    {VK_ACCESS_2_DEPTH_STENCIL_ATTACHMENT_WRITE_BIT, "DEPTH_STENCIL_ATTACHMENT_WRITE", tests},
    {VK_ACCESS_2_TRANSFER_READ_BIT, "TRANSFER_READ", moves},
    {VK_ACCESS_2_TRANSFER_WRITE_BIT, "TRANSFER_WRITE", moves | VK_PIPELINE_STAGE_2_CLEAR_BIT},
    {VK_ACCESS_2_HOST_READ_BIT, "HOST_READ", VK_PIPELINE_STAGE_2_HOST_BIT},
    {VK_ACCESS_2_HOST_WRITE_BIT, "HOST_WRITE", VK_PIPELINE_STAGE_2_HOST_BIT},
    {VK_ACCESS_2_MEMORY_READ_BIT, "MEMORY_READ", every},
    {VK_ACCESS_2_MEMORY_WRITE_BIT, "MEMORY_WRITE", every},
    {VK_ACCESS_2_SHADER_SAMPLED_READ_BIT, "SHADER_SAMPLED_READ", shaders},
    {VK_ACCESS_2_SHADER_STORAGE_READ_BIT, "SHADER_STORAGE_READ", shaders},
    {VK_ACCESS_2_SHADER_STORAGE_WRITE_BIT, "SHADER_STORAGE_WRITE", shaders},
};

constexpr VkPipelineStageFlags2 graphics =
    VK_PIPELINE_STAGE_2_DRAW_INDIRECT_BIT | VK_PIPELINE_STAGE_2_INDEX_INPUT_BIT | VK_PIPELINE_STAGE_2_VERTEX_ATTRIBUTE_INPUT_BIT |
    VK_PIPELINE_STAGE_2_VERTEX_SHADER_BIT | VK_PIPELINE_STAGE_2_FRAGMENT_SHADER_BIT | tests |
    VK_PIPELINE_STAGE_2_COLOR_ATTACHMENT_OUTPUT_BIT;

struct Expansion {
    VkPipelineStageFlags2 bit, to;
};

constexpr Expansion expansions[] = {
    {VK_PIPELINE_STAGE_2_VERTEX_INPUT_BIT,
     VK_PIPELINE_STAGE_2_INDEX_INPUT_BIT | VK_PIPELINE_STAGE_2_VERTEX_ATTRIBUTE_INPUT_BIT},
    {VK_PIPELINE_STAGE_2_PRE_RASTERIZATION_SHADERS_BIT, VK_PIPELINE_STAGE_2_VERTEX_SHADER_BIT},
    {VK_PIPELINE_STAGE_2_ALL_TRANSFER_BIT, moves | VK_PIPELINE_STAGE_2_CLEAR_BIT},
    {VK_PIPELINE_STAGE_2_ALL_GRAPHICS_BIT, graphics},
    {VK_PIPELINE_STAGE_2_ALL_COMMANDS_BIT, graphics | shaders | moves | VK_PIPELINE_STAGE_2_CLEAR_BIT},
};

VkPipelineStageFlags2 expanded(VkPipelineStageFlags2 stages) {
    for (const Expansion &word : expansions) {
        if (stages & word.bit) stages |= word.to;
    }
    return stages;
}

VkPipelineStageFlags2 known_stages(VkPipelineStageFlags2 stages) {
    VkPipelineStageFlags2 known = 0;
    for (const StageWord &stage : stage_list) known |= stages & stage.bit;
    return known;
}

VkAccessFlags2 supported(VkAccessFlags2 access, VkPipelineStageFlags2 stages) {
    VkAccessFlags2 kept = 0;
    for (const AccessWord &word : access_list) {
        if ((access & word.bit) && (expanded(stages) & word.stages)) kept |= word.bit;
    }
    return kept;
}

template <class List> std::string joined_words(const List &list, uint64_t mask) {
    std::string text;
    for (const auto &entry : list) {
        if (!(mask & entry.bit)) continue;
        if (!text.empty()) text += '|';
        text += entry.word;
    }
    return text;
}

}  // namespace

VkPipelineStageFlags2 stages_of(VkQueueFlags family) {
    constexpr VkPipelineStageFlags2 of_all = VK_PIPELINE_STAGE_2_ALL_COMMANDS_BIT | VK_PIPELINE_STAGE_2_HOST_BIT |
                                             VK_PIPELINE_STAGE_2_ALL_TRANSFER_BIT | moves | VK_PIPELINE_STAGE_2_CLEAR_BIT;
    if (family & VK_QUEUE_GRAPHICS_BIT) return every;
    return family & VK_QUEUE_COMPUTE_BIT ? of_all | VK_PIPELINE_STAGE_2_COMPUTE_SHADER_BIT | VK_PIPELINE_STAGE_2_DRAW_INDIRECT_BIT : of_all;
}

SaidMask said_mask(VkPipelineStageFlags2 stages, VkAccessFlags2 access, Side side, VkQueueFlags family,
                   VkPipelineStageFlags2 other_stages) {
    const VkPipelineStageFlags2 end =
        side == Side::source ? VK_PIPELINE_STAGE_2_BOTTOM_OF_PIPE_BIT : VK_PIPELINE_STAGE_2_TOP_OF_PIPE_BIT;
    SaidMask said;
    said.stages = known_stages(stages) & stages_of(family);
    said.foreign = said.stages != known_stages(stages);
    if ((stages & other_stages) != other_stages) said.stages &= ~VK_PIPELINE_STAGE_2_VERTEX_SHADER_BIT;
    said.access = supported(access, said.stages);
    if (!(stages & end)) return said;
    if (said.access == 0) {
        said.stages = VK_PIPELINE_STAGE_2_ALL_COMMANDS_BIT | (said.stages & VK_PIPELINE_STAGE_2_HOST_BIT);
    } else {
        said.all_beside = true;
    }
    return said;
}

std::string stage_words(VkPipelineStageFlags2 stages) { return joined_words(stage_list, stages); }
std::string access_words(VkAccessFlags2 access) { return joined_words(access_list, access); }

const char *layout_word(VkImageLayout layout, bool linear) {
    switch (layout) {
    case VK_IMAGE_LAYOUT_UNDEFINED: return "UNDEFINED";
    case VK_IMAGE_LAYOUT_PREINITIALIZED: return linear ? "GENERAL" : "UNDEFINED";
    case VK_IMAGE_LAYOUT_COLOR_ATTACHMENT_OPTIMAL: return "COLOR_ATTACHMENT_OPTIMAL";
    case VK_IMAGE_LAYOUT_DEPTH_STENCIL_ATTACHMENT_OPTIMAL:
    case VK_IMAGE_LAYOUT_DEPTH_ATTACHMENT_OPTIMAL:
    case VK_IMAGE_LAYOUT_STENCIL_ATTACHMENT_OPTIMAL:
    case VK_IMAGE_LAYOUT_DEPTH_READ_ONLY_STENCIL_ATTACHMENT_OPTIMAL:
    case VK_IMAGE_LAYOUT_DEPTH_ATTACHMENT_STENCIL_READ_ONLY_OPTIMAL: return "DEPTH_STENCIL_ATTACHMENT_OPTIMAL";
    case VK_IMAGE_LAYOUT_DEPTH_STENCIL_READ_ONLY_OPTIMAL:
    case VK_IMAGE_LAYOUT_DEPTH_READ_ONLY_OPTIMAL:
    case VK_IMAGE_LAYOUT_STENCIL_READ_ONLY_OPTIMAL: return "DEPTH_STENCIL_READ_ONLY_OPTIMAL";
    case VK_IMAGE_LAYOUT_SHADER_READ_ONLY_OPTIMAL: return "SHADER_READ_ONLY_OPTIMAL";
    case VK_IMAGE_LAYOUT_TRANSFER_SRC_OPTIMAL: return "TRANSFER_SRC_OPTIMAL";
    case VK_IMAGE_LAYOUT_TRANSFER_DST_OPTIMAL: return "TRANSFER_DST_OPTIMAL";
    case VK_IMAGE_LAYOUT_READ_ONLY_OPTIMAL: return "READ_ONLY_OPTIMAL";
    case VK_IMAGE_LAYOUT_ATTACHMENT_OPTIMAL: return "ATTACHMENT_OPTIMAL";
    case VK_IMAGE_LAYOUT_PRESENT_SRC_KHR: return "PRESENT_SRC_KHR";
    default: return "GENERAL";
    }
}

const char *family_word(VkQueueFlags family) {
    if (family & VK_QUEUE_GRAPHICS_BIT) return "graphics";
    return family & VK_QUEUE_COMPUTE_BIT ? "compute" : "transfer";
}

RoleWord role_word(Role role) {
    switch (role) {
    case Role::indirect: return {"indirect", false, false};
    case Role::index: return {"index", false, false};
    case Role::vertex: return {"vertex", false, false};
    case Role::uniform: return {"uniform", false, true};
    case Role::sampled: return {"sampled", false, true};
    case Role::input: return {"input", false, false};
    case Role::storage_read: return {"storage_read", false, true};
    case Role::storage_write: return {"storage_write", true, true};
    case Role::storage: return {"storage", true, true};
    case Role::color: return {"color", true, false};
    case Role::depth: return {"depth", true, false};
    case Role::depth_read: return {"depth_read", false, false};
    case Role::copy_read: return {"copy_read", false, false};
    case Role::blit_read: return {"blit_read", false, false};
    case Role::resolve_read: return {"resolve_read", false, false};
    case Role::copy_write: return {"copy_write", true, false};
    case Role::blit_write: return {"blit_write", true, false};
    case Role::resolve_write: return {"resolve_write", true, false};
    case Role::clear_write: return {"clear_write", true, false};
    case Role::present: return {"present", false, false};
    }
    return {"", false, false};
}
