#pragma once
#include <optional>
#include <variant>

#include "objects.hpp"

// How an action touches a piece: the roles of format 3.
enum class Role {
    indirect, index, vertex, uniform, sampled, input, storage_read, storage_write, storage, color, depth, depth_read,
    copy_read, blit_read, resolve_read, copy_write, blit_write, resolve_write, clear_write, present,
};

// `whole` says of a store that nothing of the old bytes of the range is left. `stages` are those of
// shaders, for the roles that have some.
struct Touch {
    std::variant<BufferRange, ImageRange> where;
    Role role{};
    VkPipelineStageFlags2 stages = 0;
    VkImageLayout layout = VK_IMAGE_LAYOUT_UNDEFINED;
    bool whole = false;
    // What the format cannot say of it; counted where it is in the file.
    const char *remark = nullptr;
};

struct Masks {
    VkPipelineStageFlags2 src_stages = 0;
    VkAccessFlags2 src_access = 0;
    VkPipelineStageFlags2 dst_stages = 0;
    VkAccessFlags2 dst_access = 0;
    bool operator==(const Masks &) const = default;
};

struct Families {
    uint32_t from = VK_QUEUE_FAMILY_IGNORED, to = VK_QUEUE_FAMILY_IGNORED;
};

struct GlobalBarrier {
    Masks masks;
};
struct BufferBarrier {
    Masks masks;
    BufferRange range;
    Families families;
};
struct ImageBarrier {
    Masks masks;
    ImageRange range;
    Families families;
    VkImageLayout from, to;
};
using Barrier = std::variant<GlobalBarrier, BufferBarrier, ImageBarrier>;

// Vertex buffers, descriptors and shaders as they are bound for a draw or dispatch.
struct BoundSet {
    Ref<DescriptorSet> set;
    std::vector<uint32_t> dynamic_offsets;
};
struct Bound {
    Ref<const Pipeline> pipeline;
    std::map<VkShaderStageFlags, Ref<const ShaderObject>> shaders;
    std::vector<BoundSet> sets;
    std::map<uint32_t, BufferRange> vertex_buffers;
    std::vector<uint32_t> dynamic_vertex_bindings;
};

// What is recorded, command by command.
struct Dependency {
    const char *call;
    std::vector<Barrier> barriers;
};
struct Transfer {
    const char *call;
    std::vector<Touch> touches;
};
struct Draw {
    Ref<const Bound> bound;
    std::vector<Touch> touches;
};
struct Dispatch {
    const char *call;
    Ref<const Bound> bound;
    std::vector<Touch> touches;
};
struct BeginRendering {
    std::vector<Touch> attachments;
    bool resumes = false;
    std::vector<const char *> remarks;
};
struct EndRendering {
    bool suspends = false;
};
struct BeginRenderPass {
    Ref<const RenderPass> pass;
    std::vector<Ref<ImageView>> attachments;
    std::vector<const char *> remarks;
};
struct NextSubpass {};
struct EndRenderPass {};
struct BeginLabel {
    std::string name;
};
struct EndLabel {};
struct Unsaid {
    const char *what;
};

struct Recording;
struct Execute {
    std::vector<Ref<const Recording>> recordings;
};

using Command = std::variant<Dependency, Transfer, Draw, Dispatch, BeginRendering, EndRendering, BeginRenderPass, NextSubpass,
                             EndRenderPass, BeginLabel, EndLabel, Unsaid, Execute>;

// A change of layout, for the layouts that are kept from the first submission on.
struct LayoutChange {
    ImageRange range;
    VkImageLayout to;
};

struct Recording {
    std::vector<Command> commands;
    std::vector<LayoutChange> layouts;
};

// A command buffer, and what is bound while it is recorded.
struct CommandBuffer {
    VkCommandPool pool = VK_NULL_HANDLE;
    Ref<Recording> recording = std::make_shared<Recording>();
    std::map<VkPipelineBindPoint, Bound> bound;
    std::map<VkPipelineBindPoint, Ref<const Bound>> recorded;
    BufferRange index_buffer;
    VkDeviceSize index_size = 0;
    Ref<const RenderPass> pass;
    std::vector<Ref<ImageView>> pass_attachments;
    uint32_t suspends = 0;
};
