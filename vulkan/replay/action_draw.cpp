#include "action_draw.hpp"

#include "action_text.hpp"
#include "attachments.hpp"
#include "graphics.hpp"

#include <algorithm>

namespace replay {

namespace {

constexpr uint64_t bytes_of_an_index = 2;
constexpr uint64_t corners = 3; // of a triangle

std::vector<const BufferResource *> buffers_in(const Context &context, const std::vector<Use> &uses, Role role) {
    std::vector<const BufferResource *> found;
    for (const Use &use : uses)
        if (use.role == role)
            found.push_back(&context.resources.buffer(use.piece));
    return found;
}

// So many vertices that each buffer is read from its front to its end with a stride that the device takes.
uint64_t vertex_count(const Context &context, const std::vector<const BufferResource *> &buffers) {
    uint64_t count = corners;
    const uint64_t longest = context.device.limits().maxVertexInputBindingStride;
    for (const BufferResource *buffer : buffers)
        count = std::max(count, (buffer->size + longest - 1) / longest);
    for (const BufferResource *buffer : buffers)
        count = std::min(count, buffer->size);
    return count;
}

void need(const BufferResource &buffer, uint64_t bytes, const char *what) {
    if (buffer.size < bytes)
        throw Ended(Ending::not_together, std::string(what) + " has fewer bytes than Vulkan reads at least: " + std::to_string(bytes));
}

class Drawing {
  public:
    Drawing(Context &context, VkCommandBuffer commands, const std::vector<Use> &uses)
        : context(context), commands(commands), uses(uses), attachments(context, uses), rendering(context, attachments),
          vertices(buffers_in(context, uses, Role::vertex)), indices(buffers_in(context, uses, Role::index)),
          indirect(buffers_in(context, uses, Role::indirect)), count(vertex_count(context, vertices)) {}

    void record() {
        const BoundSet &set = context.sets.emplace_back(context.device.get(), bindings_of(context, uses), 0, 0);
        context.pipelines.push_back(pipeline(set).make(context.device.get()));
        rendering.begin(commands);
        vkCmdBindPipeline(commands, VK_PIPELINE_BIND_POINT_GRAPHICS, context.pipelines.back().get());
        set.bind(commands, VK_PIPELINE_BIND_POINT_GRAPHICS);
        set_area(commands, attachments.area, {{0, 0}, attachments.area});
        bind_buffers();
        draw();
        rendering.end(commands);
    }

  private:
    GraphicsPipeline pipeline(const BoundSet &set) {
        GraphicsPipeline wanted;
        wanted.layout = set.layout();
        const auto text = [&](VkPipelineStageFlags2 stage, size_t attributes, const std::vector<Channel> &colors) {
            return shader_text(context, uses, stage, attributes, colors);
        };
        wanted.vertex = context.shaders.module(VK_SHADER_STAGE_VERTEX_BIT,
                                               text(VK_PIPELINE_STAGE_2_VERTEX_SHADER_BIT, vertices.size(), {}));
        wanted.fragment = context.shaders.module(VK_SHADER_STAGE_FRAGMENT_BIT,
                                                 text(VK_PIPELINE_STAGE_2_FRAGMENT_SHADER_BIT, 0, attachments.channels()));
        for (const Attachment &color : attachments.colors)
            wanted.colors.push_back(color.image->kind.format);
        if (!attachments.depths.empty()) {
            wanted.depth = attachments.depths[0].image->kind.format;
            wanted.depth_writes = attachments.depths[0].use.role == Role::depth;
        }
        wanted.samples = attachments.samples;
        for (const BufferResource *buffer : vertices)
            wanted.vertices.push_back({static_cast<uint32_t>(buffer->size / count)});
        wanted.render_pass = rendering.pass();
        return wanted;
    }

    void bind_buffers() const {
        for (uint32_t k = 0; k < vertices.size(); ++k) {
            const VkBuffer buffer = vertices[k]->buffer.get();
            const VkDeviceSize offset = 0;
            vkCmdBindVertexBuffers(commands, k, 1, &buffer, &offset);
        }
        if (!indices.empty()) {
            need(*indices[0], bytes_of_an_index, "an index buffer");
            vkCmdBindIndexBuffer(commands, indices[0]->buffer.get(), 0, VK_INDEX_TYPE_UINT16);
        }
    }

    void draw() const {
        const auto index_count = indices.empty() ? 0 : static_cast<uint32_t>(indices[0]->size / bytes_of_an_index);
        if (!indirect.empty() && !indices.empty()) {
            need(*indirect[0], sizeof(VkDrawIndexedIndirectCommand), "an indirect buffer");
            vkCmdDrawIndexedIndirect(commands, indirect[0]->buffer.get(), 0, 1, sizeof(VkDrawIndexedIndirectCommand));
        } else if (!indirect.empty()) {
            need(*indirect[0], sizeof(VkDrawIndirectCommand), "an indirect buffer");
            vkCmdDrawIndirect(commands, indirect[0]->buffer.get(), 0, 1, sizeof(VkDrawIndirectCommand));
        } else if (!indices.empty()) {
            vkCmdDrawIndexed(commands, index_count, 1, 0, 0, 0);
        } else {
            vkCmdDraw(commands, static_cast<uint32_t>(count), 1, 0, 0);
        }
    }

    Context &context;
    VkCommandBuffer commands;
    const std::vector<Use> &uses;
    Attachments attachments;
    Rendering rendering;
    std::vector<const BufferResource *> vertices, indices, indirect;
    uint64_t count;
};

} // namespace

void record_draw(Context &context, VkCommandBuffer commands, const Shaded &draw) { Drawing(context, commands, draw.uses).record(); }

void record_dispatch(Context &context, VkCommandBuffer commands, const Shaded &dispatch) {
    const BoundSet &set = context.sets.emplace_back(context.device.get(), bindings_of(context, dispatch.uses), 0, 0);
    const std::string text = shader_text(context, dispatch.uses, VK_PIPELINE_STAGE_2_COMPUTE_SHADER_BIT, 0, {});
    context.pipelines.push_back(
        compute_pipeline(context.device.get(), set.layout(), context.shaders.module(VK_SHADER_STAGE_COMPUTE_BIT, text)));
    vkCmdBindPipeline(commands, VK_PIPELINE_BIND_POINT_COMPUTE, context.pipelines.back().get());
    set.bind(commands, VK_PIPELINE_BIND_POINT_COMPUTE);
    const auto indirect = buffers_in(context, dispatch.uses, Role::indirect);
    if (indirect.empty()) {
        vkCmdDispatch(commands, 1, 1, 1);
        return;
    }
    need(*indirect[0], sizeof(VkDispatchIndirectCommand), "an indirect buffer");
    vkCmdDispatchIndirect(commands, indirect[0]->buffer.get(), 0);
}

} // namespace replay
