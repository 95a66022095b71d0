// Draws and dispatches.

#include "hooks.hpp"
#include "ranges.hpp"
#include "recorder.hpp"

namespace {

Ref<const Bound> snapshot(CommandBuffer &buffer, VkPipelineBindPoint point) {
    Ref<const Bound> &kept = buffer.recorded[point];
    if (!kept) kept = std::make_shared<Bound>(buffer.bound[point]);
    return kept;
}

void touch(std::vector<Touch> &touches, const BufferRange &range, Role role) {
    if (range.buffer && range.size > 0) touches.push_back({range, role, 0, VK_IMAGE_LAYOUT_UNDEFINED, false, nullptr});
}

// The indices of a draw whose first one and number are known.
BufferRange indices_of(const CommandBuffer &buffer, uint32_t first, uint32_t count) {
    const BufferRange &all = buffer.index_buffer;
    if (!all.buffer) return {};
    return range_of(all.buffer, all.offset + first * buffer.index_size, count * buffer.index_size);
}

void record_draw(CommandBuffer &buffer, std::vector<Touch> touches) {
    auto bound = snapshot(buffer, VK_PIPELINE_BIND_POINT_GRAPHICS);
    auto &commands = buffer.recording->commands;
    const Draw *last = commands.empty() ? nullptr : std::get_if<Draw>(&commands.back());
    const bool says_the_same = last != nullptr && last->bound == bound && touches.empty() && last->touches.empty();
    if (!says_the_same) commands.push_back(Draw{std::move(bound), std::move(touches)});
}

struct Indirect {
    VkBuffer buffer;
    VkDeviceSize offset, bytes;
};

// So many of the device's structures in a buffer.
template <class Structure> Indirect structures(VkBuffer buffer, VkDeviceSize offset, uint32_t count, uint32_t stride) {
    return {buffer, offset, count == 0 ? 0 : VkDeviceSize{count - 1} * stride + sizeof(Structure)};
}

Indirect count_in(VkBuffer buffer, VkDeviceSize offset) { return {buffer, offset, sizeof(uint32_t)}; }

void draw_indirect(Device &layer, VkCommandBuffer commandBuffer, std::initializer_list<Indirect> read, bool indexed) {
    const auto buffer = buffer_of(layer, commandBuffer);
    if (!buffer) return;
    std::vector<Touch> touches;
    for (const Indirect &part : read) {
        touch(touches, range_of(layer.objects.buffers.find(part.buffer), part.offset, part.bytes), Role::indirect);
    }
    if (indexed) touch(touches, buffer->index_buffer, Role::index);
    record_draw(*buffer, std::move(touches));
}

void dispatch(Device &layer, VkCommandBuffer commandBuffer, const char *call, std::vector<Touch> touches = {}) {
    const auto buffer = buffer_of(layer, commandBuffer);
    if (buffer) record(*buffer, Dispatch{call, snapshot(*buffer, VK_PIPELINE_BIND_POINT_COMPUTE), std::move(touches)});
}

}  // namespace

namespace hook {

void CmdDraw(Device &layer, VkCommandBuffer commandBuffer, uint32_t, uint32_t, uint32_t, uint32_t) {
    if (const auto buffer = buffer_of(layer, commandBuffer)) record_draw(*buffer, {});
}

void CmdDrawIndexed(Device &layer, VkCommandBuffer commandBuffer, uint32_t indexCount, uint32_t, uint32_t firstIndex, int32_t, uint32_t) {
    const auto buffer = buffer_of(layer, commandBuffer);
    if (!buffer) return;
    std::vector<Touch> touches;
    touch(touches, indices_of(*buffer, firstIndex, indexCount), Role::index);
    record_draw(*buffer, std::move(touches));
}

void CmdDrawMultiEXT(Device &layer, VkCommandBuffer commandBuffer, uint32_t, const VkMultiDrawInfoEXT *, uint32_t, uint32_t, uint32_t) {
    if (const auto buffer = buffer_of(layer, commandBuffer)) record_draw(*buffer, {});
}

void CmdDrawMultiIndexedEXT(Device &layer, VkCommandBuffer commandBuffer, uint32_t drawCount, const VkMultiDrawIndexedInfoEXT *pIndexInfo,
                            uint32_t, uint32_t, uint32_t stride, const int32_t *) {
    const auto buffer = buffer_of(layer, commandBuffer);
    if (!buffer) return;
    std::vector<Touch> touches;
    for (uint32_t place = 0; place < drawCount; ++place) {
        const auto *info = reinterpret_cast<const VkMultiDrawIndexedInfoEXT *>(reinterpret_cast<const char *>(pIndexInfo) +
                                                                             std::size_t{place} * stride);
        touch(touches, indices_of(*buffer, info->firstIndex, info->indexCount), Role::index);
    }
    record_draw(*buffer, std::move(touches));
}

void CmdDrawMeshTasksEXT(Device &layer, VkCommandBuffer commandBuffer, uint32_t, uint32_t, uint32_t) {
    if (const auto buffer = buffer_of(layer, commandBuffer)) record_draw(*buffer, {});
}

void CmdDrawIndirect(Device &layer, VkCommandBuffer commandBuffer, VkBuffer buffer, VkDeviceSize offset, uint32_t drawCount, uint32_t stride) {
    draw_indirect(layer, commandBuffer, {structures<VkDrawIndirectCommand>(buffer, offset, drawCount, stride)}, false);
}

void CmdDrawIndexedIndirect(Device &layer, VkCommandBuffer commandBuffer, VkBuffer buffer, VkDeviceSize offset, uint32_t drawCount,
                            uint32_t stride) {
    draw_indirect(layer, commandBuffer, {structures<VkDrawIndexedIndirectCommand>(buffer, offset, drawCount, stride)}, true);
}

void CmdDrawIndirectCount(Device &layer, VkCommandBuffer commandBuffer, VkBuffer buffer, VkDeviceSize offset, VkBuffer countBuffer,
                          VkDeviceSize countBufferOffset, uint32_t maxDrawCount, uint32_t stride) {
    const auto commands = structures<VkDrawIndirectCommand>(buffer, offset, maxDrawCount, stride);
    draw_indirect(layer, commandBuffer, {commands, count_in(countBuffer, countBufferOffset)}, false);
}

void CmdDrawIndexedIndirectCount(Device &layer, VkCommandBuffer commandBuffer, VkBuffer buffer, VkDeviceSize offset, VkBuffer countBuffer,
                                 VkDeviceSize countBufferOffset, uint32_t maxDrawCount, uint32_t stride) {
    const auto commands = structures<VkDrawIndexedIndirectCommand>(buffer, offset, maxDrawCount, stride);
    draw_indirect(layer, commandBuffer, {commands, count_in(countBuffer, countBufferOffset)}, true);
}

void CmdDispatch(Device &layer, VkCommandBuffer commandBuffer, uint32_t, uint32_t, uint32_t) { dispatch(layer, commandBuffer, "dispatch"); }

void CmdDispatchBase(Device &layer, VkCommandBuffer commandBuffer, uint32_t, uint32_t, uint32_t, uint32_t, uint32_t, uint32_t) {
    dispatch(layer, commandBuffer, "dispatch");
}

void CmdDispatchIndirect(Device &layer, VkCommandBuffer commandBuffer, VkBuffer buffer, VkDeviceSize offset) {
    std::vector<Touch> touches;
    touch(touches, range_of(layer.objects.buffers.find(buffer), offset, sizeof(VkDispatchIndirectCommand)), Role::indirect);
    dispatch(layer, commandBuffer, "indirect dispatch", std::move(touches));
}

}  // namespace hook
