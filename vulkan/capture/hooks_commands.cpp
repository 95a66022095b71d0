// Command buffers, and what is bound in them.

#include <algorithm>
#include <span>

#include "descriptors.hpp"
#include "hooks.hpp"
#include "ranges.hpp"
#include "recorder.hpp"

namespace {

// Changes what is bound; the next draw or dispatch keeps a new copy of it.
template <class Change> void change(Device &layer, VkCommandBuffer commandBuffer, VkPipelineBindPoint point, Change how) {
    const auto buffer = buffer_of(layer, commandBuffer);
    if (!buffer) return;
    buffer->recorded[point] = nullptr;
    how(buffer->bound[point]);
}

void forget_bound(CommandBuffer &buffer) {
    buffer.recording = std::make_shared<Recording>();
    buffer.bound.clear();
    buffer.recorded.clear();
    buffer.index_buffer = {};
    buffer.pass = nullptr;
    buffer.pass_attachments.clear();
    buffer.suspends = 0;
}

bool is_dynamic(VkDescriptorType type) {
    return type == VK_DESCRIPTOR_TYPE_UNIFORM_BUFFER_DYNAMIC || type == VK_DESCRIPTOR_TYPE_STORAGE_BUFFER_DYNAMIC;
}

uint32_t dynamic_count(const DescriptorSet &set) {
    uint32_t count = 0;
    for (const auto &[number, binding] : set.layout->bindings) count += is_dynamic(binding.type) ? binding.count : 0;
    return count;
}

void bind_sets(Device &layer, Bound &bound, uint32_t first, std::span<const VkDescriptorSet> handles,
               std::span<const uint32_t> offsets) {
    if (bound.sets.size() < first + handles.size()) bound.sets.resize(first + handles.size());
    for (size_t place = 0; place < handles.size(); ++place) {
        BoundSet &slot = bound.sets[first + place];
        slot = {layer.objects.sets.find(handles[place]), {}};
        if (!slot.set || !slot.set->layout) continue;
        const size_t taken = std::min<size_t>(dynamic_count(*slot.set), offsets.size());
        slot.dynamic_offsets.assign(offsets.begin(), offsets.begin() + static_cast<std::ptrdiff_t>(taken));
        offsets = offsets.subspan(taken);
    }
}

// A pushed set begins with what was pushed before, and is never changed once a draw has it.
template <class Write> void push(Bound &bound, const Ref<PipelineLayout> &layout, uint32_t set, Write write) {
    if (!layout || set >= layout->sets.size()) return;
    if (bound.sets.size() <= set) bound.sets.resize(set + 1);
    BoundSet &slot = bound.sets[set];
    const bool goes_on = slot.set && slot.set->pool == VK_NULL_HANDLE && slot.set->layout == layout->sets[set];
    auto pushed = goes_on ? std::make_shared<DescriptorSet>(*slot.set) : make_set(layout->sets[set]);
    write(*pushed);
    slot = {pushed, {}};
}

void push_writes(Device &layer, VkCommandBuffer commandBuffer, VkPipelineBindPoint point, VkPipelineLayout layout, uint32_t set,
                 std::span<const VkWriteDescriptorSet> writes) {
    change(layer, commandBuffer, point, [&](Bound &bound) {
        push(bound, layer.objects.pipeline_layouts.find(layout), set, [&](DescriptorSet &pushed) {
            for (const VkWriteDescriptorSet &write : writes) write_descriptors(layer.objects, pushed, write);
        });
    });
}

void bind_vertex_buffers(Device &layer, VkCommandBuffer commandBuffer, uint32_t first, uint32_t count, const VkBuffer *buffers,
                         const VkDeviceSize *offsets, const VkDeviceSize *sizes) {
    change(layer, commandBuffer, VK_PIPELINE_BIND_POINT_GRAPHICS, [&](Bound &bound) {
        for (uint32_t place = 0; place < count; ++place) {
            const VkDeviceSize size = sizes != nullptr ? sizes[place] : VK_WHOLE_SIZE;
            bound.vertex_buffers[first + place] = range_of(layer.objects.buffers.find(buffers[place]), offsets[place], size);
        }
    });
}

VkDeviceSize bytes_of(VkIndexType type) {
    switch (type) {
    case VK_INDEX_TYPE_UINT16: return 2;
    case VK_INDEX_TYPE_UINT32: return 4;
    default: return 1;
    }
}

void bind_index_buffer(Device &layer, VkCommandBuffer commandBuffer, VkBuffer handle, VkDeviceSize offset, VkDeviceSize size,
                       VkIndexType type) {
    const auto buffer = buffer_of(layer, commandBuffer);
    if (!buffer) return;
    buffer->index_buffer = range_of(layer.objects.buffers.find(handle), offset, size);
    buffer->index_size = bytes_of(type);
}

}  // namespace

namespace hook {

void count(Device &layer, VkCommandBuffer commandBuffer, const char *command) { record(layer, commandBuffer, Unsaid{command}); }

void AllocateCommandBuffers(Device &layer, VkResult result, VkDevice, const VkCommandBufferAllocateInfo *pAllocateInfo,
                            VkCommandBuffer *pCommandBuffers) {
    for (uint32_t place = 0; result == VK_SUCCESS && place < pAllocateInfo->commandBufferCount; ++place) {
        auto buffer = std::make_shared<CommandBuffer>();
        buffer->pool = pAllocateInfo->commandPool;
        layer.objects.command_buffers.add(pCommandBuffers[place], buffer);
    }
}

void FreeCommandBuffers(Device &layer, VkDevice, VkCommandPool, uint32_t commandBufferCount, const VkCommandBuffer *pCommandBuffers) {
    for (uint32_t place = 0; place < commandBufferCount; ++place) layer.objects.command_buffers.remove(pCommandBuffers[place]);
}

void DestroyCommandPool(Device &layer, VkDevice, VkCommandPool commandPool, const VkAllocationCallbacks *) {
    layer.objects.command_buffers.remove_if([&](const CommandBuffer &buffer) { return buffer.pool == commandPool; });
}

void BeginCommandBuffer(Device &layer, VkResult result, VkCommandBuffer commandBuffer, const VkCommandBufferBeginInfo *) {
    if (result != VK_SUCCESS) return;
    if (const auto buffer = buffer_of(layer, commandBuffer)) forget_bound(*buffer);
}

void CmdBindPipeline(Device &layer, VkCommandBuffer commandBuffer, VkPipelineBindPoint pipelineBindPoint, VkPipeline pipeline) {
    change(layer, commandBuffer, pipelineBindPoint, [&](Bound &bound) {
        bound.pipeline = layer.objects.pipelines.find(pipeline);
        bound.shaders.clear();
    });
}

#ifdef VK_EXT_shader_object
void CmdBindShadersEXT(Device &layer, VkCommandBuffer commandBuffer, uint32_t stageCount, const VkShaderStageFlagBits *pStages,
                       const VkShaderEXT *pShaders) {
    for (uint32_t place = 0; place < stageCount; ++place) {
        const auto point = pStages[place] == VK_SHADER_STAGE_COMPUTE_BIT ? VK_PIPELINE_BIND_POINT_COMPUTE : VK_PIPELINE_BIND_POINT_GRAPHICS;
        change(layer, commandBuffer, point, [&](Bound &bound) {
            bound.pipeline = nullptr;
            bound.shaders[pStages[place]] = pShaders == nullptr ? nullptr : layer.objects.shader_objects.find(pShaders[place]);
        });
    }
}
#endif

void CmdBindDescriptorSets(Device &layer, VkCommandBuffer commandBuffer, VkPipelineBindPoint pipelineBindPoint, VkPipelineLayout,
                           uint32_t firstSet, uint32_t descriptorSetCount, const VkDescriptorSet *pDescriptorSets,
                           uint32_t dynamicOffsetCount, const uint32_t *pDynamicOffsets) {
    change(layer, commandBuffer, pipelineBindPoint, [&](Bound &bound) {
        bind_sets(layer, bound, firstSet, {pDescriptorSets, descriptorSetCount}, {pDynamicOffsets, dynamicOffsetCount});
    });
}

void CmdPushDescriptorSet(Device &layer, VkCommandBuffer commandBuffer, VkPipelineBindPoint pipelineBindPoint, VkPipelineLayout layout,
                          uint32_t set, uint32_t descriptorWriteCount, const VkWriteDescriptorSet *pDescriptorWrites) {
    push_writes(layer, commandBuffer, pipelineBindPoint, layout, set, {pDescriptorWrites, descriptorWriteCount});
}

void CmdPushDescriptorSetWithTemplate(Device &layer, VkCommandBuffer commandBuffer, VkDescriptorUpdateTemplate descriptorUpdateTemplate,
                                      VkPipelineLayout layout, uint32_t set, const void *pData) {
    const auto from = layer.objects.templates.find(descriptorUpdateTemplate);
    if (!from) return;
    change(layer, commandBuffer, from->point, [&](Bound &bound) {
        push(bound, layer.objects.pipeline_layouts.find(layout), set,
             [&](DescriptorSet &pushed) { write_with_template(layer.objects, pushed, *from, pData); });
    });
}

#ifdef VK_KHR_maintenance6
// The points at which stages of shaders find what is bound.
static std::vector<VkPipelineBindPoint> points_of(VkShaderStageFlags stages) {
    std::vector<VkPipelineBindPoint> points;
    if (stages & VK_SHADER_STAGE_COMPUTE_BIT) points.push_back(VK_PIPELINE_BIND_POINT_COMPUTE);
    if (stages & ~VkShaderStageFlags{VK_SHADER_STAGE_COMPUTE_BIT}) points.push_back(VK_PIPELINE_BIND_POINT_GRAPHICS);
    return points;
}

void CmdBindDescriptorSets2(Device &layer, VkCommandBuffer commandBuffer, const VkBindDescriptorSetsInfo *info) {
    for (const VkPipelineBindPoint point : points_of(info->stageFlags)) {
        CmdBindDescriptorSets(layer, commandBuffer, point, info->layout, info->firstSet, info->descriptorSetCount, info->pDescriptorSets,
                              info->dynamicOffsetCount, info->pDynamicOffsets);
    }
}

void CmdPushDescriptorSet2(Device &layer, VkCommandBuffer commandBuffer, const VkPushDescriptorSetInfo *info) {
    for (const VkPipelineBindPoint point : points_of(info->stageFlags)) {
        push_writes(layer, commandBuffer, point, info->layout, info->set, {info->pDescriptorWrites, info->descriptorWriteCount});
    }
}

void CmdPushDescriptorSetWithTemplate2(Device &layer, VkCommandBuffer commandBuffer, const VkPushDescriptorSetWithTemplateInfo *info) {
    CmdPushDescriptorSetWithTemplate(layer, commandBuffer, info->descriptorUpdateTemplate, info->layout, info->set, info->pData);
}
#endif

void CmdBindVertexBuffers(Device &layer, VkCommandBuffer commandBuffer, uint32_t firstBinding, uint32_t bindingCount,
                          const VkBuffer *pBuffers, const VkDeviceSize *pOffsets) {
    bind_vertex_buffers(layer, commandBuffer, firstBinding, bindingCount, pBuffers, pOffsets, nullptr);
}

void CmdBindVertexBuffers2(Device &layer, VkCommandBuffer commandBuffer, uint32_t firstBinding, uint32_t bindingCount,
                           const VkBuffer *pBuffers, const VkDeviceSize *pOffsets, const VkDeviceSize *pSizes, const VkDeviceSize *) {
    bind_vertex_buffers(layer, commandBuffer, firstBinding, bindingCount, pBuffers, pOffsets, pSizes);
}

void CmdBindIndexBuffer(Device &layer, VkCommandBuffer commandBuffer, VkBuffer buffer, VkDeviceSize offset, VkIndexType indexType) {
    bind_index_buffer(layer, commandBuffer, buffer, offset, VK_WHOLE_SIZE, indexType);
}

#ifdef VK_KHR_maintenance5
void CmdBindIndexBuffer2(Device &layer, VkCommandBuffer commandBuffer, VkBuffer buffer, VkDeviceSize offset, VkDeviceSize size,
                         VkIndexType indexType) {
    bind_index_buffer(layer, commandBuffer, buffer, offset, size, indexType);
}
#endif

void CmdSetVertexInputEXT(Device &layer, VkCommandBuffer commandBuffer, uint32_t, const VkVertexInputBindingDescription2EXT *,
                          uint32_t vertexAttributeDescriptionCount,
                          const VkVertexInputAttributeDescription2EXT *pVertexAttributeDescriptions) {
    change(layer, commandBuffer, VK_PIPELINE_BIND_POINT_GRAPHICS, [&](Bound &bound) {
        bound.dynamic_vertex_bindings.clear();
        for (uint32_t place = 0; place < vertexAttributeDescriptionCount; ++place) {
            bound.dynamic_vertex_bindings.push_back(pVertexAttributeDescriptions[place].binding);
        }
    });
}

}  // namespace hook
