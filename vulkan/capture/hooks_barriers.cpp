// Pipeline barriers, and the barriers of events.

#include <span>

#include "hooks.hpp"
#include "ranges.hpp"
#include "recorder.hpp"

namespace {

// The stages of an older call stand beside its barriers, those of a newer one in them.
struct CallStages {
    VkPipelineStageFlags2 src, dst;
};

template <class From> Masks masks_of(const From &from, const CallStages &stages) {
    return {stages.src, from.srcAccessMask, stages.dst, from.dstAccessMask};
}
template <class From> Masks masks_of(const From &from) {
    return {from.srcStageMask, from.srcAccessMask, from.dstStageMask, from.dstAccessMask};
}

// Collects the barriers of one call.
class Collector {
  public:
    Collector(Device &layer, const char *call) : layer(layer), dependency{call, {}} {}

    void global(const Masks &masks) { dependency.barriers.push_back(GlobalBarrier{masks}); }

    template <class From> void buffer(const From &from, const Masks &masks) {
        const BufferRange range = range_of(layer.objects.buffers.find(from.buffer), from.offset, from.size);
        if (!range.buffer) return global({masks.src_stages, 0, masks.dst_stages, 0});
        dependency.barriers.push_back(BufferBarrier{masks, range, {from.srcQueueFamilyIndex, from.dstQueueFamilyIndex}});
    }

    template <class From> void image(const From &from, const Masks &masks) {
        const ImageRange range = range_of(layer.objects.images.find(from.image), from.subresourceRange);
        if (!range.image) return global({masks.src_stages, 0, masks.dst_stages, 0});
        dependency.barriers.push_back(
            ImageBarrier{masks, range, {from.srcQueueFamilyIndex, from.dstQueueFamilyIndex}, from.oldLayout, from.newLayout});
        if (from.oldLayout != from.newLayout) changes.push_back({range, from.newLayout});
    }

    // A call of stages alone orders them.
    void order(const CallStages &stages) {
        if (dependency.barriers.empty()) global({stages.src, 0, stages.dst, 0});
    }

    void record_in(VkCommandBuffer commandBuffer) {
        const auto buffer = buffer_of(layer, commandBuffer);
        if (!buffer || dependency.barriers.empty()) return;
        auto &layouts = buffer->recording->layouts;
        layouts.insert(layouts.end(), changes.begin(), changes.end());
        record(*buffer, std::move(dependency));
    }

  private:
    Device &layer;
    Dependency dependency;
    std::vector<LayoutChange> changes;
};

void collect(Collector &collector, const CallStages &stages, std::span<const VkMemoryBarrier> globals,
             std::span<const VkBufferMemoryBarrier> buffers, std::span<const VkImageMemoryBarrier> images) {
    for (const auto &barrier : globals) collector.global(masks_of(barrier, stages));
    for (const auto &barrier : buffers) collector.buffer(barrier, masks_of(barrier, stages));
    for (const auto &barrier : images) collector.image(barrier, masks_of(barrier, stages));
    collector.order(stages);
}

void collect(Collector &collector, const VkDependencyInfo &info) {
    for (const auto &barrier : std::span(info.pMemoryBarriers, info.memoryBarrierCount)) collector.global(masks_of(barrier));
    for (const auto &barrier : std::span(info.pBufferMemoryBarriers, info.bufferMemoryBarrierCount)) {
        collector.buffer(barrier, masks_of(barrier));
    }
    for (const auto &barrier : std::span(info.pImageMemoryBarriers, info.imageMemoryBarrierCount)) {
        collector.image(barrier, masks_of(barrier));
    }
}

constexpr const char *event_wait = "waits for events: only their layout transitions are taken, without order";

}  // namespace

namespace hook {

void CmdPipelineBarrier(Device &layer, VkCommandBuffer commandBuffer, VkPipelineStageFlags srcStageMask, VkPipelineStageFlags dstStageMask,
                        VkDependencyFlags, uint32_t memoryBarrierCount, const VkMemoryBarrier *pMemoryBarriers,
                        uint32_t bufferMemoryBarrierCount, const VkBufferMemoryBarrier *pBufferMemoryBarriers,
                        uint32_t imageMemoryBarrierCount, const VkImageMemoryBarrier *pImageMemoryBarriers) {
    Collector collector(layer, "vkCmdPipelineBarrier");
    collect(collector, {srcStageMask, dstStageMask}, {pMemoryBarriers, memoryBarrierCount},
            {pBufferMemoryBarriers, bufferMemoryBarrierCount}, {pImageMemoryBarriers, imageMemoryBarrierCount});
    collector.record_in(commandBuffer);
}

void CmdPipelineBarrier2(Device &layer, VkCommandBuffer commandBuffer, const VkDependencyInfo *pDependencyInfo) {
    Collector collector(layer, "vkCmdPipelineBarrier2");
    collect(collector, *pDependencyInfo);
    collector.record_in(commandBuffer);
}

// Events are not followed. Without the order that a wait gives, what needs it is reported.
void CmdWaitEvents(Device &layer, VkCommandBuffer commandBuffer, uint32_t, const VkEvent *, VkPipelineStageFlags, VkPipelineStageFlags,
                   uint32_t, const VkMemoryBarrier *, uint32_t, const VkBufferMemoryBarrier *, uint32_t imageMemoryBarrierCount,
                   const VkImageMemoryBarrier *pImageMemoryBarriers) {
    record(layer, commandBuffer, Unsaid{event_wait});
    Collector collector(layer, "vkCmdWaitEvents");
    for (const auto &barrier : std::span(pImageMemoryBarriers, imageMemoryBarrierCount)) collector.image(barrier, {});
    collector.record_in(commandBuffer);
}

void CmdWaitEvents2(Device &layer, VkCommandBuffer commandBuffer, uint32_t eventCount, const VkEvent *,
                    const VkDependencyInfo *pDependencyInfos) {
    record(layer, commandBuffer, Unsaid{event_wait});
    Collector collector(layer, "vkCmdWaitEvents2");
    for (const auto &info : std::span(pDependencyInfos, eventCount)) {
        for (const auto &barrier : std::span(info.pImageMemoryBarriers, info.imageMemoryBarrierCount)) collector.image(barrier, {});
    }
    collector.record_in(commandBuffer);
}

}  // namespace hook
