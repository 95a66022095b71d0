#include "dependency.hpp"

namespace replay {

namespace {

bool is_transfer(const Barrier &barrier) { return barrier.kind == BarrierKind::release || barrier.kind == BarrierKind::acquire; }

template <typename Vulkan> void fill_masks(Vulkan &made, const Masks &masks) {
    made.srcStageMask = masks.source_stages;
    made.srcAccessMask = masks.source_accesses;
    made.dstStageMask = masks.destination_stages;
    made.dstAccessMask = masks.destination_accesses;
}

} // namespace

VkImageMemoryBarrier2 transition(const ImageResource &image, Layouts layouts, const Masks &masks) {
    auto made = blank<VkImageMemoryBarrier2>(VK_STRUCTURE_TYPE_IMAGE_MEMORY_BARRIER_2);
    fill_masks(made, masks);
    made.oldLayout = layouts.from;
    made.newLayout = layouts.to;
    made.srcQueueFamilyIndex = made.dstQueueFamilyIndex = VK_QUEUE_FAMILY_IGNORED;
    made.image = image.image.get();
    made.subresourceRange = {image.kind.aspect(), 0, 1, 0, 1};
    return made;
}

template <typename Vulkan> void Dependency::fill(Vulkan &made, const Barrier &barrier) const {
    fill_masks(made, barrier.masks);
    const bool transfer = is_transfer(barrier);
    made.srcQueueFamilyIndex = transfer ? context.device.family_index(barrier.from_family) : VK_QUEUE_FAMILY_IGNORED;
    made.dstQueueFamilyIndex = transfer ? context.device.family_index(barrier.to_family) : VK_QUEUE_FAMILY_IGNORED;
}

void Dependency::add_global(const Masks &masks) {
    auto made = blank<VkMemoryBarrier2>(VK_STRUCTURE_TYPE_MEMORY_BARRIER_2);
    fill_masks(made, masks);
    globals.push_back(made);
}

void Dependency::add(const Barrier &barrier) {
    // In files of format 3 the two masks of a transfer that the standard ignores order nothing.
    const bool orders = !(context.program.wide && is_transfer(barrier));
    if (barrier.kind == BarrierKind::global) {
        add_global(barrier.masks);
    } else if (execution && orders) {
        add_global({barrier.masks.source_stages, 0, barrier.masks.destination_stages, 0});
    }
    if (barrier.kind == BarrierKind::global)
        return;
    if (context.resources.is_image(barrier.piece)) {
        auto made = transition(context.resources.image(barrier.piece), barrier.layouts.value(), barrier.masks);
        fill(made, barrier);
        images.push_back(made);
        return;
    }
    auto made = blank<VkBufferMemoryBarrier2>(VK_STRUCTURE_TYPE_BUFFER_MEMORY_BARRIER_2);
    fill(made, barrier);
    made.buffer = context.resources.buffer(barrier.piece).buffer.get();
    made.size = VK_WHOLE_SIZE;
    buffers.push_back(made);
}

void Dependency::record(VkCommandBuffer commands) {
    if (globals.empty() && buffers.empty() && images.empty())
        return;
    auto info = blank<VkDependencyInfo>(VK_STRUCTURE_TYPE_DEPENDENCY_INFO);
    info.memoryBarrierCount = static_cast<uint32_t>(globals.size());
    info.pMemoryBarriers = globals.data();
    info.bufferMemoryBarrierCount = static_cast<uint32_t>(buffers.size());
    info.pBufferMemoryBarriers = buffers.data();
    info.imageMemoryBarrierCount = static_cast<uint32_t>(images.size());
    info.pImageMemoryBarriers = images.data();
    vkCmdPipelineBarrier2(commands, &info);
    globals.clear();
    buffers.clear();
    images.clear();
}

} // namespace replay
