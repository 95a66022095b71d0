#include "families.hpp"

#include <algorithm>
#include <cstdlib>
#include <span>
#include <string>
#include <vector>

namespace families {

namespace {

constexpr std::array<VkQueueFlags, family_count> flags_of_families = {
    VK_QUEUE_GRAPHICS_BIT | VK_QUEUE_COMPUTE_BIT | VK_QUEUE_TRANSFER_BIT,
    VK_QUEUE_COMPUTE_BIT | VK_QUEUE_TRANSFER_BIT,
    VK_QUEUE_TRANSFER_BIT,
};

VkQueueFamilyProperties &basic(VkQueueFamilyProperties &properties) { return properties; }
VkQueueFamilyProperties &basic(VkQueueFamilyProperties2 &properties) { return properties.queueFamilyProperties; }

// Each family shown is what `ask` says of the device's first one, with other flags and queues.
template <typename Properties, typename Ask> void families_of(uint32_t *count, Properties *properties, Ask ask) {
    if (properties == nullptr) {
        *count = family_count;
        return;
    }
    *count = std::min(*count, family_count);
    for (uint32_t family = 0; family < *count; ++family) {
        uint32_t one = 1;
        ask(&one, &properties[family]);
        basic(properties[family]).queueFlags = flags_of_families.at(family);
        basic(properties[family]).queueCount = queues_of_a_family;
    }
}

DeviceTable &device_of_queue(VkQueue queue) { return *reinterpret_cast<Queue *>(queue)->device; }

bool is_transfer(uint32_t from, uint32_t to) { return from != to && from != VK_QUEUE_FAMILY_IGNORED && to != VK_QUEUE_FAMILY_IGNORED; }

constexpr VkPipelineStageFlags2 all_stages = VK_PIPELINE_STAGE_2_ALL_COMMANDS_BIT;
constexpr VkAccessFlags2 all_accesses = VK_ACCESS_2_MEMORY_READ_BIT | VK_ACCESS_2_MEMORY_WRITE_BIT;

// What the device gets of a call's barriers. A release does nothing but order what is before it; an acquire makes the layout
// change of both.
template <typename Global, typename Buffer, typename Image> struct Halves {
    uint32_t family;
    std::vector<Global> global;
    std::vector<Buffer> buffers;
    std::vector<Image> images;

    template <typename Barrier, typename Release, typename Acquire>
    void add(std::vector<Barrier> &kept, std::span<const Barrier> told, Release release, Acquire acquire) {
        for (Barrier barrier : told) {
            const bool transfer = is_transfer(barrier.srcQueueFamilyIndex, barrier.dstQueueFamilyIndex);
            if (transfer && barrier.srcQueueFamilyIndex == family) {
                global.push_back(release(barrier));
                continue;
            }
            if (transfer)
                acquire(barrier);
            barrier.srcQueueFamilyIndex = barrier.dstQueueFamilyIndex = VK_QUEUE_FAMILY_IGNORED;
            kept.push_back(barrier);
        }
    }

    template <typename Release, typename Acquire>
    void add_all(std::span<const Buffer> told_buffers, std::span<const Image> told_images, Release release, Acquire acquire) {
        add(buffers, told_buffers, release, acquire);
        add(images, told_images, release, acquire);
    }
};

template <typename Kept> uint32_t size_of(const std::vector<Kept> &kept) { return static_cast<uint32_t>(kept.size()); }

uint32_t family_of(DeviceTable &table, VkCommandBuffer buffer) {
    const std::lock_guard guard(table.lock);
    return table.buffer_families.at(buffer);
}

} // namespace

void VKAPI_CALL queue_family_properties(VkPhysicalDevice device, uint32_t *count, VkQueueFamilyProperties *properties) {
    const auto ask = instances.of(device).families;
    families_of(count, properties, [&](uint32_t *one, VkQueueFamilyProperties *filled) { ask(device, one, filled); });
}

void VKAPI_CALL queue_family_properties2(VkPhysicalDevice device, uint32_t *count, VkQueueFamilyProperties2 *properties) {
    const auto ask = instances.of(device).families2;
    families_of(count, properties, [&](uint32_t *one, VkQueueFamilyProperties2 *filled) { ask(device, one, filled); });
}

// FRAMEC_FAMILIES_PRESENT names the one family that presents; without it each one does.
VkResult VKAPI_CALL surface_support(VkPhysicalDevice device, uint32_t family, VkSurfaceKHR surface, VkBool32 *supported) {
    const VkResult result = instances.of(device).surface_support(device, 0, surface, supported);
    const char *presenting = std::getenv("FRAMEC_FAMILIES_PRESENT");
    if (result == VK_SUCCESS && presenting != nullptr)
        *supported = *supported && std::to_string(family) == presenting;
    return result;
}

void VKAPI_CALL get_queue(VkDevice device, uint32_t family, uint32_t index, VkQueue *queue) {
    *queue = reinterpret_cast<VkQueue>(&devices.of(device).queues.at(family).at(index));
}

void VKAPI_CALL get_queue2(VkDevice device, const VkDeviceQueueInfo2 *info, VkQueue *queue) {
    get_queue(device, info->queueFamilyIndex, info->queueIndex, queue);
}

VkResult VKAPI_CALL submit(VkQueue queue, uint32_t count, const VkSubmitInfo *submits, VkFence fence) {
    DeviceTable &table = device_of_queue(queue);
    const std::lock_guard guard(table.lock);
    return table.submit(table.queue, count, submits, fence);
}

VkResult VKAPI_CALL submit2(VkQueue queue, uint32_t count, const VkSubmitInfo2 *submits, VkFence fence) {
    DeviceTable &table = device_of_queue(queue);
    const std::lock_guard guard(table.lock);
    return table.submit2(table.queue, count, submits, fence);
}

VkResult VKAPI_CALL wait_idle(VkQueue queue) {
    DeviceTable &table = device_of_queue(queue);
    const std::lock_guard guard(table.lock);
    return table.wait_idle(table.queue);
}

VkResult VKAPI_CALL present(VkQueue queue, const VkPresentInfoKHR *info) {
    DeviceTable &table = device_of_queue(queue);
    const std::lock_guard guard(table.lock);
    return table.present(table.queue, info);
}

VkResult VKAPI_CALL create_pool(VkDevice device, const VkCommandPoolCreateInfo *info, const VkAllocationCallbacks *allocator,
                                VkCommandPool *pool) {
    DeviceTable &table = devices.of(device);
    VkCommandPoolCreateInfo below = *info;
    below.queueFamilyIndex = 0;
    const VkResult result = table.create_pool(device, &below, allocator, pool);
    if (result == VK_SUCCESS) {
        const std::lock_guard guard(table.lock);
        table.pool_families[*pool] = info->queueFamilyIndex;
    }
    return result;
}

void VKAPI_CALL destroy_pool(VkDevice device, VkCommandPool pool, const VkAllocationCallbacks *allocator) {
    DeviceTable &table = devices.of(device);
    {
        const std::lock_guard guard(table.lock);
        table.pool_families.erase(pool);
    }
    table.destroy_pool(device, pool, allocator);
}

VkResult VKAPI_CALL allocate(VkDevice device, const VkCommandBufferAllocateInfo *info, VkCommandBuffer *buffers) {
    DeviceTable &table = devices.of(device);
    const VkResult result = table.allocate(device, info, buffers);
    if (result == VK_SUCCESS) {
        const std::lock_guard guard(table.lock);
        for (uint32_t k = 0; k < info->commandBufferCount; ++k)
            table.buffer_families[buffers[k]] = table.pool_families.at(info->commandPool);
    }
    return result;
}

VkResult VKAPI_CALL create_buffer(VkDevice device, const VkBufferCreateInfo *info, const VkAllocationCallbacks *allocator,
                                  VkBuffer *buffer) {
    VkBufferCreateInfo below = *info;
    below.sharingMode = VK_SHARING_MODE_EXCLUSIVE;
    below.queueFamilyIndexCount = 0;
    return devices.of(device).create_buffer(device, &below, allocator, buffer);
}

VkResult VKAPI_CALL create_image(VkDevice device, const VkImageCreateInfo *info, const VkAllocationCallbacks *allocator, VkImage *image) {
    VkImageCreateInfo below = *info;
    below.sharingMode = VK_SHARING_MODE_EXCLUSIVE;
    below.queueFamilyIndexCount = 0;
    return devices.of(device).create_image(device, &below, allocator, image);
}

void VKAPI_CALL barrier(VkCommandBuffer buffer, VkPipelineStageFlags src, VkPipelineStageFlags dst, VkDependencyFlags flags,
                        uint32_t memory_count, const VkMemoryBarrier *memory, uint32_t buffer_count, const VkBufferMemoryBarrier *buffers,
                        uint32_t image_count, const VkImageMemoryBarrier *images) {
    DeviceTable &table = devices.of(buffer);
    Halves<VkMemoryBarrier, VkBufferMemoryBarrier, VkImageMemoryBarrier> below{
        family_of(table, buffer), {memory, memory + memory_count}, {}, {}};
    const auto release = [&](const auto &half) {
        dst |= VK_PIPELINE_STAGE_ALL_COMMANDS_BIT;
        return VkMemoryBarrier{VK_STRUCTURE_TYPE_MEMORY_BARRIER, nullptr, half.srcAccessMask,
                               VK_ACCESS_MEMORY_READ_BIT | VK_ACCESS_MEMORY_WRITE_BIT};
    };
    const auto acquire = [&](auto &half) {
        src |= VK_PIPELINE_STAGE_ALL_COMMANDS_BIT;
        half.srcAccessMask = VK_ACCESS_MEMORY_READ_BIT | VK_ACCESS_MEMORY_WRITE_BIT;
    };
    below.add_all({buffers, buffer_count}, {images, image_count}, release, acquire);
    table.barrier(buffer, src, dst, flags, size_of(below.global), below.global.data(), size_of(below.buffers), below.buffers.data(),
                  size_of(below.images), below.images.data());
}

void VKAPI_CALL barrier2(VkCommandBuffer buffer, const VkDependencyInfo *info) {
    DeviceTable &table = devices.of(buffer);
    Halves<VkMemoryBarrier2, VkBufferMemoryBarrier2, VkImageMemoryBarrier2> below{
        family_of(table, buffer), {info->pMemoryBarriers, info->pMemoryBarriers + info->memoryBarrierCount}, {}, {}};
    const auto release = [](const auto &half) {
        return VkMemoryBarrier2{VK_STRUCTURE_TYPE_MEMORY_BARRIER_2, nullptr, half.srcStageMask, half.srcAccessMask, all_stages, all_accesses};
    };
    const auto acquire = [](auto &half) {
        half.srcStageMask = all_stages;
        half.srcAccessMask = all_accesses;
    };
    below.add_all({info->pBufferMemoryBarriers, info->bufferMemoryBarrierCount}, {info->pImageMemoryBarriers, info->imageMemoryBarrierCount},
                  release, acquire);
    VkDependencyInfo changed = *info;
    changed.memoryBarrierCount = size_of(below.global);
    changed.pMemoryBarriers = below.global.data();
    changed.bufferMemoryBarrierCount = size_of(below.buffers);
    changed.pBufferMemoryBarriers = below.buffers.data();
    changed.imageMemoryBarrierCount = size_of(below.images);
    changed.pImageMemoryBarriers = below.images.data();
    table.barrier2(buffer, &changed);
}

// What stands in index and indirect buffers is anybody's guess, so the device is never asked to follow it.
void VKAPI_CALL draw_nothing_indirect(VkCommandBuffer, VkBuffer, VkDeviceSize, uint32_t, uint32_t) {}
void VKAPI_CALL draw_nothing_indexed(VkCommandBuffer, uint32_t, uint32_t, uint32_t, int32_t, uint32_t) {}
void VKAPI_CALL dispatch_nothing_indirect(VkCommandBuffer, VkBuffer, VkDeviceSize) {}

} // namespace families
