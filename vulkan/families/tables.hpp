// The functions of the next layer, or of the driver, for each instance and each device.
#pragma once

#include "loader/loader.hpp"

#include <array>

namespace families {

// What this layer shows: a family of each kind, with so many queues.
inline constexpr uint32_t family_count = 3;
inline constexpr uint32_t queues_of_a_family = 8;

// Objects that stand for queues. The loader wants its own pointer at the front of each.
struct Queue {
    void *loader = nullptr;
    struct DeviceTable *device = nullptr;
};

struct DeviceTable {
    VkDevice device = VK_NULL_HANDLE;
    VkQueue queue = VK_NULL_HANDLE;
    PFN_vkGetDeviceProcAddr next = nullptr;
    PFN_vkDestroyDevice destroy_device = nullptr;
    PFN_vkGetDeviceQueue get_queue = nullptr;
    PFN_vkQueueSubmit submit = nullptr;
    PFN_vkQueueSubmit2 submit2 = nullptr;
    PFN_vkQueueWaitIdle wait_idle = nullptr;
    PFN_vkQueuePresentKHR present = nullptr;
    PFN_vkCreateCommandPool create_pool = nullptr;
    PFN_vkDestroyCommandPool destroy_pool = nullptr;
    PFN_vkAllocateCommandBuffers allocate = nullptr;
    PFN_vkCreateBuffer create_buffer = nullptr;
    PFN_vkCreateImage create_image = nullptr;
    PFN_vkCmdPipelineBarrier barrier = nullptr;
    PFN_vkCmdPipelineBarrier2 barrier2 = nullptr;
    std::array<std::array<Queue, queues_of_a_family>, family_count> queues;
    std::mutex lock;
    std::unordered_map<VkCommandPool, uint32_t> pool_families;
    std::unordered_map<VkCommandBuffer, uint32_t> buffer_families;
};

struct InstanceTable : loader::Instance {
    PFN_vkGetPhysicalDeviceQueueFamilyProperties2 families2 = nullptr;
    PFN_vkGetPhysicalDeviceSurfaceSupportKHR surface_support = nullptr;
};

inline loader::Table<InstanceTable> instances;
inline loader::Table<DeviceTable> devices;

} // namespace families
