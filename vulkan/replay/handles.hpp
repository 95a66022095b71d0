// Vulkan objects that are destroyed with their owner.
#pragma once

#include "ending.hpp"

#include <vulkan/vulkan.h>

#include <string>
#include <utility>

namespace replay {

// One of Vulkan's structures with zeros behind its type.
template <typename Info> Info blank(VkStructureType type, const void *next = nullptr) {
    Info info{};
    info.sType = type;
    info.pNext = const_cast<void *>(next);
    return info;
}

inline void succeed(VkResult result, const char *what) {
    if (result < 0)
        throw Ended(Ending::vulkan, std::string(what) + " failed with " + std::to_string(result));
}

template <typename Handle, void(VKAPI_PTR *destroy)(VkDevice, Handle, const VkAllocationCallbacks *)> class Owned {
  public:
    Owned() = default;
    Owned(VkDevice device, Handle handle) : device(device), handle(handle) {}
    Owned(Owned &&other) noexcept : device(other.device), handle(std::exchange(other.handle, VK_NULL_HANDLE)) {}
    Owned &operator=(Owned &&other) noexcept {
        std::swap(device, other.device);
        std::swap(handle, other.handle);
        return *this;
    }
    Owned(const Owned &) = delete;
    Owned &operator=(const Owned &) = delete;
    ~Owned() {
        if (handle != VK_NULL_HANDLE)
            destroy(device, handle, nullptr);
    }
    Handle get() const { return handle; }

  private:
    VkDevice device = VK_NULL_HANDLE;
    Handle handle = VK_NULL_HANDLE;
};

using OwnedBuffer = Owned<VkBuffer, vkDestroyBuffer>;
using OwnedBufferView = Owned<VkBufferView, vkDestroyBufferView>;
using OwnedImage = Owned<VkImage, vkDestroyImage>;
using OwnedImageView = Owned<VkImageView, vkDestroyImageView>;
using OwnedMemory = Owned<VkDeviceMemory, vkFreeMemory>;
using OwnedSampler = Owned<VkSampler, vkDestroySampler>;
using OwnedSemaphore = Owned<VkSemaphore, vkDestroySemaphore>;
using OwnedCommandPool = Owned<VkCommandPool, vkDestroyCommandPool>;
using OwnedShader = Owned<VkShaderModule, vkDestroyShaderModule>;
using OwnedSetLayout = Owned<VkDescriptorSetLayout, vkDestroyDescriptorSetLayout>;
using OwnedDescriptorPool = Owned<VkDescriptorPool, vkDestroyDescriptorPool>;
using OwnedPipelineLayout = Owned<VkPipelineLayout, vkDestroyPipelineLayout>;
using OwnedPipeline = Owned<VkPipeline, vkDestroyPipeline>;
using OwnedRenderPass = Owned<VkRenderPass, vkDestroyRenderPass>;
using OwnedFramebuffer = Owned<VkFramebuffer, vkDestroyFramebuffer>;

// Makes an object by one of Vulkan's functions for that.
template <typename Object, typename Info, typename Handle>
Object made(VkDevice device, VkResult(VKAPI_PTR *create)(VkDevice, const Info *, const VkAllocationCallbacks *, Handle *), const Info &info,
            const char *what) {
    Handle handle = VK_NULL_HANDLE;
    succeed(create(device, &info, nullptr, &handle), what);
    return Object(device, handle);
}

} // namespace replay
