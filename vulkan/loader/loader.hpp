// What every layer does with the loader: how it is met, how it finds the next layer, and what it keeps of each instance and device.
#pragma once

#include <vulkan/vk_layer.h>
#include <vulkan/vulkan.h>

#include <memory>
#include <mutex>
#include <shared_mutex>
#include <unordered_map>
#include <utility>

namespace loader {

// An instance and its physical devices share the first word of what their handles point to; a
// device, its queues and its command buffers do too.
inline void *key_of(const void *dispatchable) { return *static_cast<void *const *>(dispatchable); }

// What a layer keeps of each instance, or of each device.
template <class Kept> class Table {
  public:
    void keep(const void *dispatchable, std::unique_ptr<Kept> one) {
        const std::unique_lock guard(lock);
        all[key_of(dispatchable)] = std::move(one);
    }

    Kept &of(const void *dispatchable) const {
        const std::shared_lock guard(lock);
        return *all.at(key_of(dispatchable));
    }

    std::unique_ptr<Kept> take(const void *dispatchable) {
        const std::unique_lock guard(lock);
        auto node = all.extract(key_of(dispatchable));
        return node.empty() ? nullptr : std::move(node.mapped());
    }

  private:
    mutable std::shared_mutex lock;
    std::unordered_map<void *, std::unique_ptr<Kept>> all;
};

// The next layer's functions of an instance. They are asked for when it is made: later the loader
// answers with the first layer's.
struct Instance {
    VkInstance handle = VK_NULL_HANDLE;
    PFN_vkGetInstanceProcAddr next = nullptr;
    PFN_vkDestroyInstance destroy = nullptr;
    PFN_vkGetPhysicalDeviceQueueFamilyProperties families = nullptr;

    template <class Function> void find(Function &function, const char *name) const {
        if (function == nullptr) function = reinterpret_cast<Function>(next(handle, name));
    }
};

// The loader's structure of this kind in the chain of what an instance or a device is made from.
template <class Info> Info *info_of(const void *create_info, VkStructureType type, VkLayerFunction function) {
    for (auto *one = static_cast<const VkBaseInStructure *>(create_info)->pNext; one != nullptr; one = one->pNext) {
        auto *info = reinterpret_cast<Info *>(const_cast<VkBaseInStructure *>(one));
        if (one->sType == type && info->function == function) return info;
    }
    return nullptr;
}

// Where the next layer's functions are found. The loader's structure is advanced, so that the next layer finds its own there.
inline VkLayerInstanceLink *link_of(const VkInstanceCreateInfo &info) {
    constexpr auto type = VK_STRUCTURE_TYPE_LOADER_INSTANCE_CREATE_INFO;
    auto *told = info_of<VkLayerInstanceCreateInfo>(&info, type, VK_LAYER_LINK_INFO);
    return told == nullptr ? nullptr : std::exchange(told->u.pLayerInfo, told->u.pLayerInfo->pNext);
}

inline VkLayerDeviceLink *link_of(const VkDeviceCreateInfo &info) {
    constexpr auto type = VK_STRUCTURE_TYPE_LOADER_DEVICE_CREATE_INFO;
    auto *told = info_of<VkLayerDeviceCreateInfo>(&info, type, VK_LAYER_LINK_INFO);
    return told == nullptr ? nullptr : std::exchange(told->u.pLayerInfo, told->u.pLayerInfo->pNext);
}

// Makes an instance by the next layer, and fills what is kept of it.
template <class Kept>
VkResult make_instance(const VkInstanceCreateInfo *info, const VkAllocationCallbacks *allocator, VkInstance *handle, Kept &made) {
    const VkLayerInstanceLink *link = link_of(*info);
    if (link == nullptr) return VK_ERROR_INITIALIZATION_FAILED;
    made.next = link->pfnNextGetInstanceProcAddr;
    const auto create = reinterpret_cast<PFN_vkCreateInstance>(made.next(VK_NULL_HANDLE, "vkCreateInstance"));
    const VkResult result = create(info, allocator, handle);
    if (result != VK_SUCCESS) return result;
    made.handle = *handle;
    made.find(made.destroy, "vkDestroyInstance");
    made.find(made.families, "vkGetPhysicalDeviceQueueFamilyProperties");
    return VK_SUCCESS;
}

// How the loader meets a layer: this gives it the functions from which it gets all others.
inline VkResult negotiate(VkNegotiateLayerInterface &interface, PFN_vkGetInstanceProcAddr of_instance, PFN_vkGetDeviceProcAddr of_device) {
    constexpr uint32_t version = 2;
    if (interface.loaderLayerInterfaceVersion < version) return VK_ERROR_INITIALIZATION_FAILED;
    interface.loaderLayerInterfaceVersion = version;
    interface.pfnGetInstanceProcAddr = of_instance;
    interface.pfnGetDeviceProcAddr = of_device;
    interface.pfnGetPhysicalDeviceProcAddr = nullptr;
    return VK_SUCCESS;
}

} // namespace loader
