// How the loader finds the layer, and what it does at instances and devices.

#include <algorithm>
#include <string_view>

#include "device.hpp"
#include "settings.hpp"

namespace {

loader::Table<InstanceLayer> instances;
loader::Table<Device> devices;

// Extensions whose use cannot be seen: descriptors and commands in plain memory, and the host
// in the memory of images.
constexpr std::string_view hidden_extensions[] = {
    "VK_EXT_descriptor_buffer", "VK_EXT_host_image_copy", "VK_EXT_device_generated_commands",
    "VK_NV_device_generated_commands"};

bool is_hidden(const VkExtensionProperties &extension) {
    return std::ranges::find(hidden_extensions, std::string_view(extension.extensionName)) != std::end(hidden_extensions);
}

VKAPI_ATTR VkResult VKAPI_CALL CreateInstance(const VkInstanceCreateInfo *info, const VkAllocationCallbacks *allocator,
                                              VkInstance *instance) {
    auto made = std::make_unique<InstanceLayer>();
    const VkResult result = loader::make_instance(info, allocator, instance, *made);
    if (result != VK_SUCCESS) return result;
    made->find(made->extensions, "vkEnumerateDeviceExtensionProperties");
    made->find(made->features, "vkGetPhysicalDeviceFeatures2");
    made->find(made->features, "vkGetPhysicalDeviceFeatures2KHR");
    instances.keep(*instance, std::move(made));
    return VK_SUCCESS;
}

VKAPI_ATTR void VKAPI_CALL DestroyInstance(VkInstance instance, const VkAllocationCallbacks *allocator) {
    if (instance != nullptr) instances.take(instance)->destroy(instance, allocator);
}

std::vector<VkQueueFlags> families_of(const InstanceLayer &layer, VkPhysicalDevice physical) {
    uint32_t count = 0;
    layer.families(physical, &count, nullptr);
    std::vector<VkQueueFamilyProperties> properties(count);
    layer.families(physical, &count, properties.data());
    std::vector<VkQueueFlags> flags;
    for (const auto &family : properties) flags.push_back(family.queueFlags);
    return flags;
}

VKAPI_ATTR VkResult VKAPI_CALL CreateDevice(VkPhysicalDevice physical, const VkDeviceCreateInfo *info,
                                            const VkAllocationCallbacks *allocator, VkDevice *device) {
    const VkLayerDeviceLink *link = loader::link_of(*info);
    if (link == nullptr) return VK_ERROR_INITIALIZATION_FAILED;
    const InstanceLayer &instance = instances.of(physical);
    const auto create = reinterpret_cast<PFN_vkCreateDevice>(link->pfnNextGetInstanceProcAddr(instance.handle, "vkCreateDevice"));
    const VkResult result = create(physical, info, allocator, device);
    if (result != VK_SUCCESS) return result;
    auto made = std::make_unique<Device>();
    made->handle = *device;
    made->physical = physical;
    made->capture.families = families_of(instance, physical);
    fill_table(made->next, *device, link->pfnNextGetDeviceProcAddr);
    made->next_proc = link->pfnNextGetDeviceProcAddr;
    devices.keep(*device, std::move(made));
    return VK_SUCCESS;
}

VKAPI_ATTR void VKAPI_CALL DestroyDevice(VkDevice device, const VkAllocationCallbacks *allocator) {
    if (device == nullptr) return;
    std::unique_ptr<Device> gone = devices.take(device);
    const PFN_vkDestroyDevice destroy = gone->next.DestroyDevice;
    gone.reset();
    destroy(device, allocator);
}

VKAPI_ATTR VkResult VKAPI_CALL EnumerateDeviceExtensionProperties(VkPhysicalDevice physical, const char *layer_name,
                                                                  uint32_t *count, VkExtensionProperties *properties) {
    const auto ask = instances.of(physical).extensions;
    if (layer_name != nullptr) return ask(physical, layer_name, count, properties);
    uint32_t all = 0;
    VkResult result = ask(physical, nullptr, &all, nullptr);
    if (result != VK_SUCCESS) return result;
    std::vector<VkExtensionProperties> shown(all);
    result = ask(physical, nullptr, &all, shown.data());
    if (result != VK_SUCCESS) return result;
    std::erase_if(shown, is_hidden);
    const auto number = static_cast<uint32_t>(shown.size());
    if (properties == nullptr) {
        *count = number;
        return VK_SUCCESS;
    }
    const uint32_t given = std::min(*count, number);
    std::copy_n(shown.begin(), given, properties);
    *count = given;
    return given < number ? VK_INCOMPLETE : VK_SUCCESS;
}

// Clears in a chain of features those of the hidden extensions.
void hide_features(void *chain) {
    for (auto *next = static_cast<VkBaseOutStructure *>(chain); next != nullptr; next = next->pNext) {
#ifdef VK_EXT_descriptor_buffer
        if (next->sType == VK_STRUCTURE_TYPE_PHYSICAL_DEVICE_DESCRIPTOR_BUFFER_FEATURES_EXT) {
            reinterpret_cast<VkPhysicalDeviceDescriptorBufferFeaturesEXT *>(next)->descriptorBuffer = VK_FALSE;
        }
#endif
#ifdef VK_EXT_host_image_copy
        if (next->sType == VK_STRUCTURE_TYPE_PHYSICAL_DEVICE_HOST_IMAGE_COPY_FEATURES_EXT) {
            reinterpret_cast<VkPhysicalDeviceHostImageCopyFeaturesEXT *>(next)->hostImageCopy = VK_FALSE;
        }
#endif
#ifdef VK_VERSION_1_4
        if (next->sType == VK_STRUCTURE_TYPE_PHYSICAL_DEVICE_VULKAN_1_4_FEATURES) {
            reinterpret_cast<VkPhysicalDeviceVulkan14Features *>(next)->hostImageCopy = VK_FALSE;
        }
#endif
    }
}

VKAPI_ATTR void VKAPI_CALL GetPhysicalDeviceFeatures2(VkPhysicalDevice physical, VkPhysicalDeviceFeatures2 *features) {
    instances.of(physical).features(physical, features);
    hide_features(features->pNext);
}

VKAPI_ATTR PFN_vkVoidFunction VKAPI_CALL GetDeviceProcAddr(VkDevice device, const char *name);
VKAPI_ATTR PFN_vkVoidFunction VKAPI_CALL GetInstanceProcAddr(VkInstance instance, const char *name);

// Own functions of an instance. What a capture alone needs is left out where none is asked for, so
// that the program finds what it would find without the layer.
PFN_vkVoidFunction own_instance_function(std::string_view name) {
    const auto as_function = [](auto *function) { return reinterpret_cast<PFN_vkVoidFunction>(function); };
    if (name == "vkGetInstanceProcAddr") return as_function(GetInstanceProcAddr);
    if (name == "vkGetDeviceProcAddr") return as_function(GetDeviceProcAddr);
    if (name == "vkCreateInstance") return as_function(CreateInstance);
    if (name == "vkDestroyInstance") return as_function(DestroyInstance);
    if (name == "vkCreateDevice") return as_function(CreateDevice);
    if (name == "vkDestroyDevice") return as_function(DestroyDevice);
    if (!settings()) return nullptr;
    if (name == "vkEnumerateDeviceExtensionProperties") return as_function(EnumerateDeviceExtensionProperties);
    if (name == "vkGetPhysicalDeviceFeatures2") return as_function(GetPhysicalDeviceFeatures2);
    if (name == "vkGetPhysicalDeviceFeatures2KHR") return as_function(GetPhysicalDeviceFeatures2);
    return nullptr;
}

VKAPI_ATTR PFN_vkVoidFunction VKAPI_CALL GetDeviceProcAddr(VkDevice device, const char *name) {
    const std::string_view asked = name;
    if (asked == "vkGetDeviceProcAddr") return reinterpret_cast<PFN_vkVoidFunction>(GetDeviceProcAddr);
    if (asked == "vkDestroyDevice") return reinterpret_cast<PFN_vkVoidFunction>(DestroyDevice);
    const PFN_vkVoidFunction next = device_of(device).next_proc(device, name);
    if (next == nullptr || !settings()) return next;
    const PFN_vkVoidFunction own = wrapper_of(name);
    return own == nullptr ? next : own;
}

VKAPI_ATTR PFN_vkVoidFunction VKAPI_CALL GetInstanceProcAddr(VkInstance instance, const char *name) {
    const PFN_vkVoidFunction own = own_instance_function(name);
    if (instance == nullptr) return own;
    const InstanceLayer &layer = instances.of(instance);
    const PFN_vkVoidFunction next = layer.next(layer.handle, name);
    if (next == nullptr) return nullptr;
    if (own != nullptr) return own;
    const PFN_vkVoidFunction wrapped = settings() ? wrapper_of(name) : nullptr;
    return wrapped == nullptr ? next : wrapped;
}

}  // namespace

Device &device_of(const void *dispatchable) { return devices.of(dispatchable); }

extern "C" __attribute__((visibility("default"))) VKAPI_ATTR VkResult VKAPI_CALL
vkNegotiateLoaderLayerInterfaceVersion(VkNegotiateLayerInterface *interface) {
    return loader::negotiate(*interface, GetInstanceProcAddr, GetDeviceProcAddr);
}
