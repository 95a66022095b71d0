#include "device.hpp"

#include <algorithm>
#include <cstring>
#include <map>
#include <optional>

namespace replay {

namespace {

constexpr VkQueueFlags graphics_and_compute = VK_QUEUE_GRAPHICS_BIT | VK_QUEUE_COMPUTE_BIT;

VkPhysicalDevice first_device(VkInstance instance) {
    uint32_t count = 1;
    VkPhysicalDevice device = VK_NULL_HANDLE;
    vkEnumeratePhysicalDevices(instance, &count, &device);
    if (device == VK_NULL_HANDLE)
        throw Ended(Ending::vulkan, "there is no Vulkan device");
    return device;
}

// A family that can do what the word says. `alone`: and nothing that a wider word says.
std::optional<uint32_t> family_with(const std::vector<VkQueueFamilyProperties> &families, Family family, bool alone) {
    for (uint32_t k = 0; k < families.size(); ++k) {
        const VkQueueFlags flags = families[k].queueFlags;
        // Each family with graphics or compute can transfer, whether it says so or not.
        const VkQueueFlags wide = flags & graphics_and_compute;
        const bool can = family == Family::graphics  ? wide == graphics_and_compute
                         : family == Family::compute ? (wide & VK_QUEUE_COMPUTE_BIT) != 0
                                                     : flags != 0;
        const bool narrow = family == Family::graphics  ? true
                            : family == Family::compute ? wide == VK_QUEUE_COMPUTE_BIT
                                                        : wide == 0 && (flags & VK_QUEUE_TRANSFER_BIT) != 0;
        if (can && (narrow || !alone))
            return k;
    }
    return std::nullopt;
}

std::set<Family> families_in(const Program &program) {
    std::set<Family> families;
    for (const Queue &queue : program.queues) {
        families.insert(queue.family);
        for (const Batch &batch : queue.batches)
            for (const Item &item : batch.items)
                if (const auto *barrier = std::get_if<Barrier>(&item.what);
                    barrier != nullptr && (barrier->kind == BarrierKind::release || barrier->kind == BarrierKind::acquire))
                    families.insert({barrier->from_family, barrier->to_family});
    }
    return families;
}

std::set<std::string> extensions_of(VkPhysicalDevice device) {
    uint32_t count = 0;
    vkEnumerateDeviceExtensionProperties(device, nullptr, &count, nullptr);
    std::vector<VkExtensionProperties> extensions(count);
    vkEnumerateDeviceExtensionProperties(device, nullptr, &count, extensions.data());
    std::set<std::string> names;
    for (const auto &extension : extensions)
        names.insert(extension.extensionName);
    return names;
}

const char *word_of(Family family) {
    return family == Family::graphics ? "graphics" : family == Family::compute ? "compute" : "transfer";
}

// The features that replay asks for, as far as the device has them.
VkPhysicalDeviceFeatures wanted_features(const VkPhysicalDeviceFeatures &there) {
    VkPhysicalDeviceFeatures wanted{};
    wanted.robustBufferAccess = there.robustBufferAccess;
    wanted.logicOp = there.logicOp;
    wanted.independentBlend = there.independentBlend;
    wanted.fragmentStoresAndAtomics = there.fragmentStoresAndAtomics;
    wanted.vertexPipelineStoresAndAtomics = there.vertexPipelineStoresAndAtomics;
    wanted.shaderStorageImageExtendedFormats = there.shaderStorageImageExtendedFormats;
    wanted.shaderStorageImageMultisample = there.shaderStorageImageMultisample;
    return wanted;
}

} // namespace

Device::Device(const Instance &instance, const Program &program) : physical_device(first_device(instance.get())) {
    vkGetPhysicalDeviceProperties(physical_device, &properties);
    vkGetPhysicalDeviceMemoryProperties(physical_device, &memory_properties);
    if (properties.apiVersion < VK_API_VERSION_1_3)
        throw Ended(Ending::vulkan, std::string(properties.deviceName) + " has no Vulkan 1.3");
    uint32_t count = 0;
    vkGetPhysicalDeviceQueueFamilyProperties(physical_device, &count, nullptr);
    family_properties.resize(count);
    vkGetPhysicalDeviceQueueFamilyProperties(physical_device, &count, family_properties.data());
    choose_families(program);
    std::vector<float> priorities;
    create(queue_infos(program, priorities), wanted_extensions(instance));
    take_queues(program);
}

void Device::choose_families(const Program &program) {
    const auto kinds = families_in(program);
    for (const Family family : kinds) {
        // Where the file has one family alone, any family that can do its work will do.
        const auto found = family_with(family_properties, family, kinds.size() > 1);
        if (!found)
            throw Ended(Ending::refused, std::string("the device has no family of its own for ") + word_of(family) +
                                             "; --families shows three");
        families.at(static_cast<size_t>(family)) = *found;
        used.push_back(*found);
    }
}

// `priorities` is where the infos point to.
std::vector<VkDeviceQueueCreateInfo> Device::queue_infos(const Program &program, std::vector<float> &priorities) const {
    std::map<uint32_t, uint32_t> counts;
    for (const Queue &queue : program.queues)
        ++counts[family_index(queue.family)];
    // A family that transfers alone name has a queue too, so that it is one of the device's.
    for (const uint32_t family : used)
        counts[family] = std::max(counts[family], 1U);
    uint32_t most = 1;
    for (const auto &[family, count] : counts) {
        most = std::max(most, count);
        if (count > family_properties.at(family).queueCount)
            throw Ended(Ending::refused, "the device has fewer than " + std::to_string(count) + " queues in family " +
                                             std::to_string(family) + "; --families shows eight");
    }
    priorities.assign(most, 1.0F);
    std::vector<VkDeviceQueueCreateInfo> infos;
    for (const auto &[family, count] : counts)
        infos.push_back({VK_STRUCTURE_TYPE_DEVICE_QUEUE_CREATE_INFO, nullptr, 0, family, count, priorities.data()});
    return infos;
}

std::vector<const char *> Device::wanted_extensions(const Instance &instance) {
    const auto there = extensions_of(physical_device);
    std::vector<const char *> names;
    load_none = there.contains(VK_EXT_LOAD_STORE_OP_NONE_EXTENSION_NAME);
    if (load_none)
        names.push_back(VK_EXT_LOAD_STORE_OP_NONE_EXTENSION_NAME);
    // Its layout for presenting is one of the file's.
    if (instance.surfaces() && there.contains(VK_KHR_SWAPCHAIN_EXTENSION_NAME))
        names.push_back(VK_KHR_SWAPCHAIN_EXTENSION_NAME);
    return names;
}

void Device::create(const std::vector<VkDeviceQueueCreateInfo> &queue_infos, const std::vector<const char *> &extensions) {
    VkPhysicalDeviceFeatures there{};
    vkGetPhysicalDeviceFeatures(physical_device, &there);
    enabled = wanted_features(there);
    auto newest = blank<VkPhysicalDeviceVulkan13Features>(VK_STRUCTURE_TYPE_PHYSICAL_DEVICE_VULKAN_1_3_FEATURES);
    newest.synchronization2 = VK_TRUE;
    newest.dynamicRendering = VK_TRUE;
    newest.maintenance4 = VK_TRUE; // shaders of 1.3 say their workgroups in a way that wants it
    auto newer = blank<VkPhysicalDeviceVulkan12Features>(VK_STRUCTURE_TYPE_PHYSICAL_DEVICE_VULKAN_1_2_FEATURES, &newest);
    newer.timelineSemaphore = VK_TRUE;
    auto info = blank<VkDeviceCreateInfo>(VK_STRUCTURE_TYPE_DEVICE_CREATE_INFO, &newer);
    info.queueCreateInfoCount = static_cast<uint32_t>(queue_infos.size());
    info.pQueueCreateInfos = queue_infos.data();
    info.enabledExtensionCount = static_cast<uint32_t>(extensions.size());
    info.ppEnabledExtensionNames = extensions.data();
    info.pEnabledFeatures = &enabled;
    VkDevice made = VK_NULL_HANDLE;
    succeed(vkCreateDevice(physical_device, &info, nullptr, &made), "vkCreateDevice");
    device.reset(made);
}

void Device::take_queues(const Program &program) {
    std::map<uint32_t, uint32_t> given;
    for (const Queue &queue : program.queues) {
        const uint32_t family = family_index(queue.family);
        VkQueue handle = VK_NULL_HANDLE;
        vkGetDeviceQueue(device.get(), family, given[family]++, &handle);
        queues.push_back(handle);
    }
}

} // namespace replay
