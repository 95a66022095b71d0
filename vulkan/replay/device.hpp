// The Vulkan device that a program is replayed on.
#pragma once

#include "handles.hpp"
#include "messages.hpp"
#include "options.hpp"
#include "program.hpp"

#include <array>
#include <memory>
#include <optional>
#include <set>
#include <string>
#include <vector>

namespace replay {

struct InstanceDeleter {
    using pointer = VkInstance;
    void operator()(VkInstance instance) const { vkDestroyInstance(instance, nullptr); }
};

struct DeviceDeleter {
    using pointer = VkDevice;
    void operator()(VkDevice device) const { vkDestroyDevice(device, nullptr); }
};

class Instance {
  public:
    Instance(const Options &options, Messages &messages);
    ~Instance();
    Instance(const Instance &) = delete;
    Instance &operator=(const Instance &) = delete;
    VkInstance get() const { return instance.get(); }
    bool surfaces() const { return has_surfaces; }

  private:
    std::optional<ValidationSettings> settings;
    std::unique_ptr<VkInstance, InstanceDeleter> instance;
    VkDebugUtilsMessengerEXT messenger = VK_NULL_HANDLE;
    bool has_surfaces = false;
};

class Device {
  public:
    Device(const Instance &instance, const Program &program);

    VkDevice get() const { return device.get(); }
    VkPhysicalDevice physical() const { return physical_device; }
    uint32_t family_index(Family family) const { return families.at(static_cast<size_t>(family)); }
    // The families of the program's queues and transfers, each once.
    const std::vector<uint32_t> &used_families() const { return used; }
    VkQueue queue(uint32_t number) const { return queues.at(number); }
    bool has_load_none() const { return load_none; }
    const VkPhysicalDeviceFeatures &features() const { return enabled; }
    const VkPhysicalDeviceLimits &limits() const { return properties.limits; }
    const VkPhysicalDeviceMemoryProperties &memories() const { return memory_properties; }

  private:
    void choose_families(const Program &program);
    std::vector<VkDeviceQueueCreateInfo> queue_infos(const Program &program, std::vector<float> &priorities) const;
    std::vector<const char *> wanted_extensions(const Instance &instance);
    void create(const std::vector<VkDeviceQueueCreateInfo> &queue_infos, const std::vector<const char *> &extensions);
    void take_queues(const Program &program);

    VkPhysicalDevice physical_device = VK_NULL_HANDLE;
    VkPhysicalDeviceProperties properties{};
    VkPhysicalDeviceMemoryProperties memory_properties{};
    VkPhysicalDeviceFeatures enabled{};
    std::array<uint32_t, family_kinds> families{};
    std::vector<uint32_t> used;
    std::vector<VkQueueFamilyProperties> family_properties;
    std::unique_ptr<VkDevice, DeviceDeleter> device;
    std::vector<VkQueue> queues;
    bool load_none = false;
};

} // namespace replay
