// How the loader meets this layer: one exported function, from which it gets all others.
#include "families.hpp"

#include <string_view>

namespace families {

namespace {

PFN_vkVoidFunction VKAPI_CALL instance_function(VkInstance instance, const char *name);
PFN_vkVoidFunction VKAPI_CALL device_function(VkDevice device, const char *name);

template <typename Function> PFN_vkVoidFunction plain(Function function) { return reinterpret_cast<PFN_vkVoidFunction>(function); }

template <typename Function> Function found(const DeviceTable &table, const char *name) {
    return reinterpret_cast<Function>(table.next(table.device, name));
}

VkResult VKAPI_CALL create_instance(const VkInstanceCreateInfo *info, const VkAllocationCallbacks *allocator, VkInstance *instance) {
    auto made = std::make_unique<InstanceTable>();
    const VkResult result = loader::make_instance(info, allocator, instance, *made);
    if (result != VK_SUCCESS)
        return result;
    made->find(made->families2, "vkGetPhysicalDeviceQueueFamilyProperties2");
    made->find(made->families2, "vkGetPhysicalDeviceQueueFamilyProperties2KHR");
    made->find(made->surface_support, "vkGetPhysicalDeviceSurfaceSupportKHR");
    instances.keep(*instance, std::move(made));
    return VK_SUCCESS;
}

void VKAPI_CALL destroy_instance(VkInstance instance, const VkAllocationCallbacks *allocator) {
    if (instance != VK_NULL_HANDLE)
        instances.take(instance)->destroy(instance, allocator);
}

void fill(DeviceTable &table) {
    table.destroy_device = found<PFN_vkDestroyDevice>(table, "vkDestroyDevice");
    table.get_queue = found<PFN_vkGetDeviceQueue>(table, "vkGetDeviceQueue");
    table.submit = found<PFN_vkQueueSubmit>(table, "vkQueueSubmit");
    table.submit2 = found<PFN_vkQueueSubmit2>(table, "vkQueueSubmit2");
    table.wait_idle = found<PFN_vkQueueWaitIdle>(table, "vkQueueWaitIdle");
    table.present = found<PFN_vkQueuePresentKHR>(table, "vkQueuePresentKHR");
    table.create_pool = found<PFN_vkCreateCommandPool>(table, "vkCreateCommandPool");
    table.destroy_pool = found<PFN_vkDestroyCommandPool>(table, "vkDestroyCommandPool");
    table.allocate = found<PFN_vkAllocateCommandBuffers>(table, "vkAllocateCommandBuffers");
    table.create_buffer = found<PFN_vkCreateBuffer>(table, "vkCreateBuffer");
    table.create_image = found<PFN_vkCreateImage>(table, "vkCreateImage");
    table.barrier = found<PFN_vkCmdPipelineBarrier>(table, "vkCmdPipelineBarrier");
    table.barrier2 = found<PFN_vkCmdPipelineBarrier2>(table, "vkCmdPipelineBarrier2");
}

// Queues are objects of this layer, so the loader has to put its word into each.
void make_queues(DeviceTable &table, PFN_vkSetDeviceLoaderData set_loader_data) {
    table.get_queue(table.device, 0, 0, &table.queue);
    set_loader_data(table.device, table.queue);
    for (auto &family : table.queues)
        for (Queue &queue : family) {
            queue.device = &table;
            set_loader_data(table.device, &queue);
        }
}

VkResult VKAPI_CALL create_device(VkPhysicalDevice physical, const VkDeviceCreateInfo *info, const VkAllocationCallbacks *allocator,
                                  VkDevice *device) {
    const VkLayerDeviceLink *link = loader::link_of(*info);
    const auto *data =
        loader::info_of<VkLayerDeviceCreateInfo>(info, VK_STRUCTURE_TYPE_LOADER_DEVICE_CREATE_INFO, VK_LOADER_DATA_CALLBACK);
    if (link == nullptr || data == nullptr)
        return VK_ERROR_INITIALIZATION_FAILED;
    auto table = std::make_unique<DeviceTable>();
    table->next = link->pfnNextGetDeviceProcAddr;
    const float priority = 1.0F;
    const VkDeviceQueueCreateInfo queue{VK_STRUCTURE_TYPE_DEVICE_QUEUE_CREATE_INFO, nullptr, 0, 0, 1, &priority};
    VkDeviceCreateInfo below = *info;
    below.queueCreateInfoCount = 1;
    below.pQueueCreateInfos = &queue;
    const VkInstance instance = instances.of(physical).handle;
    const auto create = reinterpret_cast<PFN_vkCreateDevice>(link->pfnNextGetInstanceProcAddr(instance, "vkCreateDevice"));
    const VkResult result = create(physical, &below, allocator, device);
    if (result != VK_SUCCESS)
        return result;
    table->device = *device;
    fill(*table);
    make_queues(*table, data->u.pfnSetDeviceLoaderData);
    devices.keep(*device, std::move(table));
    return VK_SUCCESS;
}

void VKAPI_CALL destroy_device(VkDevice device, const VkAllocationCallbacks *allocator) {
    if (device == VK_NULL_HANDLE)
        return;
    const auto table = devices.take(device);
    table->destroy_device(device, allocator);
}

struct Own {
    std::string_view name;
    PFN_vkVoidFunction function;
};

PFN_vkVoidFunction own_instance_function(std::string_view name) {
    const Own all[] = {
        {"vkGetInstanceProcAddr", plain(instance_function)},
        {"vkCreateInstance", plain(create_instance)},
        {"vkDestroyInstance", plain(destroy_instance)},
        {"vkCreateDevice", plain(create_device)},
        {"vkGetPhysicalDeviceQueueFamilyProperties", plain(queue_family_properties)},
        {"vkGetPhysicalDeviceQueueFamilyProperties2", plain(queue_family_properties2)},
        {"vkGetPhysicalDeviceQueueFamilyProperties2KHR", plain(queue_family_properties2)},
    };
    for (const Own &one : all)
        if (one.name == name)
            return one.function;
    return nullptr;
}

PFN_vkVoidFunction own_device_function(std::string_view name) {
    const Own all[] = {
        {"vkGetDeviceProcAddr", plain(device_function)},
        {"vkDestroyDevice", plain(destroy_device)},
        {"vkGetDeviceQueue", plain(get_queue)},
        {"vkGetDeviceQueue2", plain(get_queue2)},
        {"vkQueueSubmit", plain(submit)},
        {"vkQueueSubmit2", plain(submit2)},
        {"vkQueueSubmit2KHR", plain(submit2)},
        {"vkQueueWaitIdle", plain(wait_idle)},
        {"vkQueuePresentKHR", plain(present)},
        {"vkCreateCommandPool", plain(create_pool)},
        {"vkDestroyCommandPool", plain(destroy_pool)},
        {"vkAllocateCommandBuffers", plain(allocate)},
        {"vkCreateBuffer", plain(create_buffer)},
        {"vkCreateImage", plain(create_image)},
        {"vkCmdPipelineBarrier", plain(barrier)},
        {"vkCmdPipelineBarrier2", plain(barrier2)},
        {"vkCmdPipelineBarrier2KHR", plain(barrier2)},
        {"vkCmdDrawIndirect", plain(draw_nothing_indirect)},
        {"vkCmdDrawIndexedIndirect", plain(draw_nothing_indirect)},
        {"vkCmdDrawIndexed", plain(draw_nothing_indexed)},
        {"vkCmdDispatchIndirect", plain(dispatch_nothing_indirect)},
    };
    for (const Own &one : all)
        if (one.name == name)
            return one.function;
    return nullptr;
}

PFN_vkVoidFunction VKAPI_CALL device_function(VkDevice device, const char *name) {
    const PFN_vkVoidFunction below = devices.of(device).next(device, name);
    const PFN_vkVoidFunction own = own_device_function(name);
    // What the layers below do not have must not seem to be there.
    return own != nullptr && below != nullptr ? own : below;
}

PFN_vkVoidFunction VKAPI_CALL instance_function(VkInstance instance, const char *name) {
    if (const auto own = own_instance_function(name))
        return own;
    if (instance == VK_NULL_HANDLE)
        return nullptr;
    const PFN_vkVoidFunction below = instances.of(instance).next(instance, name);
    if (below == nullptr)
        return nullptr;
    if (std::string_view(name) == "vkGetPhysicalDeviceSurfaceSupportKHR")
        return plain(surface_support);
    const PFN_vkVoidFunction own = own_device_function(name);
    return own != nullptr ? own : below;
}

} // namespace

} // namespace families

extern "C" __attribute__((visibility("default"))) VkResult VKAPI_CALL
vkNegotiateLoaderLayerInterfaceVersion(VkNegotiateLayerInterface *interface) {
    return loader::negotiate(*interface, families::instance_function, families::device_function);
}
