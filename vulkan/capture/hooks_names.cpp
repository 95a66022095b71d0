// Names that the program gives its objects.

#include "device.hpp"
#include "hooks.hpp"

namespace {

void set_name(Device &layer, VkObjectType type, uint64_t handle, const char *name) {
    const std::string text = name != nullptr ? name : "";
    const auto give = [&](const auto &object) {
        if (object) object->name = text;
    };
    switch (type) {
    case VK_OBJECT_TYPE_DEVICE_MEMORY: return give(layer.objects.memories.find(handle));
    case VK_OBJECT_TYPE_BUFFER: return give(layer.objects.buffers.find(handle));
    case VK_OBJECT_TYPE_IMAGE: return give(layer.objects.images.find(handle));
    case VK_OBJECT_TYPE_QUEUE: return give(layer.objects.queues.find(handle));
    default: return;
    }
}

}  // namespace

namespace hook {

void SetDebugUtilsObjectNameEXT(Device &layer, VkResult, VkDevice, const VkDebugUtilsObjectNameInfoEXT *pNameInfo) {
    set_name(layer, pNameInfo->objectType, pNameInfo->objectHandle, pNameInfo->pObjectName);
}

// The older extension counts kinds of objects as the newer ones do, as far as they have names here.
void DebugMarkerSetObjectNameEXT(Device &layer, VkResult, VkDevice, const VkDebugMarkerObjectNameInfoEXT *pNameInfo) {
    set_name(layer, static_cast<VkObjectType>(pNameInfo->objectType), pNameInfo->object, pNameInfo->pObjectName);
}

}  // namespace hook
