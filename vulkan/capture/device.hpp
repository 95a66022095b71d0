#pragma once
#include <mutex>

#include "capture.hpp"
#include "loader/loader.hpp"
#include "table.hpp"

struct InstanceLayer : loader::Instance {
    PFN_vkEnumerateDeviceExtensionProperties extensions = nullptr;
    PFN_vkGetPhysicalDeviceFeatures2 features = nullptr;
};

struct Queue {
    uint32_t family = 0;
    std::string name;
};

// All objects that the application has made of a device.
struct Objects {
    Table<Memory> memories;
    Table<Buffer> buffers;
    Table<Image> images;
    Table<ImageView> image_views;
    Table<BufferView> buffer_views;
    Table<Swapchain> swapchains;
    Table<RenderPass> render_passes;
    Table<Framebuffer> framebuffers;
    Table<SetLayout> set_layouts;
    Table<PipelineLayout> pipeline_layouts;
    Table<DescriptorSet> sets;
    Table<UpdateTemplate> templates;
    Table<Shader> shaders;
    Table<ShaderObject> shader_objects;
    Table<Pipeline> pipelines;
    Table<CommandBuffer> command_buffers;
    Table<Semaphore> semaphores;
    Table<Fence> fences;
    Table<Queue> queues;
};

// A device of the application as the layer sees it. `state` guards objects and capture and is
// held for short; `submitting` is held while a queue is handed something, so that the order of
// submissions is the order in which they are recorded.
struct Device {
    Device() = default;
    Device(const Device &) = delete;
    Device &operator=(const Device &) = delete;
    // A program may end without destroying its device.
    ~Device() { capture.finish(); }

    VkDevice handle = VK_NULL_HANDLE;
    VkPhysicalDevice physical = VK_NULL_HANDLE;
    DeviceTable next;
    PFN_vkGetDeviceProcAddr next_proc = nullptr;
    Objects objects;
    Capture capture;
    std::mutex state, submitting;
};

// The device of a device, queue or command buffer.
Device &device_of(const void *dispatchable);

// Does something with what is kept of a device; nothing once its frames are captured.
template <class Do> void with_state(Device &layer, Do what) {
    if (!layer.capture.recording()) return;
    const std::lock_guard lock(layer.state);
    what();
}
