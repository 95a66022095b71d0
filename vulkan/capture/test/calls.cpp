// Makes the calls of one small case on the first device, for test/run.py, which captures and checks them.
//
//   capture-calls CASE
//
// The case `functions` reads names of commands, and prints for each one that the device has the file that it leads into. The case
// `costs` prints how many nanoseconds of processor time some calls take.
// Status 2: there is no such case; 3: Vulkan failed.

#include <dlfcn.h>
#include <vulkan/vulkan.h>

#include <algorithm>
#include <cstdio>
#include <ctime>
#include <functional>
#include <iostream>
#include <map>
#include <stdexcept>
#include <string>
#include <vector>

namespace {

void need(VkResult result, const char *call) {
    if (result != VK_SUCCESS) throw std::runtime_error(std::string(call) + " failed: " + std::to_string(result));
}

// A queue and what its command buffers come from.
struct Queue {
    uint32_t family = 0;
    VkQueue handle = VK_NULL_HANDLE;
    VkCommandPool pool = VK_NULL_HANDLE;
};

// An instance and a device with a queue of each family; what is made of it is given back in turn.
class Context {
  public:
    Context() {
        make_device();
        queue = queues.front().handle;
    }
    Context(const Context &) = delete;
    Context &operator=(const Context &) = delete;
    ~Context() {
        vkDeviceWaitIdle(device);
        while (!ends.empty()) {
            ends.back()();
            ends.pop_back();
        }
    }

    VkDeviceMemory memory(VkDeviceSize size) {
        VkMemoryAllocateInfo info{VK_STRUCTURE_TYPE_MEMORY_ALLOCATE_INFO, nullptr, size, 0};
        VkDeviceMemory made;
        need(vkAllocateMemory(device, &info, nullptr, &made), "vkAllocateMemory");
        at_end([=, this] { vkFreeMemory(device, made, nullptr); });
        return made;
    }

    VkBuffer buffer(VkDeviceMemory place, VkDeviceSize offset) {
        VkBufferCreateInfo info{VK_STRUCTURE_TYPE_BUFFER_CREATE_INFO, nullptr, 0, bytes,
                                VK_BUFFER_USAGE_TRANSFER_SRC_BIT | VK_BUFFER_USAGE_TRANSFER_DST_BIT, VK_SHARING_MODE_EXCLUSIVE, 0, nullptr};
        VkBuffer made;
        need(vkCreateBuffer(device, &info, nullptr, &made), "vkCreateBuffer");
        at_end([=, this] { vkDestroyBuffer(device, made, nullptr); });
        VkMemoryRequirements wanted;
        vkGetBufferMemoryRequirements(device, made, &wanted);
        need(vkBindBufferMemory(device, made, place, offset), "vkBindBufferMemory");
        return made;
    }
    VkBuffer buffer() { return buffer(memory(bytes), 0); }

    VkImage image() {
        VkImageCreateInfo info{};
        info.sType = VK_STRUCTURE_TYPE_IMAGE_CREATE_INFO;
        info.imageType = VK_IMAGE_TYPE_2D;
        info.format = VK_FORMAT_R8G8B8A8_UNORM;
        info.extent = {side, side, 1};
        info.mipLevels = info.arrayLayers = 1;
        info.samples = VK_SAMPLE_COUNT_1_BIT;
        info.usage = VK_IMAGE_USAGE_COLOR_ATTACHMENT_BIT | VK_IMAGE_USAGE_TRANSFER_SRC_BIT | VK_IMAGE_USAGE_TRANSFER_DST_BIT;
        VkImage made;
        need(vkCreateImage(device, &info, nullptr, &made), "vkCreateImage");
        at_end([=, this] { vkDestroyImage(device, made, nullptr); });
        VkMemoryRequirements wanted;
        vkGetImageMemoryRequirements(device, made, &wanted);
        need(vkBindImageMemory(device, made, memory(wanted.size), 0), "vkBindImageMemory");
        return made;
    }

    VkImageView view(VkImage image) {
        VkImageViewCreateInfo info{VK_STRUCTURE_TYPE_IMAGE_VIEW_CREATE_INFO, nullptr, 0, image, VK_IMAGE_VIEW_TYPE_2D,
                                   VK_FORMAT_R8G8B8A8_UNORM, {}, whole};
        VkImageView made;
        need(vkCreateImageView(device, &info, nullptr, &made), "vkCreateImageView");
        at_end([=, this] { vkDestroyImageView(device, made, nullptr); });
        return made;
    }

    VkCommandBuffer commands(VkCommandBufferLevel level = VK_COMMAND_BUFFER_LEVEL_PRIMARY) { return commands(queues.front(), level); }
    VkCommandBuffer commands(const Queue &on, VkCommandBufferLevel level = VK_COMMAND_BUFFER_LEVEL_PRIMARY) {
        VkCommandBufferAllocateInfo info{VK_STRUCTURE_TYPE_COMMAND_BUFFER_ALLOCATE_INFO, nullptr, on.pool, level, 1};
        VkCommandBuffer made;
        need(vkAllocateCommandBuffers(device, &info, &made), "vkAllocateCommandBuffers");
        VkCommandBufferInheritanceInfo inherited{};
        inherited.sType = VK_STRUCTURE_TYPE_COMMAND_BUFFER_INHERITANCE_INFO;
        VkCommandBufferBeginInfo begin{VK_STRUCTURE_TYPE_COMMAND_BUFFER_BEGIN_INFO, nullptr, 0, &inherited};
        need(vkBeginCommandBuffer(made, &begin), "vkBeginCommandBuffer");
        return made;
    }

    void submit(VkCommandBuffer commands, VkFence fence = VK_NULL_HANDLE, const void *chain = nullptr, VkSemaphore wait = VK_NULL_HANDLE,
                VkSemaphore signal = VK_NULL_HANDLE) {
        submit(queues.front(), commands, fence, chain, wait, signal);
    }
    void submit(const Queue &on, VkCommandBuffer commands, VkFence fence, const void *chain, VkSemaphore wait, VkSemaphore signal,
                VkPipelineStageFlags stage = VK_PIPELINE_STAGE_TRANSFER_BIT) {
        need(vkEndCommandBuffer(commands), "vkEndCommandBuffer");
        const VkSubmitInfo info{VK_STRUCTURE_TYPE_SUBMIT_INFO, chain,   wait != VK_NULL_HANDLE, &wait, &stage, 1, &commands,
                                signal != VK_NULL_HANDLE,      &signal};
        need(vkQueueSubmit(on.handle, 1, &info, fence), "vkQueueSubmit");
    }

    VkFence fence() {
        VkFenceCreateInfo info{VK_STRUCTURE_TYPE_FENCE_CREATE_INFO, nullptr, 0};
        VkFence made;
        need(vkCreateFence(device, &info, nullptr, &made), "vkCreateFence");
        at_end([=, this] { vkDestroyFence(device, made, nullptr); });
        return made;
    }

    VkSemaphore semaphore(VkSemaphoreType kind) {
        VkSemaphoreTypeCreateInfo type{VK_STRUCTURE_TYPE_SEMAPHORE_TYPE_CREATE_INFO, nullptr, kind, 0};
        VkSemaphoreCreateInfo info{VK_STRUCTURE_TYPE_SEMAPHORE_CREATE_INFO, &type, 0};
        VkSemaphore made;
        need(vkCreateSemaphore(device, &info, nullptr, &made), "vkCreateSemaphore");
        at_end([=, this] { vkDestroySemaphore(device, made, nullptr); });
        return made;
    }

    void at_end(std::function<void()> what) { ends.push_back(std::move(what)); }

    static constexpr VkDeviceSize bytes = 256;
    static constexpr uint32_t side = 8;
    static constexpr VkImageSubresourceRange whole{VK_IMAGE_ASPECT_COLOR_BIT, 0, 1, 0, 1};
    VkDevice device = VK_NULL_HANDLE;
    VkQueue queue = VK_NULL_HANDLE;
    // One of each family of the device.
    std::vector<Queue> queues;

    const Queue &queue_of_family(uint32_t family) const {
        if (family >= queues.size()) throw std::runtime_error("the device has too few queue families");
        return queues[family];
    }

  private:
    void make_device() {
        VkApplicationInfo application{VK_STRUCTURE_TYPE_APPLICATION_INFO, nullptr, "capture-calls", 1, nullptr, 0, VK_API_VERSION_1_3};
        VkInstanceCreateInfo instance_info{VK_STRUCTURE_TYPE_INSTANCE_CREATE_INFO, nullptr, 0, &application, 0, nullptr, 0, nullptr};
        VkInstance instance;
        need(vkCreateInstance(&instance_info, nullptr, &instance), "vkCreateInstance");
        at_end([=] { vkDestroyInstance(instance, nullptr); });
        uint32_t count = 1;
        VkPhysicalDevice physical;
        vkEnumeratePhysicalDevices(instance, &count, &physical);
        if (count == 0) throw std::runtime_error("there is no Vulkan device");
        uint32_t families = 0;
        vkGetPhysicalDeviceQueueFamilyProperties(physical, &families, nullptr);
        const float priority = 1;
        std::vector<VkDeviceQueueCreateInfo> wanted;
        for (uint32_t family = 0; family < families; ++family) {
            wanted.push_back({VK_STRUCTURE_TYPE_DEVICE_QUEUE_CREATE_INFO, nullptr, 0, family, 1, &priority});
        }
        VkPhysicalDeviceVulkan12Features features{};
        features.sType = VK_STRUCTURE_TYPE_PHYSICAL_DEVICE_VULKAN_1_2_FEATURES;
        features.timelineSemaphore = VK_TRUE;
        VkDeviceCreateInfo info{VK_STRUCTURE_TYPE_DEVICE_CREATE_INFO, &features, 0, families, wanted.data(), 0, nullptr, 0, nullptr, nullptr};
        need(vkCreateDevice(physical, &info, nullptr, &device), "vkCreateDevice");
        at_end([this] { vkDestroyDevice(device, nullptr); });
        for (uint32_t family = 0; family < families; ++family) add_queue(family);
    }

    void add_queue(uint32_t family) {
        Queue made{family, VK_NULL_HANDLE, VK_NULL_HANDLE};
        vkGetDeviceQueue(device, family, 0, &made.handle);
        const VkCommandPoolCreateInfo info{VK_STRUCTURE_TYPE_COMMAND_POOL_CREATE_INFO, nullptr, 0, family};
        need(vkCreateCommandPool(device, &info, nullptr, &made.pool), "vkCreateCommandPool");
        at_end([this, made] { vkDestroyCommandPool(device, made.pool, nullptr); });
        queues.push_back(made);
    }

    std::vector<std::function<void()>> ends;
};

VkMemoryBarrier full() {
    return {VK_STRUCTURE_TYPE_MEMORY_BARRIER, nullptr, VK_ACCESS_TRANSFER_WRITE_BIT, VK_ACCESS_TRANSFER_READ_BIT | VK_ACCESS_TRANSFER_WRITE_BIT};
}

void barrier(VkCommandBuffer commands) {
    const auto memory = full();
    vkCmdPipelineBarrier(commands, VK_PIPELINE_STAGE_TRANSFER_BIT, VK_PIPELINE_STAGE_TRANSFER_BIT, 0, 1, &memory, 0, nullptr, 0, nullptr);
}

void fill(VkCommandBuffer commands, VkBuffer buffer, VkDeviceSize offset = 0, VkDeviceSize size = VK_WHOLE_SIZE) {
    vkCmdFillBuffer(commands, buffer, offset, size, 7);
}

void copy(VkCommandBuffer commands, VkBuffer from, VkBuffer to, VkDeviceSize offset = 0, VkDeviceSize size = Context::bytes) {
    const VkBufferCopy region{offset, offset, size};
    vkCmdCopyBuffer(commands, from, to, 1, &region);
}

void one_submission(Context &context, bool ordered) {
    const auto one = context.buffer(), other = context.buffer();
    const auto commands = context.commands();
    fill(commands, one);
    if (ordered) barrier(commands);
    copy(commands, one, other);
    context.submit(commands);
}

// The barrier stands in a secondary command buffer.
void secondary(Context &context) {
    const auto one = context.buffer(), other = context.buffer();
    const auto inner = context.commands(VK_COMMAND_BUFFER_LEVEL_SECONDARY);
    barrier(inner);
    copy(inner, one, other);
    need(vkEndCommandBuffer(inner), "vkEndCommandBuffer");
    const auto commands = context.commands();
    fill(commands, one);
    vkCmdExecuteCommands(commands, 1, &inner);
    context.submit(commands);
}

// Halves of one buffer do not meet; two buffers over the same bytes do.
void halves(Context &context) {
    const auto one = context.buffer(), other = context.buffer();
    const auto commands = context.commands();
    fill(commands, one, 0, Context::bytes / 2);
    copy(commands, one, other, Context::bytes / 2, Context::bytes / 2);
    context.submit(commands);
}

void twins(Context &context, bool ordered) {
    const auto memory = context.memory(Context::bytes);
    const auto one = context.buffer(memory, 0), twin = context.buffer(memory, 0), other = context.buffer();
    const auto commands = context.commands();
    fill(commands, one);
    if (ordered) barrier(commands);
    copy(commands, twin, other);
    context.submit(commands);
}

// Two submissions of one queue, and what is between them.
void two_submissions(Context &context, const std::function<void(VkFence)> &between) {
    const auto one = context.buffer(), other = context.buffer();
    const auto fence = context.fence();
    auto commands = context.commands();
    fill(commands, one);
    context.submit(commands, fence);
    between(fence);
    commands = context.commands();
    copy(commands, one, other);
    context.submit(commands);
}

void timeline(Context &context, uint64_t waited) {
    const auto one = context.buffer(), other = context.buffer();
    const auto semaphore = context.semaphore(VK_SEMAPHORE_TYPE_TIMELINE);
    const uint64_t signalled = 5;
    const VkTimelineSemaphoreSubmitInfo signals{VK_STRUCTURE_TYPE_TIMELINE_SEMAPHORE_SUBMIT_INFO, nullptr, 0, nullptr, 1, &signalled};
    const VkTimelineSemaphoreSubmitInfo waits{VK_STRUCTURE_TYPE_TIMELINE_SEMAPHORE_SUBMIT_INFO, nullptr, 1, &waited, 0, nullptr};
    auto commands = context.commands();
    fill(commands, one);
    context.submit(commands, VK_NULL_HANDLE, &signals, VK_NULL_HANDLE, semaphore);
    commands = context.commands();
    copy(commands, one, other);
    context.submit(commands, VK_NULL_HANDLE, &waits, semaphore);
}

// An event orders what it does; the file cannot say so.
void event(Context &context) {
    const auto one = context.buffer(), other = context.buffer();
    VkEventCreateInfo info{VK_STRUCTURE_TYPE_EVENT_CREATE_INFO, nullptr, 0};
    VkEvent made;
    need(vkCreateEvent(context.device, &info, nullptr, &made), "vkCreateEvent");
    context.at_end([&context, made] { vkDestroyEvent(context.device, made, nullptr); });
    const auto commands = context.commands();
    fill(commands, one);
    vkCmdSetEvent(commands, made, VK_PIPELINE_STAGE_TRANSFER_BIT);
    const auto memory = full();
    vkCmdWaitEvents(commands, 1, &made, VK_PIPELINE_STAGE_TRANSFER_BIT, VK_PIPELINE_STAGE_TRANSFER_BIT, 1, &memory, 0, nullptr, 0, nullptr);
    copy(commands, one, other);
    context.submit(commands);
}

VkSubpassDependency dependency(uint32_t from, uint32_t to) {
    return {from,
            to,
            VK_PIPELINE_STAGE_COLOR_ATTACHMENT_OUTPUT_BIT,
            VK_PIPELINE_STAGE_COLOR_ATTACHMENT_OUTPUT_BIT,
            VK_ACCESS_COLOR_ATTACHMENT_WRITE_BIT,
            VK_ACCESS_COLOR_ATTACHMENT_READ_BIT | VK_ACCESS_COLOR_ATTACHMENT_WRITE_BIT,
            0};
}

// Two subpasses store one attachment.
void subpasses(Context &context, bool ordered) {
    VkAttachmentDescription attachment{};
    attachment.format = VK_FORMAT_R8G8B8A8_UNORM;
    attachment.samples = VK_SAMPLE_COUNT_1_BIT;
    attachment.loadOp = VK_ATTACHMENT_LOAD_OP_CLEAR;
    attachment.initialLayout = VK_IMAGE_LAYOUT_UNDEFINED;
    attachment.finalLayout = VK_IMAGE_LAYOUT_TRANSFER_SRC_OPTIMAL;
    const VkAttachmentReference color{0, VK_IMAGE_LAYOUT_COLOR_ATTACHMENT_OPTIMAL};
    VkSubpassDescription subpass{};
    subpass.colorAttachmentCount = 1;
    subpass.pColorAttachments = &color;
    const VkSubpassDescription both[] = {subpass, subpass};
    const auto between = dependency(0, 1);
    const VkRenderPassCreateInfo info{VK_STRUCTURE_TYPE_RENDER_PASS_CREATE_INFO, nullptr, 0, 1, &attachment, 2, both, ordered, &between};
    VkRenderPass pass;
    need(vkCreateRenderPass(context.device, &info, nullptr, &pass), "vkCreateRenderPass");
    context.at_end([&context, pass] { vkDestroyRenderPass(context.device, pass, nullptr); });
    const auto view = context.view(context.image());
    const VkFramebufferCreateInfo frame_info{
        VK_STRUCTURE_TYPE_FRAMEBUFFER_CREATE_INFO, nullptr, 0, pass, 1, &view, Context::side, Context::side, 1};
    VkFramebuffer frame;
    need(vkCreateFramebuffer(context.device, &frame_info, nullptr, &frame), "vkCreateFramebuffer");
    context.at_end([&context, frame] { vkDestroyFramebuffer(context.device, frame, nullptr); });
    const auto commands = context.commands();
    const VkClearValue clear{};
    const VkRenderPassBeginInfo begin{
        VK_STRUCTURE_TYPE_RENDER_PASS_BEGIN_INFO, nullptr, pass, frame, {{0, 0}, {Context::side, Context::side}}, 1, &clear};
    vkCmdBeginRenderPass(commands, &begin, VK_SUBPASS_CONTENTS_INLINE);
    vkCmdNextSubpass(commands, VK_SUBPASS_CONTENTS_INLINE);
    vkCmdEndRenderPass(commands);
    context.submit(commands);
}

// An image is cleared in the layout that it is brought to, or in another one.
void clear_in_layout(VkCommandBuffer commands, VkImage image, VkImageLayout brought) {
    VkImageMemoryBarrier change{};
    change.sType = VK_STRUCTURE_TYPE_IMAGE_MEMORY_BARRIER;
    change.dstAccessMask = VK_ACCESS_TRANSFER_WRITE_BIT;
    change.newLayout = brought;
    change.srcQueueFamilyIndex = change.dstQueueFamilyIndex = VK_QUEUE_FAMILY_IGNORED;
    change.image = image;
    change.subresourceRange = Context::whole;
    vkCmdPipelineBarrier(commands, VK_PIPELINE_STAGE_TOP_OF_PIPE_BIT, VK_PIPELINE_STAGE_TRANSFER_BIT, 0, 0, nullptr, 0, nullptr, 1, &change);
    const VkClearColorValue color{};
    vkCmdClearColorImage(commands, image, VK_IMAGE_LAYOUT_TRANSFER_DST_OPTIMAL, &color, 1, &Context::whole);
}

void layouts(Context &context, VkImageLayout brought) {
    const auto commands = context.commands();
    clear_in_layout(commands, context.image(), brought);
    context.submit(commands);
}

// What of a transfer between two families is made.
struct Halves {
    bool release = true, acquire = true, wait = true;
    VkImageLayout acquired = VK_IMAGE_LAYOUT_TRANSFER_SRC_OPTIMAL;
    VkPipelineStageFlags waited = VK_PIPELINE_STAGE_TRANSFER_BIT;
};

// A half of a transfer. A release makes available what was stored, an acquire makes it visible.
struct Half {
    uint32_t from, to;
    VkAccessFlags src, dst;
};

constexpr uint32_t owner = 0, taker = 2;
constexpr Half release{owner, taker, VK_ACCESS_TRANSFER_WRITE_BIT, 0}, acquire{owner, taker, 0, VK_ACCESS_TRANSFER_READ_BIT};
constexpr Half release_back{taker, owner, 0, 0}, acquire_back{taker, owner, 0, VK_ACCESS_TRANSFER_WRITE_BIT};

void transfer(VkCommandBuffer commands, const Half &half, VkBuffer buffer) {
    const VkBufferMemoryBarrier made{VK_STRUCTURE_TYPE_BUFFER_MEMORY_BARRIER, nullptr, half.src, half.dst, half.from, half.to, buffer, 0,
                                     VK_WHOLE_SIZE};
    vkCmdPipelineBarrier(commands, VK_PIPELINE_STAGE_TRANSFER_BIT, VK_PIPELINE_STAGE_TRANSFER_BIT, 0, 0, nullptr, 1, &made, 0, nullptr);
}

// The layout of an image changes with its owner.
void transfer(VkCommandBuffer commands, const Half &half, VkImage image, VkImageLayout to) {
    const VkImageMemoryBarrier made{VK_STRUCTURE_TYPE_IMAGE_MEMORY_BARRIER, nullptr, half.src, half.dst,
                                    VK_IMAGE_LAYOUT_TRANSFER_DST_OPTIMAL, to, half.from, half.to, image, Context::whole};
    vkCmdPipelineBarrier(commands, VK_PIPELINE_STAGE_TRANSFER_BIT, VK_PIPELINE_STAGE_TRANSFER_BIT, 0, 0, nullptr, 0, nullptr, 1, &made);
}

// One family stores, another one copies from it.
template <class Store, class Load> void two_families(Context &context, const Halves &halves, Store store, Load load) {
    const Queue &from = context.queue_of_family(owner), &to = context.queue_of_family(taker);
    const auto signal = context.semaphore(VK_SEMAPHORE_TYPE_BINARY);
    auto commands = context.commands(from);
    store(commands);
    context.submit(from, commands, VK_NULL_HANDLE, nullptr, VK_NULL_HANDLE, signal);
    commands = context.commands(to);
    load(commands);
    context.submit(to, commands, VK_NULL_HANDLE, nullptr, halves.wait ? signal : VK_NULL_HANDLE, VK_NULL_HANDLE, halves.waited);
}

void buffer_for_another_family(Context &context, const Halves &halves) {
    const auto one = context.buffer(), other = context.buffer();
    const auto store = [&](VkCommandBuffer commands) {
        fill(commands, one);
        if (halves.release) transfer(commands, release, one);
    };
    const auto load = [&](VkCommandBuffer commands) {
        if (halves.acquire) transfer(commands, acquire, one);
        copy(commands, one, other);
    };
    two_families(context, halves, store, load);
}

void image_for_another_family(Context &context, const Halves &halves) {
    const auto image = context.image();
    const auto other = context.buffer();
    const auto store = [&](VkCommandBuffer commands) {
        clear_in_layout(commands, image, VK_IMAGE_LAYOUT_TRANSFER_DST_OPTIMAL);
        transfer(commands, release, image, VK_IMAGE_LAYOUT_TRANSFER_SRC_OPTIMAL);
    };
    const auto load = [&](VkCommandBuffer commands) {
        transfer(commands, acquire, image, halves.acquired);
        const VkBufferImageCopy region{0, 0, 0, {VK_IMAGE_ASPECT_COLOR_BIT, 0, 0, 1}, {0, 0, 0}, {Context::side, Context::side, 1}};
        vkCmdCopyImageToBuffer(commands, image, VK_IMAGE_LAYOUT_TRANSFER_SRC_OPTIMAL, other, 1, &region);
    };
    two_families(context, halves, store, load);
}

// There and back again: the first family stores it anew.
void there_and_back(Context &context, bool back) {
    const auto one = context.buffer(), other = context.buffer();
    const Queue &from = context.queue_of_family(owner), &to = context.queue_of_family(taker);
    const auto there = context.semaphore(VK_SEMAPHORE_TYPE_BINARY), returned = context.semaphore(VK_SEMAPHORE_TYPE_BINARY);
    auto commands = context.commands(from);
    fill(commands, one);
    transfer(commands, release, one);
    context.submit(from, commands, VK_NULL_HANDLE, nullptr, VK_NULL_HANDLE, there);
    commands = context.commands(to);
    transfer(commands, acquire, one);
    copy(commands, one, other);
    if (back) transfer(commands, release_back, one);
    context.submit(to, commands, VK_NULL_HANDLE, nullptr, there, returned);
    commands = context.commands(from);
    if (back) transfer(commands, acquire_back, one);
    fill(commands, one);
    context.submit(from, commands, VK_NULL_HANDLE, nullptr, returned, VK_NULL_HANDLE);
}

void functions(Context &context) {
    for (std::string name; std::cin >> name;) {
        const auto function = vkGetDeviceProcAddr(context.device, name.c_str());
        Dl_info found{};
        if (function == nullptr || dladdr(reinterpret_cast<void *>(function), &found) == 0) continue;
        std::printf("%s %s\n", name.c_str(), found.dli_fname);
    }
}

double processor_time() {
    timespec now{};
    clock_gettime(CLOCK_THREAD_CPUTIME_ID, &now);
    return static_cast<double>(now.tv_sec) * 1e9 + static_cast<double>(now.tv_nsec);
}

// What one of many calls costs this thread, the least of some rounds. Each round begins with a new command buffer.
void print_cost(Context &context, const char *name, const std::function<void(VkCommandBuffer)> &call) {
    constexpr int rounds = 20, calls = 2000;
    double least = 1e9;
    for (int round = 0; round < rounds; ++round) {
        const auto commands = context.commands();
        const double start = processor_time();
        for (int k = 0; k < calls; ++k) call(commands);
        least = std::min(least, (processor_time() - start) / calls);
        need(vkQueueWaitIdle(context.queue), "vkQueueWaitIdle");
    }
    std::printf("%s %.0f\n", name, least);
}

void costs(Context &context) {
    const auto one = context.buffer(), other = context.buffer();
    const VkSubmitInfo nothing{VK_STRUCTURE_TYPE_SUBMIT_INFO, nullptr, 0, nullptr, nullptr, 0, nullptr, 0, nullptr};
    const VkViewport viewport{0, 0, 1, 1, 0, 1};
    print_cost(context, "vkCmdSetViewport", [&](VkCommandBuffer commands) { vkCmdSetViewport(commands, 0, 1, &viewport); });
    print_cost(context, "vkCmdPipelineBarrier", barrier);
    print_cost(context, "vkCmdFillBuffer", [&](VkCommandBuffer commands) { fill(commands, one); });
    print_cost(context, "vkCmdCopyBuffer", [&](VkCommandBuffer commands) { copy(commands, one, other); });
    print_cost(context, "vkQueueSubmit", [&](VkCommandBuffer) {
        need(vkQueueSubmit(context.queue, 1, &nothing, VK_NULL_HANDLE), "vkQueueSubmit");
    });
}

using Case = std::function<void(Context &)>;

const std::map<std::string, Case> &cases() {
    static const std::map<std::string, Case> all = {
        {"ordered", [](Context &context) { one_submission(context, true); }},
        {"unordered", [](Context &context) { one_submission(context, false); }},
        {"secondary", secondary},
        {"halves", halves},
        {"twins", [](Context &context) { twins(context, true); }},
        {"twins-unordered", [](Context &context) { twins(context, false); }},
        {"submissions-unordered", [](Context &context) { two_submissions(context, [](VkFence) {}); }},
        {"fence", [](Context &context) { two_submissions(context, [&](VkFence fence) {
             need(vkWaitForFences(context.device, 1, &fence, VK_TRUE, UINT64_MAX), "vkWaitForFences");
         }); }},
        {"idle", [](Context &context) { two_submissions(context, [&](VkFence) { need(vkQueueWaitIdle(context.queue), "vkQueueWaitIdle"); }); }},
        {"timeline", [](Context &context) { timeline(context, 3); }},
        {"event", event},
        {"subpasses", [](Context &context) { subpasses(context, true); }},
        {"subpasses-unordered", [](Context &context) { subpasses(context, false); }},
        {"layout", [](Context &context) { layouts(context, VK_IMAGE_LAYOUT_TRANSFER_DST_OPTIMAL); }},
        {"layout-wrong", [](Context &context) { layouts(context, VK_IMAGE_LAYOUT_GENERAL); }},
        {"functions", functions},
        {"costs", costs},
        {"transfer", [](Context &context) { buffer_for_another_family(context, {}); }},
        {"transfer-unordered", [](Context &context) { buffer_for_another_family(context, {true, true, false}); }},
        {"transfer-foreign-stage", [](Context &context) {
             buffer_for_another_family(context, {true, true, true, VK_IMAGE_LAYOUT_UNDEFINED, VK_PIPELINE_STAGE_COLOR_ATTACHMENT_OUTPUT_BIT});
         }},
        {"transfer-without-acquire", [](Context &context) { buffer_for_another_family(context, {true, false}); }},
        {"transfer-without-release", [](Context &context) { buffer_for_another_family(context, {false, true}); }},
        {"transfer-forgotten", [](Context &context) { buffer_for_another_family(context, {false, false}); }},
        {"transfer-image", [](Context &context) { image_for_another_family(context, {}); }},
        {"transfer-image-layouts", [](Context &context) { image_for_another_family(context, {true, true, true, VK_IMAGE_LAYOUT_GENERAL}); }},
        {"transfer-back", [](Context &context) { there_and_back(context, true); }},
        {"transfer-back-forgotten", [](Context &context) { there_and_back(context, false); }},
    };
    return all;
}

}  // namespace

int main(int count, char **words) {
    const auto found = count == 2 ? cases().find(words[1]) : cases().end();
    if (found == cases().end()) {
        std::fprintf(stderr, "usage: capture-calls CASE, one of:");
        for (const auto &[name, does] : cases()) std::fprintf(stderr, " %s", name.c_str());
        std::fprintf(stderr, "\n");
        return 2;
    }
    try {
        Context context;
        found->second(context);
    } catch (const std::exception &error) {
        std::fprintf(stderr, "capture-calls: %s\n", error.what());
        return 3;
    }
    return 0;
}
