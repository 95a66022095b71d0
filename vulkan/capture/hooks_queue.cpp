// Submissions, acquires and presentation.

#include <algorithm>
#include <span>

#include "chain.hpp"
#include "flatten.hpp"
#include "hooks.hpp"
#include "masks.hpp"
#include "ranges.hpp"
#include "recorder.hpp"
#include "semaphores.hpp"

namespace {

// One submission, by whichever call.
struct Submission {
    std::vector<SemaphoreUse> waits;
    std::vector<Ref<CommandBuffer>> buffers;
    std::vector<SemaphoreUse> signals;
};

uint64_t value_at(const uint64_t *values, uint32_t count, uint32_t place) {
    return values != nullptr && place < count ? values[place] : 0;
}

Submission submission_of(Device &layer, const VkSubmitInfo &info) {
    const VkTimelineSemaphoreSubmitInfo none{};
    const auto *told = in_chain<VkTimelineSemaphoreSubmitInfo>(info.pNext, VK_STRUCTURE_TYPE_TIMELINE_SEMAPHORE_SUBMIT_INFO);
    const auto &values = told != nullptr ? *told : none;
    Submission made;
    for (uint32_t place = 0; place < info.waitSemaphoreCount; ++place) {
        made.waits.push_back({layer.objects.semaphores.find(info.pWaitSemaphores[place]),
                              value_at(values.pWaitSemaphoreValues, values.waitSemaphoreValueCount, place), info.pWaitDstStageMask[place]});
    }
    for (uint32_t place = 0; place < info.commandBufferCount; ++place) {
        made.buffers.push_back(buffer_of(layer, info.pCommandBuffers[place]));
    }
    for (uint32_t place = 0; place < info.signalSemaphoreCount; ++place) {
        made.signals.push_back({layer.objects.semaphores.find(info.pSignalSemaphores[place]),
                                value_at(values.pSignalSemaphoreValues, values.signalSemaphoreValueCount, place)});
    }
    return made;
}

Submission submission_of(Device &layer, const VkSubmitInfo2 &info) {
    Submission made;
    const auto use_of = [&](const VkSemaphoreSubmitInfo &from) {
        return SemaphoreUse{layer.objects.semaphores.find(from.semaphore), from.value, from.stageMask};
    };
    for (const auto &wait : std::span(info.pWaitSemaphoreInfos, info.waitSemaphoreInfoCount)) made.waits.push_back(use_of(wait));
    for (const auto &buffer : std::span(info.pCommandBufferInfos, info.commandBufferInfoCount)) {
        made.buffers.push_back(buffer_of(layer, buffer.commandBuffer));
    }
    for (const auto &signal : std::span(info.pSignalSemaphoreInfos, info.signalSemaphoreInfoCount)) made.signals.push_back(use_of(signal));
    return made;
}

// A sparse binding waits and signals as a submission does; what it binds is not followed.
Submission submission_of(Device &layer, const VkBindSparseInfo &info) {
    Submission made;
    for (const auto handle : std::span(info.pWaitSemaphores, info.waitSemaphoreCount)) {
        made.waits.push_back({layer.objects.semaphores.find(handle)});
    }
    for (const auto handle : std::span(info.pSignalSemaphores, info.signalSemaphoreCount)) {
        made.signals.push_back({layer.objects.semaphores.find(handle)});
    }
    layer.capture.summary.count("sparse bindings: not followed");
    return made;
}

// TOP_OF_PIPE as a source is NONE, BOTTOM_OF_PIPE as one is all that came before.
VkPipelineStageFlags2 signal_stages(VkPipelineStageFlags2 stages) {
    if (stages & VK_PIPELINE_STAGE_2_BOTTOM_OF_PIPE_BIT) return VK_PIPELINE_STAGE_2_ALL_COMMANDS_BIT;
    return stages & ~VK_PIPELINE_STAGE_2_TOP_OF_PIPE_BIT;
}

void add_wait(Batch &batch, const SemaphoreUse &wait) {
    if (!wait.semaphore) return;
    Semaphore &semaphore = *wait.semaphore;
    if (!semaphore.timeline) {
        for (const Point &point : semaphore.last) batch.waits.push_back({point, wait.stages});
        semaphore.last.clear();
    } else if (wait.value > semaphore.before) {
        batch.waits.push_back({std::pair(wait.semaphore, wait.value), wait.stages});
    }
}

// The signals of a batch by their stages; the last one is of all commands, for fences and
// whatever waits for the queue.
Point signal_all(Capture &capture, size_t queue, const std::vector<SemaphoreUse> &signals) {
    const VkPipelineStageFlags2 there = stages_of(capture.queues()[queue].family);
    const auto wanted = [&](const SemaphoreUse &signal) { return signal_stages(signal.stages) & there; };
    std::vector<VkPipelineStageFlags2> stages;
    for (const SemaphoreUse &signal : signals) {
        if (signal_stages(signal.stages) & ~there) capture.summary.count(foreign_stages);
        const bool is_new = wanted(signal) != 0 && std::ranges::count(stages, wanted(signal)) == 0;
        if (is_new && wanted(signal) != VK_PIPELINE_STAGE_2_ALL_COMMANDS_BIT) stages.push_back(wanted(signal));
    }
    stages.push_back(VK_PIPELINE_STAGE_2_ALL_COMMANDS_BIT);
    Point last;
    for (size_t place = 0; place < stages.size(); ++place) {
        if (place > 0) capture.open_batch(queue);
        last = capture.close_batch(queue, stages[place]);
        for (const SemaphoreUse &signal : signals) {
            if (wanted(signal) == stages[place]) set_signal(signal, {last});
        }
    }
    return last;
}

Point capture_submission(Device &layer, size_t queue, const Submission &submission) {
    Batch &batch = layer.capture.open_batch(queue);
    for (const SemaphoreUse &wait : submission.waits) add_wait(batch, wait);
    Flattener flattener(layer.capture, batch.items);
    for (const auto &buffer : submission.buffers) {
        if (!buffer) continue;
        flattener.add(*buffer->recording);
        apply_layouts(*buffer->recording);
    }
    flattener.finish();
    return signal_all(layer.capture, queue, submission.signals);
}

// Before the file only the state that it begins with is kept.
void follow_submission(const Submission &submission) {
    for (const SemaphoreUse &wait : submission.waits) {
        if (wait.semaphore) wait.semaphore->last.clear();
    }
    for (const auto &buffer : submission.buffers) {
        if (buffer) apply_layouts(*buffer->recording);
    }
    for (const SemaphoreUse &signal : submission.signals) set_signal(signal, {});
}

void submit(Device &layer, VkQueue handle, const std::vector<Submission> &submissions, VkFence fence) {
    if (layer.capture.starts_at_once()) layer.capture.start();
    Points last;
    if (!layer.capture.running()) {
        for (const Submission &submission : submissions) follow_submission(submission);
    } else {
        const size_t queue = device_queue(layer, handle);
        for (const Submission &submission : submissions) last = {capture_submission(layer, queue, submission)};
        if (submissions.empty() && fence != VK_NULL_HANDLE) last = {capture_submission(layer, queue, {})};
    }
    if (const auto signalled = layer.objects.fences.find(fence)) signalled->points = last;
}

// Counts what has been handed over, and starts or ends the capture there. What the program did
// before is done when it starts, since the device is waited for. Nobody else submits meanwhile.
void count_one(Device &layer, Settings::Unit unit) {
    bool starts = false;
    with_state(layer, [&] {
        starts = layer.capture.starts_behind(unit);
        if (layer.capture.complete()) layer.capture.finish();
    });
    if (!starts) return;
    layer.next.DeviceWaitIdle(layer.handle);
    with_state(layer, [&] { layer.capture.start(); });
}

template <class Info> std::vector<Submission> submissions_of(Device &layer, std::span<const Info> infos) {
    std::vector<Submission> submissions;
    for (const Info &info : infos) submissions.push_back(submission_of(layer, info));
    return submissions;
}

template <class Info, class Next>
VkResult submit_and_call(Device &layer, Next next, VkQueue queue, uint32_t infoCount, const Info *infos, VkFence fence) {
    if (!layer.capture.recording()) return next(queue, infoCount, infos, fence);
    const std::lock_guard order(layer.submitting);
    with_state(layer, [&] { submit(layer, queue, submissions_of(layer, std::span(infos, infoCount)), fence); });
    const VkResult result = next(queue, infoCount, infos, fence);
    count_one(layer, Settings::Unit::submissions);
    return result;
}

// The presentation engine reads an image for the family of the queue that presents it: that one has to own it.
size_t presentation_queue(Device &layer, const Swapchain &swapchain, const Ref<Image> &image) {
    const std::string name = "swapchain image " + std::to_string(image->swapchain_index);
    const VkQueueFlags family = swapchain.family != 0 ? swapchain.family : layer.capture.families.at(0);
    return layer.capture.queue_of(key_of(image.get()), FileQueue::Kind::presentation, name, family);
}

void add_presentation_read(Capture &capture, Batch &batch, const Ref<Image> &image) {
    if (!capture.has_seen(*image) && image->layouts.front() == VK_IMAGE_LAYOUT_UNDEFINED) {
        std::ranges::fill(image->layouts, VK_IMAGE_LAYOUT_PRESENT_SRC_KHR);
    }
    capture.see(image);
    ActionItem action{"present", {Touch{whole_image(image), Role::present, 0, VK_IMAGE_LAYOUT_PRESENT_SRC_KHR, false, nullptr}}};
    batch.items.push_back(std::move(action));
}

void present(Device &layer, VkQueue handle, const VkPresentInfoKHR &info) {
    std::vector<Points> waited;
    for (const VkSemaphore handle : std::span(info.pWaitSemaphores, info.waitSemaphoreCount)) {
        const auto semaphore = layer.objects.semaphores.find(handle);
        if (!semaphore) continue;
        waited.push_back(semaphore->last);
        semaphore->last.clear();
    }
    for (uint32_t place = 0; place < info.swapchainCount; ++place) {
        const auto swapchain = layer.objects.swapchains.find(info.pSwapchains[place]);
        if (!swapchain) continue;
        swapchain->family = family_of(layer, handle);
        if (!layer.capture.running() || info.pImageIndices[place] >= swapchain->images.size()) continue;
        const auto &image = swapchain->images[info.pImageIndices[place]];
        const size_t queue = presentation_queue(layer, *swapchain, image);
        Batch &batch = layer.capture.open_batch(queue);
        for (const Points &points : waited) {
            for (const Point &point : points) batch.waits.push_back({point});
        }
        add_presentation_read(layer.capture, batch, image);
        layer.capture.close_batch(queue, VK_PIPELINE_STAGE_2_ALL_COMMANDS_BIT);
    }
}

void acquire(Device &layer, VkResult result, VkSwapchainKHR handle, VkSemaphore semaphore_handle, VkFence fence_handle, uint32_t index) {
    if (result != VK_SUCCESS && result != VK_SUBOPTIMAL_KHR) return;
    if (layer.capture.starts_at_once()) layer.capture.start();
    const auto swapchain = layer.objects.swapchains.find(handle);
    Points points;
    if (layer.capture.running() && swapchain && index < swapchain->images.size()) {
        const auto &image = swapchain->images[index];
        const size_t queue = presentation_queue(layer, *swapchain, image);
        if (!layer.capture.has_seen(*image)) {
            add_presentation_read(layer.capture, layer.capture.open_batch(queue), image);
            layer.capture.close_batch(queue, VK_PIPELINE_STAGE_2_ALL_COMMANDS_BIT);
        }
        layer.capture.open_batch(queue);
        points = {layer.capture.close_batch(queue, VK_PIPELINE_STAGE_2_ALL_COMMANDS_BIT)};
    }
    if (const auto semaphore = layer.objects.semaphores.find(semaphore_handle)) semaphore->last = points;
    if (const auto fence = layer.objects.fences.find(fence_handle)) fence->points = points;
}

}  // namespace

namespace hook {

void GetDeviceQueue(Device &layer, VkDevice, uint32_t queueFamilyIndex, uint32_t, VkQueue *pQueue) {
    if (layer.objects.queues.find(*pQueue)) return;
    auto queue = std::make_shared<Queue>();
    queue->family = queueFamilyIndex;
    layer.objects.queues.add(*pQueue, queue);
}

void GetDeviceQueue2(Device &layer, VkDevice device, const VkDeviceQueueInfo2 *pQueueInfo, VkQueue *pQueue) {
    if (*pQueue != VK_NULL_HANDLE) GetDeviceQueue(layer, device, pQueueInfo->queueFamilyIndex, pQueueInfo->queueIndex, pQueue);
}

VkResult QueueSubmit(Device &layer, PFN_vkQueueSubmit next, VkQueue queue, uint32_t submitCount, const VkSubmitInfo *pSubmits, VkFence fence) {
    return submit_and_call(layer, next, queue, submitCount, pSubmits, fence);
}

VkResult QueueSubmit2(Device &layer, PFN_vkQueueSubmit2 next, VkQueue queue, uint32_t submitCount, const VkSubmitInfo2 *pSubmits,
                      VkFence fence) {
    return submit_and_call(layer, next, queue, submitCount, pSubmits, fence);
}

VkResult QueueBindSparse(Device &layer, PFN_vkQueueBindSparse next, VkQueue queue, uint32_t bindInfoCount,
                         const VkBindSparseInfo *pBindInfo, VkFence fence) {
    return submit_and_call(layer, next, queue, bindInfoCount, pBindInfo, fence);
}

VkResult QueuePresentKHR(Device &layer, PFN_vkQueuePresentKHR next, VkQueue queue, const VkPresentInfoKHR *pPresentInfo) {
    if (!layer.capture.recording()) return next(queue, pPresentInfo);
    const std::lock_guard order(layer.submitting);
    with_state(layer, [&] { present(layer, queue, *pPresentInfo); });
    const VkResult result = next(queue, pPresentInfo);
    count_one(layer, Settings::Unit::frames);
    return result;
}

void AcquireNextImageKHR(Device &layer, VkResult result, VkDevice, VkSwapchainKHR swapchain, uint64_t, VkSemaphore semaphore, VkFence fence,
                         uint32_t *pImageIndex) {
    acquire(layer, result, swapchain, semaphore, fence, *pImageIndex);
}

void AcquireNextImage2KHR(Device &layer, VkResult result, VkDevice, const VkAcquireNextImageInfoKHR *info, uint32_t *pImageIndex) {
    acquire(layer, result, info->swapchain, info->semaphore, info->fence, *pImageIndex);
}

}  // namespace hook
