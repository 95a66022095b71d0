// Fences and semaphores, and what the host waits for.

#include <span>

#include "chain.hpp"
#include "hooks.hpp"
#include "semaphores.hpp"

namespace {

void host_waited_for(Device &layer, VkFence handle) {
    if (const auto fence = layer.objects.fences.find(handle)) layer.capture.host_knows(fence->points);
}

// All signals of a timeline up to a value that the host has seen.
void host_saw(Capture &capture, const Ref<Semaphore> &semaphore, uint64_t value) {
    if (!semaphore) return;
    for (const auto &[reached, points] : semaphore->signals) {
        if (reached <= value) capture.host_knows(points);
    }
    if (const Points *points = semaphore->reaching(value); points != nullptr && value > semaphore->before) capture.host_knows(*points);
}

uint64_t value_of(Device &layer, VkSemaphore semaphore) {
    uint64_t value = 0;
    const auto ask = layer.next.GetSemaphoreCounterValue != nullptr ? layer.next.GetSemaphoreCounterValue
                                                                    : layer.next.GetSemaphoreCounterValueKHR;
    if (ask != nullptr) ask(layer.handle, semaphore, &value);
    return value;
}

}  // namespace

namespace hook {

void CreateFence(Device &layer, VkResult result, VkDevice, const VkFenceCreateInfo *, const VkAllocationCallbacks *, VkFence *pFence) {
    if (result == VK_SUCCESS) layer.objects.fences.add(*pFence, std::make_shared<Fence>());
}

void DestroyFence(Device &layer, VkDevice, VkFence fence, const VkAllocationCallbacks *) { layer.objects.fences.remove(fence); }

void ResetFences(Device &layer, VkDevice, uint32_t fenceCount, const VkFence *pFences) {
    for (const VkFence handle : std::span(pFences, fenceCount)) {
        if (const auto fence = layer.objects.fences.find(handle)) fence->points.clear();
    }
}

void WaitForFences(Device &layer, VkResult result, VkDevice device, uint32_t fenceCount, const VkFence *pFences, VkBool32 waitAll, uint64_t) {
    if (result != VK_SUCCESS || !layer.capture.running()) return;
    for (const VkFence fence : std::span(pFences, fenceCount)) {
        const bool known = waitAll || fenceCount == 1 || layer.next.GetFenceStatus(device, fence) == VK_SUCCESS;
        if (known) host_waited_for(layer, fence);
    }
}

void GetFenceStatus(Device &layer, VkResult result, VkDevice, VkFence fence) {
    if (result == VK_SUCCESS && layer.capture.running()) host_waited_for(layer, fence);
}

void CreateSemaphore(Device &layer, VkResult result, VkDevice, const VkSemaphoreCreateInfo *pCreateInfo, const VkAllocationCallbacks *,
                     VkSemaphore *pSemaphore) {
    if (result != VK_SUCCESS) return;
    auto semaphore = std::make_shared<Semaphore>();
    const auto *type = in_chain<VkSemaphoreTypeCreateInfo>(pCreateInfo->pNext, VK_STRUCTURE_TYPE_SEMAPHORE_TYPE_CREATE_INFO);
    semaphore->timeline = type != nullptr && type->semaphoreType == VK_SEMAPHORE_TYPE_TIMELINE;
    semaphore->before = semaphore->timeline ? type->initialValue : 0;
    layer.objects.semaphores.add(*pSemaphore, semaphore);
}

void DestroySemaphore(Device &layer, VkDevice, VkSemaphore semaphore, const VkAllocationCallbacks *) {
    layer.objects.semaphores.remove(semaphore);
}

void WaitSemaphores(Device &layer, VkResult result, VkDevice, const VkSemaphoreWaitInfo *pWaitInfo, uint64_t) {
    if (result != VK_SUCCESS || !layer.capture.running()) return;
    const bool all = pWaitInfo->semaphoreCount == 1 || !(pWaitInfo->flags & VK_SEMAPHORE_WAIT_ANY_BIT);
    for (uint32_t place = 0; place < pWaitInfo->semaphoreCount; ++place) {
        const VkSemaphore handle = pWaitInfo->pSemaphores[place];
        const uint64_t value = pWaitInfo->pValues[place];
        if (all || value_of(layer, handle) >= value) host_saw(layer.capture, layer.objects.semaphores.find(handle), value);
    }
}

void GetSemaphoreCounterValue(Device &layer, VkResult result, VkDevice, VkSemaphore semaphore, uint64_t *pValue) {
    if (result != VK_SUCCESS || !layer.capture.running()) return;
    if (const auto found = layer.objects.semaphores.find(semaphore)) {
        for (const auto &[reached, points] : found->signals) {
            if (reached <= *pValue) layer.capture.host_knows(points);
        }
    }
}

void SignalSemaphore(Device &layer, VkResult result, VkDevice, const VkSemaphoreSignalInfo *pSignalInfo) {
    if (result != VK_SUCCESS) return;
    const auto semaphore = layer.objects.semaphores.find(pSignalInfo->semaphore);
    set_signal({semaphore, pSignalInfo->value}, layer.capture.running() ? layer.capture.known_to_host() : Points{});
}

void QueueWaitIdle(Device &layer, VkResult result, VkQueue queue) {
    if (result != VK_SUCCESS || !layer.capture.running()) return;
    layer.capture.host_knows(layer.capture.all_of(device_queue(layer, queue)));
}

void DeviceWaitIdle(Device &layer, VkResult result, VkDevice) {
    if (result == VK_SUCCESS && layer.capture.running()) layer.capture.host_knows(layer.capture.all_of_device());
}

}  // namespace hook
