#include "semaphores.hpp"

#include <algorithm>

void set_signal(const SemaphoreUse &signal, const Points &points) {
    if (!signal.semaphore) return;
    if (!signal.semaphore->timeline) {
        signal.semaphore->last = points;
    } else if (points.empty()) {
        signal.semaphore->before = std::max(signal.semaphore->before, signal.value);
    } else {
        signal.semaphore->signals.emplace_back(signal.value, points);
    }
}

VkQueueFlags family_of(Device &layer, VkQueue handle) {
    const auto queue = layer.objects.queues.find(handle);
    return layer.capture.families.at(queue ? queue->family : 0);
}

size_t device_queue(Device &layer, VkQueue handle) {
    const auto queue = layer.objects.queues.find(handle);
    return layer.capture.queue_of(key_of(handle), FileQueue::Kind::device, queue ? queue->name : "", family_of(layer, handle));
}
