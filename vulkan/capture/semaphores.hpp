#pragma once
#include "device.hpp"

// A wait or a signal of a submission.
struct SemaphoreUse {
    Ref<Semaphore> semaphore;
    uint64_t value = 0;
    VkPipelineStageFlags2 stages = VK_PIPELINE_STAGE_2_ALL_COMMANDS_BIT;
};

// Notes what signals a semaphore. No points: what was before the file.
void set_signal(const SemaphoreUse &signal, const Points &points);

// What the family of a queue can do.
VkQueueFlags family_of(Device &layer, VkQueue handle);

// The queue of the file that a queue of the device is.
size_t device_queue(Device &layer, VkQueue handle);
