#pragma once
#include "device.hpp"

// Helpers of all hooks that record.

inline Ref<CommandBuffer> buffer_of(Device &layer, VkCommandBuffer commandBuffer) {
    return layer.objects.command_buffers.find(commandBuffer);
}

inline void record(CommandBuffer &buffer, Command command) { buffer.recording->commands.push_back(std::move(command)); }

// Records a command where the buffer is known.
inline void record(Device &layer, VkCommandBuffer commandBuffer, Command command) {
    if (const auto buffer = buffer_of(layer, commandBuffer)) record(*buffer, std::move(command));
}
