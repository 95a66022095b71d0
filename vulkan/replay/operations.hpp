// The fifteen operations as Vulkan's commands.
#pragma once

#include "context.hpp"

namespace replay {

void record(Context &context, VkCommandBuffer commands, const FillBuffer &fill);
void record(Context &context, VkCommandBuffer commands, const ClearImage &clear);
void record(Context &context, VkCommandBuffer commands, const CopyBuffer &copy);
void record(Context &context, VkCommandBuffer commands, const CopyImage &copy);
void record(Context &context, VkCommandBuffer commands, const BufferToImage &copy);
void record(Context &context, VkCommandBuffer commands, const ImageToBuffer &copy);
void record(Context &context, VkCommandBuffer commands, const Kernel &kernel);
void record(Context &context, VkCommandBuffer commands, const Draw &draw);

} // namespace replay
