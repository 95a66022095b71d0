#pragma once
#include <vulkan/vulkan.h>

// A block of texels: its bytes, its sides, and by what the sides of the image are divided in
// the plane that it stands for.
struct Block {
    unsigned bytes = 4;
    unsigned width = 1, height = 1, depth = 1;
    unsigned width_divisor = 1, height_divisor = 1;
};

Block block_of(VkFormat format, VkImageAspectFlags aspect);
unsigned planes_of(VkFormat format);
VkImageAspectFlags aspects_of(VkFormat format);
