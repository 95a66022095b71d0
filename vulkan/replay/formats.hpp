// What kind of image a piece is on the device, by what the file's commands want of it.
#pragma once

#include "program.hpp"

#include <vector>

namespace replay {

enum class Channel { unsigned_integer, floating };

struct ImageKind {
    VkFormat format = VK_FORMAT_UNDEFINED;
    VkExtent2D extent{};
    VkSampleCountFlagBits samples = VK_SAMPLE_COUNT_1_BIT;
    VkImageUsageFlags usage = 0;

    bool is_depth() const { return format == VK_FORMAT_D32_SFLOAT; }
    VkImageAspectFlags aspect() const { return is_depth() ? VK_IMAGE_ASPECT_DEPTH_BIT : VK_IMAGE_ASPECT_COLOR_BIT; }
    Channel channel() const;
    // The word for a storage image's format in a shader.
    const char *storage_word() const;
};

// One for each piece; those of buffers are empty. Ends with `not_together` where one image would have to be of two kinds.
std::vector<ImageKind> kinds_of_images(const Program &program);

} // namespace replay
