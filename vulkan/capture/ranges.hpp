#pragma once
#include "objects.hpp"

// From what calls name to ranges of objects.

Ref<Image> make_image(const VkImageCreateInfo &info);
uint32_t aspect_mask(const Image &image, VkImageAspectFlags aspects);
ImageRange whole_image(const Ref<Image> &image);
ImageRange range_of(const Ref<Image> &image, const VkImageSubresourceRange &range);
ImageRange range_of(const Ref<Image> &image, const VkImageSubresourceLayers &layers);
BufferRange range_of(const Ref<Buffer> &buffer, VkDeviceSize offset, VkDeviceSize size);
void give_own_memory(Resource &resource);
