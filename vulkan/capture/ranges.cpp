#include "ranges.hpp"

#include <algorithm>

#include "formats.hpp"

namespace {

std::vector<VkImageAspectFlagBits> bits_of(VkImageAspectFlags aspects) {
    std::vector<VkImageAspectFlagBits> bits;
    for (uint32_t bit = 1; bit != 0 && bit <= aspects; bit <<= 1) {
        if (aspects & bit) bits.push_back(static_cast<VkImageAspectFlagBits>(bit));
    }
    return bits;
}

// Reads "the rest" and keeps what is named inside what is there.
uint32_t clipped(uint32_t first, uint32_t count, uint32_t all) {
    if (first >= all) return 0;
    return std::min(count, all - first);
}

}  // namespace

VkImageAspectFlags aspects_of(VkFormat format) {
    switch (format) {
    case VK_FORMAT_D16_UNORM:
    case VK_FORMAT_X8_D24_UNORM_PACK32:
    case VK_FORMAT_D32_SFLOAT: return VK_IMAGE_ASPECT_DEPTH_BIT;
    case VK_FORMAT_S8_UINT: return VK_IMAGE_ASPECT_STENCIL_BIT;
    case VK_FORMAT_D16_UNORM_S8_UINT:
    case VK_FORMAT_D24_UNORM_S8_UINT:
    case VK_FORMAT_D32_SFLOAT_S8_UINT: return VK_IMAGE_ASPECT_DEPTH_BIT | VK_IMAGE_ASPECT_STENCIL_BIT;
    default: break;
    }
    switch (planes_of(format)) {
    case 2: return VK_IMAGE_ASPECT_PLANE_0_BIT | VK_IMAGE_ASPECT_PLANE_1_BIT;
    case 3: return VK_IMAGE_ASPECT_PLANE_0_BIT | VK_IMAGE_ASPECT_PLANE_1_BIT | VK_IMAGE_ASPECT_PLANE_2_BIT;
    default: return VK_IMAGE_ASPECT_COLOR_BIT;
    }
}

Ref<Image> make_image(const VkImageCreateInfo &info) {
    auto image = std::make_shared<Image>();
    image->format = info.format;
    image->extent = info.extent;
    image->mips = info.mipLevels;
    image->layers = info.arrayLayers;
    image->aspects = bits_of(aspects_of(info.format));
    image->linear = info.tiling == VK_IMAGE_TILING_LINEAR;
    image->concurrent = info.sharingMode == VK_SHARING_MODE_CONCURRENT;
    image->layouts.assign(image->cells(), info.initialLayout);
    return image;
}

uint32_t aspect_mask(const Image &image, VkImageAspectFlags aspects) {
    uint32_t mask = 0;
    for (size_t place = 0; place < image.aspects.size(); ++place) {
        // COLOR names all planes of an image.
        const bool named = (aspects & image.aspects[place]) || ((aspects & VK_IMAGE_ASPECT_COLOR_BIT) && image.aspects.size() > 1);
        if (named) mask |= 1U << place;
    }
    return mask;
}

ImageRange whole_image(const Ref<Image> &image) {
    return {image, (1U << image->aspects.size()) - 1, 0, image->mips, 0, image->layers};
}

ImageRange range_of(const Ref<Image> &image, const VkImageSubresourceRange &range) {
    if (!image) return {};
    // Views and copies may name slices of a three-dimensional image as layers; it has one.
    const bool slices = image->extent.depth > 1;
    return {image,
            aspect_mask(*image, range.aspectMask),
            range.baseMipLevel,
            clipped(range.baseMipLevel, range.levelCount, image->mips),
            slices ? 0 : range.baseArrayLayer,
            slices ? 1 : clipped(range.baseArrayLayer, range.layerCount, image->layers)};
}

ImageRange range_of(const Ref<Image> &image, const VkImageSubresourceLayers &layers) {
    return range_of(image, VkImageSubresourceRange{layers.aspectMask, layers.mipLevel, 1, layers.baseArrayLayer, layers.layerCount});
}

BufferRange range_of(const Ref<Buffer> &buffer, VkDeviceSize offset, VkDeviceSize size) {
    if (!buffer || offset >= buffer->length) return {};
    return {buffer, offset, std::min(size, buffer->length - offset)};
}

void give_own_memory(Resource &resource) {
    resource.memory = std::make_shared<Memory>();
    resource.memory->size = std::max<VkDeviceSize>(resource.bytes, 1);
    resource.memory->name = resource.name;
    resource.offset = 0;
}
