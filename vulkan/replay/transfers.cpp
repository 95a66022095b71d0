#include "operations.hpp"

#include <array>

namespace replay {

namespace {

constexpr VkImageLayout from_layout = VK_IMAGE_LAYOUT_TRANSFER_SRC_OPTIMAL;
constexpr VkImageLayout to_layout = VK_IMAGE_LAYOUT_TRANSFER_DST_OPTIMAL;
constexpr VkImageSubresourceLayers color_layer{VK_IMAGE_ASPECT_COLOR_BIT, 0, 0, 1};

VkBufferImageCopy whole_image(const ImageResource &image, VkDeviceSize offset) {
    return {offset, 0, 0, color_layer, {0, 0, 0}, {image.kind.extent.width, image.kind.extent.height, 1}};
}

VkOffset3D corner(uint32_t x, uint32_t y) { return {static_cast<int32_t>(x), static_cast<int32_t>(y), 0}; }

// The end of a part of a buffer; devices may do anything past the end of the whole.
void inside(const BufferResource &buffer, uint64_t offset, uint64_t size) {
    if (offset + size > buffer.size)
        throw Ended(Ending::refused, "a command goes past the end of a buffer");
}

void inside(const ImageResource &image, uint64_t x, uint64_t y, uint64_t width, uint64_t height) {
    if (x + width > image.kind.extent.width || y + height > image.kind.extent.height)
        throw Ended(Ending::refused, "a command goes past the edge of an image");
}

uint64_t bytes_of(const ImageResource &image) {
    const uint64_t texels = uint64_t{image.kind.extent.width} * image.kind.extent.height;
    return image.kind.format == VK_FORMAT_R8_UINT ? texels : 4 * texels;
}

} // namespace

void record(Context &context, VkCommandBuffer commands, const FillBuffer &fill) {
    const BufferResource &buffer = context.resources.buffer(fill.destination);
    inside(buffer, fill.offset, fill.size);
    vkCmdFillBuffer(commands, buffer.buffer.get(), fill.offset, fill.size, fill.word);
}

void record(Context &context, VkCommandBuffer commands, const ClearImage &clear) {
    VkClearColorValue value{};
    const ImageResource &image = context.resources.image(clear.destination);
    value.uint32[0] = image.kind.format == VK_FORMAT_R8_UINT ? clear.value & 0xFF : clear.value;
    const VkImageSubresourceRange range{VK_IMAGE_ASPECT_COLOR_BIT, 0, 1, 0, 1};
    vkCmdClearColorImage(commands, image.image.get(), to_layout, &value, 1, &range);
}

void record(Context &context, VkCommandBuffer commands, const CopyBuffer &copy) {
    const BufferResource &source = context.resources.buffer(copy.source);
    const BufferResource &destination = context.resources.buffer(copy.destination);
    inside(source, copy.source_offset, copy.size);
    inside(destination, copy.destination_offset, copy.size);
    const VkBufferCopy region{copy.source_offset, copy.destination_offset, copy.size};
    vkCmdCopyBuffer(commands, source.buffer.get(), destination.buffer.get(), 1, &region);
}

void record(Context &context, VkCommandBuffer commands, const CopyImage &copy) {
    const ImageResource &source = context.resources.image(copy.source);
    const ImageResource &destination = context.resources.image(copy.destination);
    inside(source, copy.source_x, copy.source_y, copy.width, copy.height);
    inside(destination, copy.destination_x, copy.destination_y, copy.width, copy.height);
    const VkImageCopy region{color_layer, corner(copy.source_x, copy.source_y), color_layer,
                             corner(copy.destination_x, copy.destination_y), {copy.width, copy.height, 1}};
    vkCmdCopyImage(commands, source.image.get(), from_layout, destination.image.get(), to_layout, 1, &region);
}

void record(Context &context, VkCommandBuffer commands, const BufferToImage &copy) {
    const BufferResource &source = context.resources.buffer(copy.source);
    const ImageResource &destination = context.resources.image(copy.destination);
    inside(source, copy.offset, bytes_of(destination));
    const VkBufferImageCopy region = whole_image(destination, copy.offset);
    vkCmdCopyBufferToImage(commands, source.buffer.get(), destination.image.get(), to_layout, 1, &region);
}

void record(Context &context, VkCommandBuffer commands, const ImageToBuffer &copy) {
    const ImageResource &source = context.resources.image(copy.source);
    const BufferResource &destination = context.resources.buffer(copy.destination);
    inside(destination, copy.offset, bytes_of(source));
    const VkBufferImageCopy region = whole_image(source, copy.offset);
    vkCmdCopyImageToBuffer(commands, source.image.get(), from_layout, destination.buffer.get(), 1, &region);
}

} // namespace replay
