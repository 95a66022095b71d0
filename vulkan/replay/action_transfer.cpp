#include "action_transfer.hpp"

#include <utility>

namespace replay {

namespace {

constexpr VkImageLayout scratch_layout = VK_IMAGE_LAYOUT_GENERAL;
constexpr VkDeviceSize word_bytes = 4;

// One side of a transfer between two images.
struct Side {
    VkImage image;
    VkImageLayout layout;
};

enum class Way { from_piece, to_piece };

// What the other image is: as the piece, or with another number of samples.
ImageKind other_kind(const ImageKind &kind, Role role) {
    ImageKind other = kind;
    other.usage = VK_IMAGE_USAGE_TRANSFER_SRC_BIT | VK_IMAGE_USAGE_TRANSFER_DST_BIT;
    if (role == Role::resolve_read || role == Role::resolve_write)
        other.usage |= VK_IMAGE_USAGE_COLOR_ATTACHMENT_BIT;
    if (role == Role::resolve_read)
        other.samples = VK_SAMPLE_COUNT_1_BIT;
    if (role == Role::resolve_write)
        other.samples = VK_SAMPLE_COUNT_4_BIT;
    return other;
}

void copy_images(VkCommandBuffer commands, const ImageKind &kind, Side from, Side to) {
    const VkImageSubresourceLayers layer{kind.aspect(), 0, 0, 1};
    const VkImageCopy region{layer, {}, layer, {}, {kind.extent.width, kind.extent.height, 1}};
    vkCmdCopyImage(commands, from.image, from.layout, to.image, to.layout, 1, &region);
}

void blit_images(VkCommandBuffer commands, const ImageKind &kind, Side from, Side to) {
    const VkImageSubresourceLayers layer{kind.aspect(), 0, 0, 1};
    const VkOffset3D end{static_cast<int32_t>(kind.extent.width), static_cast<int32_t>(kind.extent.height), 1};
    const VkImageBlit region{layer, {{}, end}, layer, {{}, end}};
    vkCmdBlitImage(commands, from.image, from.layout, to.image, to.layout, 1, &region, VK_FILTER_NEAREST);
}

void resolve_images(VkCommandBuffer commands, const ImageKind &kind, Side from, Side to) {
    const VkImageSubresourceLayers layer{kind.aspect(), 0, 0, 1};
    const VkImageResolve region{layer, {}, layer, {}, {kind.extent.width, kind.extent.height, 1}};
    vkCmdResolveImage(commands, from.image, from.layout, to.image, to.layout, 1, &region);
}

void transfer_image(Context &context, Scratch &scratch, VkCommandBuffer commands, const Use &use, Way way) {
    const ImageResource &image = context.resources.image(use.piece);
    Side from{image.image.get(), use.layout}, to{scratch.image(other_kind(image.kind, use.role)), scratch_layout};
    if (way == Way::to_piece)
        std::swap(from, to);
    if (use.role == Role::blit_read || use.role == Role::blit_write) {
        blit_images(commands, image.kind, from, to);
    } else if (use.role == Role::resolve_read || use.role == Role::resolve_write) {
        resolve_images(commands, image.kind, from, to);
    } else {
        copy_images(commands, image.kind, from, to);
    }
}

void transfer_buffer(Context &context, Scratch &scratch, VkCommandBuffer commands, const Use &use, Way way) {
    const BufferResource &buffer = context.resources.buffer(use.piece);
    VkBuffer from = buffer.buffer.get(), to = scratch.buffer(buffer.size);
    if (way == Way::to_piece)
        std::swap(from, to);
    const VkBufferCopy region{0, 0, buffer.size};
    vkCmdCopyBuffer(commands, from, to, 1, &region);
}

void clear(Context &context, VkCommandBuffer commands, const Use &use) {
    if (!context.resources.is_image(use.piece)) {
        const BufferResource &buffer = context.resources.buffer(use.piece);
        if (buffer.size < word_bytes)
            throw Ended(Ending::not_together, "a fill stores whole words, and the buffer has none");
        vkCmdFillBuffer(commands, buffer.buffer.get(), 0, buffer.size / word_bytes * word_bytes, 0);
        return;
    }
    const ImageResource &image = context.resources.image(use.piece);
    const VkImageSubresourceRange range{image.kind.aspect(), 0, 1, 0, 1};
    if (image.kind.is_depth()) {
        const VkClearDepthStencilValue value{1.0F, 0};
        vkCmdClearDepthStencilImage(commands, image.image.get(), use.layout, &value, 1, &range);
    } else {
        const VkClearColorValue value{};
        vkCmdClearColorImage(commands, image.image.get(), use.layout, &value, 1, &range);
    }
}

} // namespace

void record_transfer(Context &context, Scratch &scratch, VkCommandBuffer commands, const Use &use) {
    if (use.role == Role::clear_write) {
        clear(context, commands, use);
        return;
    }
    const bool writes = use.role == Role::copy_write || use.role == Role::blit_write || use.role == Role::resolve_write;
    const Way way = writes ? Way::to_piece : Way::from_piece;
    if (context.resources.is_image(use.piece)) {
        transfer_image(context, scratch, commands, use, way);
    } else {
        transfer_buffer(context, scratch, commands, use, way);
    }
}

} // namespace replay
