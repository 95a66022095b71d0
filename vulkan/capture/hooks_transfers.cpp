// Copies, blits, resolves, fills and clears.

#include <algorithm>
#include <span>

#include "formats.hpp"
#include "hooks.hpp"
#include "ranges.hpp"
#include "recorder.hpp"

namespace {

// One transfer call while its regions are gone through.
class TransferCall {
  public:
    TransferCall(Device &layer, const char *call) : layer(layer), transfer{call, {}} {}

    void buffer(VkBuffer handle, VkDeviceSize offset, VkDeviceSize size, Role role) {
        const BufferRange range = range_of(layer.objects.buffers.find(handle), offset, size);
        if (range.buffer && range.size > 0) transfer.touches.push_back({range, role, 0, VK_IMAGE_LAYOUT_UNDEFINED, true, nullptr});
    }

    void image(const ImageRange &range, Role role, VkImageLayout layout, bool whole) {
        if (range.image && range.mips > 0 && range.layers > 0) transfer.touches.push_back({range, role, 0, layout, whole, nullptr});
    }

    Ref<Image> find(VkImage handle) const { return layer.objects.images.find(handle); }

    void record_in(VkCommandBuffer commandBuffer) { record(layer, commandBuffer, std::move(transfer)); }

  private:
    Device &layer;
    Transfer transfer;
};

VkExtent3D mip_extent(const Image &image, uint32_t mip) {
    const auto halved = [&](uint32_t side) { return std::max(side >> mip, 1U); };
    return {halved(image.extent.width), halved(image.extent.height), halved(image.extent.depth)};
}

bool covers(const Ref<Image> &image, uint32_t mip, const VkOffset3D &offset, const VkExtent3D &extent) {
    if (!image || offset.x != 0 || offset.y != 0 || offset.z != 0) return false;
    const VkExtent3D all = mip_extent(*image, mip);
    return extent.width >= all.width && extent.height >= all.height && extent.depth >= all.depth;
}

VkExtent3D extent_between(const VkOffset3D &one, const VkOffset3D &other) {
    const auto length = [](int32_t from, int32_t to) { return static_cast<uint32_t>(std::abs(to - from)); };
    return {length(one.x, other.x), length(one.y, other.y), length(one.z, other.z)};
}

VkOffset3D lower(const VkOffset3D &one, const VkOffset3D &other) {
    return {std::min(one.x, other.x), std::min(one.y, other.y), std::min(one.z, other.z)};
}

uint64_t blocks(uint32_t texels, uint32_t side) { return (texels + side - 1) / side; }

// From the first to the last byte of a buffer that a copy to or from an image touches.
template <class Region> VkDeviceSize bytes_of(const Ref<Image> &image, const Region &region) {
    if (!image) return 0;
    const Block block = block_of(image->format, region.imageSubresource.aspectMask);
    if (block.bytes == 0) return VK_WHOLE_SIZE;
    const VkExtent3D &extent = region.imageExtent;
    const uint64_t row = blocks(region.bufferRowLength != 0 ? region.bufferRowLength : extent.width, block.width);
    const uint64_t rows = blocks(region.bufferImageHeight != 0 ? region.bufferImageHeight : extent.height, block.height);
    const uint64_t slices = std::max<uint64_t>(extent.depth, std::min(region.imageSubresource.layerCount, image->layers));
    const uint64_t last_row = blocks(extent.height, block.height) - 1;
    return (((slices - 1) * rows + last_row) * row + blocks(extent.width, block.width)) * block.bytes;
}

template <class Region>
void copy_buffer(Device &layer, VkCommandBuffer commandBuffer, VkBuffer from, VkBuffer to, std::span<const Region> regions) {
    TransferCall call(layer, "copy of a buffer");
    for (const Region &region : regions) {
        call.buffer(from, region.srcOffset, region.size, Role::copy_read);
        call.buffer(to, region.dstOffset, region.size, Role::copy_write);
    }
    call.record_in(commandBuffer);
}

struct Images {
    VkImage from;
    VkImageLayout from_layout;
    VkImage to;
    VkImageLayout to_layout;
};

template <class Info> Images images_of(const Info &info) {
    return {info.srcImage, info.srcImageLayout, info.dstImage, info.dstImageLayout};
}

// What a command makes of one image in another one.
struct Kind {
    const char *name;
    Role read, write;
};

constexpr Kind image_copy{"copy of an image", Role::copy_read, Role::copy_write};
constexpr Kind image_resolve{"resolve", Role::resolve_read, Role::resolve_write};
constexpr Kind image_blit{"blit", Role::blit_read, Role::blit_write};

// Whether nothing of the old texels of the destination is left behind a copy or resolve of this region, or behind a blit.
template <class Region> bool fills(const Ref<Image> &image, const Region &region) {
    return covers(image, region.dstSubresource.mipLevel, region.dstOffset, region.extent);
}

template <class Region>
    requires requires(Region region) { region.dstOffsets; }
bool fills(const Ref<Image> &image, const Region &region) {
    const VkOffset3D *corners = region.dstOffsets;
    return covers(image, region.dstSubresource.mipLevel, lower(corners[0], corners[1]), extent_between(corners[0], corners[1]));
}

template <class Region>
void image_to_image(Device &layer, VkCommandBuffer commandBuffer, const Kind &kind, const Images &images, std::span<const Region> regions) {
    TransferCall call(layer, kind.name);
    const auto from = call.find(images.from), to = call.find(images.to);
    for (const Region &region : regions) {
        call.image(range_of(from, region.srcSubresource), kind.read, images.from_layout, false);
        call.image(range_of(to, region.dstSubresource), kind.write, images.to_layout, fills(to, region));
    }
    call.record_in(commandBuffer);
}

// A copy between a buffer and an image, one way or the other.
enum class To { image, buffer };

template <class Region>
void buffer_and_image(Device &layer, VkCommandBuffer commandBuffer, To to, VkBuffer buffer, VkImage handle, VkImageLayout layout,
                      std::span<const Region> regions) {
    const bool into = to == To::image;
    TransferCall call(layer, into ? "copy of a buffer to an image" : "copy of an image to a buffer");
    const auto image = call.find(handle);
    for (const Region &region : regions) {
        const bool whole = into && covers(image, region.imageSubresource.mipLevel, region.imageOffset, region.imageExtent);
        call.buffer(buffer, region.bufferOffset, bytes_of(image, region), into ? Role::copy_read : Role::copy_write);
        call.image(range_of(image, region.imageSubresource), into ? Role::copy_write : Role::copy_read, layout, whole);
    }
    call.record_in(commandBuffer);
}

void clear(Device &layer, VkCommandBuffer commandBuffer, VkImage handle, VkImageLayout layout,
           std::span<const VkImageSubresourceRange> ranges) {
    TransferCall call(layer, "clear of an image");
    const auto image = call.find(handle);
    for (const VkImageSubresourceRange &range : ranges) call.image(range_of(image, range), Role::clear_write, layout, true);
    call.record_in(commandBuffer);
}

template <class Region> std::span<const Region> regions_of(const Region *regions, uint32_t count) { return {regions, count}; }

template <class Info> auto regions_of(const Info *info) { return regions_of(info->pRegions, info->regionCount); }

}  // namespace

namespace hook {

void CmdCopyBuffer(Device &layer, VkCommandBuffer commandBuffer, VkBuffer srcBuffer, VkBuffer dstBuffer, uint32_t regionCount,
                   const VkBufferCopy *pRegions) {
    copy_buffer(layer, commandBuffer, srcBuffer, dstBuffer, regions_of(pRegions, regionCount));
}

void CmdCopyBuffer2(Device &layer, VkCommandBuffer commandBuffer, const VkCopyBufferInfo2 *info) {
    copy_buffer(layer, commandBuffer, info->srcBuffer, info->dstBuffer, regions_of(info));
}

void CmdCopyImage(Device &layer, VkCommandBuffer commandBuffer, VkImage srcImage, VkImageLayout srcImageLayout, VkImage dstImage,
                  VkImageLayout dstImageLayout, uint32_t regionCount, const VkImageCopy *pRegions) {
    image_to_image(layer, commandBuffer, image_copy, {srcImage, srcImageLayout, dstImage, dstImageLayout}, regions_of(pRegions, regionCount));
}

void CmdCopyImage2(Device &layer, VkCommandBuffer commandBuffer, const VkCopyImageInfo2 *info) {
    image_to_image(layer, commandBuffer, image_copy, images_of(*info), regions_of(info));
}

void CmdResolveImage(Device &layer, VkCommandBuffer commandBuffer, VkImage srcImage, VkImageLayout srcImageLayout, VkImage dstImage,
                     VkImageLayout dstImageLayout, uint32_t regionCount, const VkImageResolve *pRegions) {
    image_to_image(layer, commandBuffer, image_resolve, {srcImage, srcImageLayout, dstImage, dstImageLayout},
                   regions_of(pRegions, regionCount));
}

void CmdResolveImage2(Device &layer, VkCommandBuffer commandBuffer, const VkResolveImageInfo2 *info) {
    image_to_image(layer, commandBuffer, image_resolve, images_of(*info), regions_of(info));
}

void CmdBlitImage(Device &layer, VkCommandBuffer commandBuffer, VkImage srcImage, VkImageLayout srcImageLayout, VkImage dstImage,
                  VkImageLayout dstImageLayout, uint32_t regionCount, const VkImageBlit *pRegions, VkFilter) {
    image_to_image(layer, commandBuffer, image_blit, {srcImage, srcImageLayout, dstImage, dstImageLayout}, regions_of(pRegions, regionCount));
}

void CmdBlitImage2(Device &layer, VkCommandBuffer commandBuffer, const VkBlitImageInfo2 *info) {
    image_to_image(layer, commandBuffer, image_blit, images_of(*info), regions_of(info));
}

void CmdCopyBufferToImage(Device &layer, VkCommandBuffer commandBuffer, VkBuffer srcBuffer, VkImage dstImage, VkImageLayout dstImageLayout,
                          uint32_t regionCount, const VkBufferImageCopy *pRegions) {
    buffer_and_image(layer, commandBuffer, To::image, srcBuffer, dstImage, dstImageLayout, regions_of(pRegions, regionCount));
}

void CmdCopyBufferToImage2(Device &layer, VkCommandBuffer commandBuffer, const VkCopyBufferToImageInfo2 *info) {
    buffer_and_image(layer, commandBuffer, To::image, info->srcBuffer, info->dstImage, info->dstImageLayout, regions_of(info));
}

void CmdCopyImageToBuffer(Device &layer, VkCommandBuffer commandBuffer, VkImage srcImage, VkImageLayout srcImageLayout, VkBuffer dstBuffer,
                          uint32_t regionCount, const VkBufferImageCopy *pRegions) {
    buffer_and_image(layer, commandBuffer, To::buffer, dstBuffer, srcImage, srcImageLayout, regions_of(pRegions, regionCount));
}

void CmdCopyImageToBuffer2(Device &layer, VkCommandBuffer commandBuffer, const VkCopyImageToBufferInfo2 *info) {
    buffer_and_image(layer, commandBuffer, To::buffer, info->dstBuffer, info->srcImage, info->srcImageLayout, regions_of(info));
}

void CmdFillBuffer(Device &layer, VkCommandBuffer commandBuffer, VkBuffer dstBuffer, VkDeviceSize dstOffset, VkDeviceSize size, uint32_t) {
    TransferCall call(layer, "fill of a buffer");
    call.buffer(dstBuffer, dstOffset, size, Role::clear_write);
    call.record_in(commandBuffer);
}

void CmdUpdateBuffer(Device &layer, VkCommandBuffer commandBuffer, VkBuffer dstBuffer, VkDeviceSize dstOffset, VkDeviceSize dataSize,
                     const void *) {
    TransferCall call(layer, "update of a buffer");
    call.buffer(dstBuffer, dstOffset, dataSize, Role::clear_write);
    call.record_in(commandBuffer);
}

void CmdCopyQueryPoolResults(Device &layer, VkCommandBuffer commandBuffer, VkQueryPool, uint32_t, uint32_t queryCount, VkBuffer dstBuffer,
                             VkDeviceSize dstOffset, VkDeviceSize stride, VkQueryResultFlags) {
    TransferCall call(layer, "copy of query results");
    call.buffer(dstBuffer, dstOffset, std::max<VkDeviceSize>(stride * queryCount, sizeof(uint32_t)), Role::copy_write);
    call.record_in(commandBuffer);
}

void CmdClearColorImage(Device &layer, VkCommandBuffer commandBuffer, VkImage image, VkImageLayout imageLayout, const VkClearColorValue *,
                        uint32_t rangeCount, const VkImageSubresourceRange *pRanges) {
    clear(layer, commandBuffer, image, imageLayout, regions_of(pRanges, rangeCount));
}

void CmdClearDepthStencilImage(Device &layer, VkCommandBuffer commandBuffer, VkImage image, VkImageLayout imageLayout,
                               const VkClearDepthStencilValue *, uint32_t rangeCount, const VkImageSubresourceRange *pRanges) {
    clear(layer, commandBuffer, image, imageLayout, regions_of(pRanges, rangeCount));
}

}  // namespace hook
