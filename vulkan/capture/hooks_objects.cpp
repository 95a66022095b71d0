// Memory, buffers, images, views and swapchains.

#include <algorithm>

#include "chain.hpp"
#include "device.hpp"
#include "hooks.hpp"
#include "ranges.hpp"

namespace {

// A disjoint image has requirements for each plane alone.
VkDeviceSize bytes_of(Device &layer, VkImage image, const VkImageCreateInfo &info) {
    if (info.flags & (VK_IMAGE_CREATE_DISJOINT_BIT | VK_IMAGE_CREATE_SPARSE_BINDING_BIT)) return 0;
    VkMemoryRequirements wanted{};
    layer.next.GetImageMemoryRequirements(layer.handle, image, &wanted);
    return wanted.size;
}

// What the host puts into a resource that is bound while frames are captured, at a place where the
// device stored something else, cannot be told from what the device left: so it gets a memory of
// its own.
void keep_apart(Device &layer, Resource &resource) {
    if (!layer.capture.running() || !layer.capture.image_overlaps(resource)) return;
    give_own_memory(resource);
    layer.capture.summary.count("memory that the host may fill where the device stored: a memory of its own");
}

void bind_buffer(Device &layer, VkBuffer handle, VkDeviceMemory memory, VkDeviceSize offset) {
    const auto buffer = layer.objects.buffers.find(handle);
    const auto place = layer.objects.memories.find(memory);
    if (!buffer || !place) return;
    buffer->memory = place;
    buffer->offset = offset;
    keep_apart(layer, *buffer);
}

void bind_image(Device &layer, VkImage handle, VkDeviceMemory memory, VkDeviceSize offset) {
    const auto image = layer.objects.images.find(handle);
    const auto place = layer.objects.memories.find(memory);
    if (!image || !place || image->bytes == 0) return;
    image->memory = place;
    image->offset = offset;
    if (image->layouts.front() == VK_IMAGE_LAYOUT_PREINITIALIZED) keep_apart(layer, *image);
}

Ref<Image> make_swapchain_image(const Swapchain &swapchain) {
    VkImageCreateInfo info{};
    info.format = swapchain.format;
    info.extent = {swapchain.extent.width, swapchain.extent.height, 1};
    info.mipLevels = 1;
    info.arrayLayers = swapchain.layers;
    info.initialLayout = VK_IMAGE_LAYOUT_UNDEFINED;
    auto image = make_image(info);
    image->concurrent = swapchain.concurrent;
    image->bytes = VkDeviceSize{4} * info.extent.width * info.extent.height * info.arrayLayers;
    give_own_memory(*image);
    return image;
}

}  // namespace

namespace hook {

void AllocateMemory(Device &layer, VkResult result, VkDevice, const VkMemoryAllocateInfo *pAllocateInfo,
                    const VkAllocationCallbacks *, VkDeviceMemory *pMemory) {
    if (result != VK_SUCCESS) return;
    auto memory = std::make_shared<Memory>();
    memory->size = pAllocateInfo->allocationSize;
    layer.objects.memories.add(*pMemory, memory);
}

void FreeMemory(Device &layer, VkDevice, VkDeviceMemory memory, const VkAllocationCallbacks *) {
    layer.objects.memories.remove(memory);
}

void CreateBuffer(Device &layer, VkResult result, VkDevice, const VkBufferCreateInfo *pCreateInfo,
                  const VkAllocationCallbacks *, VkBuffer *pBuffer) {
    if (result != VK_SUCCESS) return;
    auto buffer = std::make_shared<Buffer>();
    buffer->length = buffer->bytes = pCreateInfo->size;
    buffer->concurrent = pCreateInfo->sharingMode == VK_SHARING_MODE_CONCURRENT;
    give_own_memory(*buffer);
    if (pCreateInfo->flags & VK_BUFFER_CREATE_SPARSE_BINDING_BIT) layer.capture.summary.count("sparse buffers");
    layer.objects.buffers.add(*pBuffer, buffer);
}

void DestroyBuffer(Device &layer, VkDevice, VkBuffer buffer, const VkAllocationCallbacks *) { layer.objects.buffers.remove(buffer); }

void CreateImage(Device &layer, VkResult result, VkDevice, const VkImageCreateInfo *pCreateInfo, const VkAllocationCallbacks *,
                 VkImage *pImage) {
    if (result != VK_SUCCESS) return;
    auto image = make_image(*pCreateInfo);
    image->bytes = bytes_of(layer, *pImage, *pCreateInfo);
    if (image->bytes == 0) layer.capture.summary.count("disjoint or sparse images: a memory of their own");
    const VkDeviceSize told = image->bytes;
    image->bytes = std::max<VkDeviceSize>(told, image->cells());
    give_own_memory(*image);
    image->bytes = told;
    layer.objects.images.add(*pImage, image);
}

void DestroyImage(Device &layer, VkDevice, VkImage image, const VkAllocationCallbacks *) { layer.objects.images.remove(image); }

void BindBufferMemory(Device &layer, VkResult result, VkDevice, VkBuffer buffer, VkDeviceMemory memory, VkDeviceSize memoryOffset) {
    if (result == VK_SUCCESS) bind_buffer(layer, buffer, memory, memoryOffset);
}

void BindBufferMemory2(Device &layer, VkResult result, VkDevice, uint32_t bindInfoCount, const VkBindBufferMemoryInfo *pBindInfos) {
    for (uint32_t place = 0; result == VK_SUCCESS && place < bindInfoCount; ++place) {
        bind_buffer(layer, pBindInfos[place].buffer, pBindInfos[place].memory, pBindInfos[place].memoryOffset);
    }
}

void BindImageMemory(Device &layer, VkResult result, VkDevice, VkImage image, VkDeviceMemory memory, VkDeviceSize memoryOffset) {
    if (result == VK_SUCCESS) bind_image(layer, image, memory, memoryOffset);
}

void BindImageMemory2(Device &layer, VkResult result, VkDevice, uint32_t bindInfoCount, const VkBindImageMemoryInfo *pBindInfos) {
    for (uint32_t place = 0; result == VK_SUCCESS && place < bindInfoCount; ++place) {
        const VkBindImageMemoryInfo &info = pBindInfos[place];
        const auto *presented = in_chain<VkBindImageMemorySwapchainInfoKHR>(
            info.pNext, VK_STRUCTURE_TYPE_BIND_IMAGE_MEMORY_SWAPCHAIN_INFO_KHR);
        const auto swapchain = presented ? layer.objects.swapchains.find(presented->swapchain) : nullptr;
        if (swapchain && presented->imageIndex < swapchain->images.size()) {
            layer.objects.images.add(info.image, swapchain->images[presented->imageIndex]);
        } else {
            bind_image(layer, info.image, info.memory, info.memoryOffset);
        }
    }
}

void CreateImageView(Device &layer, VkResult result, VkDevice, const VkImageViewCreateInfo *pCreateInfo, const VkAllocationCallbacks *,
                     VkImageView *pView) {
    const auto image = layer.objects.images.find(pCreateInfo->image);
    if (result != VK_SUCCESS || !image) return;
    auto view = std::make_shared<ImageView>();
    view->range = range_of(image, pCreateInfo->subresourceRange);
    view->aspects = pCreateInfo->subresourceRange.aspectMask;
    layer.objects.image_views.add(*pView, view);
}

void DestroyImageView(Device &layer, VkDevice, VkImageView imageView, const VkAllocationCallbacks *) {
    layer.objects.image_views.remove(imageView);
}

void CreateBufferView(Device &layer, VkResult result, VkDevice, const VkBufferViewCreateInfo *pCreateInfo,
                      const VkAllocationCallbacks *, VkBufferView *pView) {
    if (result != VK_SUCCESS) return;
    auto view = std::make_shared<BufferView>();
    view->range = range_of(layer.objects.buffers.find(pCreateInfo->buffer), pCreateInfo->offset, pCreateInfo->range);
    layer.objects.buffer_views.add(*pView, view);
}

void DestroyBufferView(Device &layer, VkDevice, VkBufferView bufferView, const VkAllocationCallbacks *) {
    layer.objects.buffer_views.remove(bufferView);
}

void CreateSwapchainKHR(Device &layer, VkResult result, VkDevice, const VkSwapchainCreateInfoKHR *pCreateInfo,
                        const VkAllocationCallbacks *, VkSwapchainKHR *pSwapchain) {
    if (result != VK_SUCCESS) return;
    auto swapchain = std::make_shared<Swapchain>();
    swapchain->format = pCreateInfo->imageFormat;
    swapchain->extent = pCreateInfo->imageExtent;
    swapchain->layers = pCreateInfo->imageArrayLayers;
    swapchain->concurrent = pCreateInfo->imageSharingMode == VK_SHARING_MODE_CONCURRENT;
    layer.objects.swapchains.add(*pSwapchain, swapchain);
}

void DestroySwapchainKHR(Device &layer, VkDevice, VkSwapchainKHR swapchain, const VkAllocationCallbacks *) {
    layer.objects.swapchains.remove(swapchain);
}

void GetSwapchainImagesKHR(Device &layer, VkResult result, VkDevice, VkSwapchainKHR handle, uint32_t *pSwapchainImageCount,
                           VkImage *pSwapchainImages) {
    const auto swapchain = layer.objects.swapchains.find(handle);
    if ((result != VK_SUCCESS && result != VK_INCOMPLETE) || !swapchain || pSwapchainImages == nullptr) return;
    for (uint32_t place = 0; place < *pSwapchainImageCount; ++place) {
        if (place >= swapchain->images.size()) {
            auto image = make_swapchain_image(*swapchain);
            image->swapchain = swapchain;
            image->swapchain_index = place;
            swapchain->images.push_back(image);
        }
        layer.objects.images.add(pSwapchainImages[place], swapchain->images[place]);
    }
}

void GetBufferDeviceAddress(Device &layer, VkDevice, const VkBufferDeviceAddressInfo *) {
    layer.capture.summary.count("buffer addresses asked for: what is reached through them is not seen");
}

}  // namespace hook
