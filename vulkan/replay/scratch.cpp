#include "scratch.hpp"

namespace replay {

void Scratch::keep(const VkMemoryRequirements &needs) {
    memories.push_back(allocate(device, needs.size, memory_type(device, needs.memoryTypeBits, 0).value()));
}

VkBuffer Scratch::buffer(VkDeviceSize size) {
    made_buffers.push_back(make_buffer(device, size, true));
    const VkBuffer buffer = made_buffers.back().get();
    VkMemoryRequirements needs{};
    vkGetBufferMemoryRequirements(device.get(), buffer, &needs);
    keep(needs);
    succeed(vkBindBufferMemory(device.get(), buffer, memories.back().get(), 0), "vkBindBufferMemory");
    return buffer;
}

VkImage Scratch::image(ImageKind kind) {
    ImageResource made;
    made.kind = kind;
    made.image = make_image(device, kind, true);
    const VkImage image = made.image.get();
    VkMemoryRequirements needs{};
    vkGetImageMemoryRequirements(device.get(), image, &needs);
    keep(needs);
    succeed(vkBindImageMemory(device.get(), image, memories.back().get(), 0), "vkBindImageMemory");
    made_images.push_back(std::move(made));
    return image;
}

} // namespace replay
