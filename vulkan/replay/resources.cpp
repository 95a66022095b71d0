#include "resources.hpp"

#include <algorithm>
#include <cstring>

namespace replay {

namespace {

constexpr VkBufferUsageFlags all_uses = VK_BUFFER_USAGE_TRANSFER_SRC_BIT | VK_BUFFER_USAGE_TRANSFER_DST_BIT |
                                        VK_BUFFER_USAGE_UNIFORM_TEXEL_BUFFER_BIT | VK_BUFFER_USAGE_UNIFORM_BUFFER_BIT |
                                        VK_BUFFER_USAGE_STORAGE_BUFFER_BIT | VK_BUFFER_USAGE_INDEX_BUFFER_BIT |
                                        VK_BUFFER_USAGE_VERTEX_BUFFER_BIT | VK_BUFFER_USAGE_INDIRECT_BUFFER_BIT;
constexpr VkMemoryPropertyFlags host_memory = VK_MEMORY_PROPERTY_HOST_VISIBLE_BIT | VK_MEMORY_PROPERTY_HOST_COHERENT_BIT;

// A resource that is shared has to name more than one family.
template <typename Info> void share(Info &info, const Device &device, bool concurrent) {
    if (!concurrent || device.used_families().size() < 2)
        return;
    info.sharingMode = VK_SHARING_MODE_CONCURRENT;
    info.queueFamilyIndexCount = static_cast<uint32_t>(device.used_families().size());
    info.pQueueFamilyIndices = device.used_families().data();
}

} // namespace

OwnedBuffer make_buffer(const Device &device, VkDeviceSize size, bool concurrent) {
    auto info = blank<VkBufferCreateInfo>(VK_STRUCTURE_TYPE_BUFFER_CREATE_INFO);
    info.size = size;
    info.usage = all_uses;
    share(info, device, concurrent);
    return made<OwnedBuffer>(device.get(), vkCreateBuffer, info, "vkCreateBuffer");
}

OwnedImage make_image(const Device &device, const ImageKind &kind, bool concurrent) {
    auto info = blank<VkImageCreateInfo>(VK_STRUCTURE_TYPE_IMAGE_CREATE_INFO);
    info.imageType = VK_IMAGE_TYPE_2D;
    info.format = kind.format;
    info.extent = {kind.extent.width, kind.extent.height, 1};
    info.mipLevels = info.arrayLayers = 1;
    info.samples = kind.samples;
    info.usage = kind.usage;
    share(info, device, concurrent);
    VkImageFormatProperties properties{};
    const VkResult taken = vkGetPhysicalDeviceImageFormatProperties(device.physical(), info.format, info.imageType, info.tiling, info.usage,
                                                                    info.flags, &properties);
    if (taken == VK_ERROR_FORMAT_NOT_SUPPORTED || (taken == VK_SUCCESS && (properties.sampleCounts & info.samples) == 0))
        throw Ended(Ending::not_together, "the device has no image of format " + std::to_string(info.format) + " with usage " +
                                              std::to_string(info.usage) + " and " + std::to_string(info.samples) + " samples");
    succeed(taken, "vkGetPhysicalDeviceImageFormatProperties");
    return made<OwnedImage>(device.get(), vkCreateImage, info, "vkCreateImage");
}

OwnedImageView make_view(const Device &device, VkImage image, const ImageKind &kind) {
    constexpr VkImageUsageFlags viewed = VK_IMAGE_USAGE_SAMPLED_BIT | VK_IMAGE_USAGE_STORAGE_BIT | VK_IMAGE_USAGE_COLOR_ATTACHMENT_BIT |
                                         VK_IMAGE_USAGE_DEPTH_STENCIL_ATTACHMENT_BIT | VK_IMAGE_USAGE_INPUT_ATTACHMENT_BIT;
    if ((kind.usage & viewed) == 0)
        return {};
    auto info = blank<VkImageViewCreateInfo>(VK_STRUCTURE_TYPE_IMAGE_VIEW_CREATE_INFO);
    info.image = image;
    info.viewType = VK_IMAGE_VIEW_TYPE_2D;
    info.format = kind.format;
    info.subresourceRange = {kind.aspect(), 0, 1, 0, 1};
    return made<OwnedImageView>(device.get(), vkCreateImageView, info, "vkCreateImageView");
}

std::optional<uint32_t> memory_type(const Device &device, uint32_t types, VkMemoryPropertyFlags properties) {
    const auto &memories = device.memories();
    for (uint32_t type = 0; type < memories.memoryTypeCount; ++type)
        if ((types >> type & 1) != 0 && (memories.memoryTypes[type].propertyFlags & properties) == properties)
            return type;
    return std::nullopt;
}

OwnedMemory allocate(const Device &device, VkDeviceSize size, uint32_t type) {
    auto info = blank<VkMemoryAllocateInfo>(VK_STRUCTURE_TYPE_MEMORY_ALLOCATE_INFO);
    info.allocationSize = size;
    info.memoryTypeIndex = type;
    return made<OwnedMemory>(device.get(), vkAllocateMemory, info, "vkAllocateMemory");
}

Resources::Resources(const Device &device, const Program &program, const Note &note, const Note &describe)
    : device(device), program(program), buffers(program.pieces.size()), images(program.pieces.size()), mapped(program.pieces.size()) {
    const auto kinds = kinds_of_images(program);
    std::vector<std::vector<PieceNumber>> by_memory(program.memories.size());
    for (PieceNumber piece = 0; piece < program.pieces.size(); ++piece) {
        make(piece, kinds[piece]);
        by_memory[program.pieces[piece].memory].push_back(piece);
    }
    for (uint32_t memory = 0; memory < by_memory.size(); ++memory)
        if (!by_memory[memory].empty())
            bind_memory(memory, by_memory[memory], note, describe);
    for (PieceNumber piece = 0; piece < program.pieces.size(); ++piece)
        open(piece);
}

const BufferResource &Resources::buffer(PieceNumber piece) const {
    if (is_image(piece))
        throw Ended(Ending::refused, "piece " + std::to_string(piece) + " is an image where a buffer is wanted");
    return buffers.at(piece);
}

const ImageResource &Resources::image(PieceNumber piece) const {
    if (!is_image(piece))
        throw Ended(Ending::refused, "piece " + std::to_string(piece) + " is a buffer where an image is wanted");
    return images.at(piece);
}

std::vector<uint8_t> Resources::bytes_of(PieceNumber piece) const {
    const uint8_t *front = mapped.at(piece);
    if (front == nullptr)
        throw Ended(Ending::refused, "the host does not see the memory of piece " + std::to_string(piece));
    return {front, front + program.pieces[piece].bytes};
}

void Resources::make(PieceNumber piece, const ImageKind &kind) {
    const Piece &told = program.pieces[piece];
    if (told.is_image()) {
        images[piece].kind = kind;
        images[piece].image = make_image(device, kind, told.concurrent);
    } else {
        buffers[piece].size = told.bytes;
        buffers[piece].buffer = make_buffer(device, told.bytes, told.concurrent);
    }
}

VkMemoryRequirements Resources::requirements(PieceNumber piece) const {
    VkMemoryRequirements wanted{};
    if (is_image(piece)) {
        vkGetImageMemoryRequirements(device.get(), images[piece].image.get(), &wanted);
    } else {
        vkGetBufferMemoryRequirements(device.get(), buffers[piece].buffer.get(), &wanted);
    }
    return wanted;
}

void Resources::bind_memory(uint32_t memory, const std::vector<PieceNumber> &pieces, const Note &note, const Note &describe) {
    const bool mixed = std::any_of(pieces.begin(), pieces.end(), [&](PieceNumber piece) { return is_image(piece); });
    std::vector<Wanted> wanted;
    for (const PieceNumber piece : pieces) {
        const Piece &told = program.pieces[piece];
        const auto needs = requirements(piece);
        const uint64_t apart = mixed ? device.limits().bufferImageGranularity : 1;
        wanted.push_back({told.offset, told.end(), needs.size, std::max(needs.alignment, apart)});
    }
    const Places places = places_of(wanted);
    if (places.placing == Placing::separate) {
        note("memory " + std::to_string(memory) + ": the device wants more bytes than the file has; each piece has a memory of its own, " +
             "so what overlaps is lost");
        for (const PieceNumber piece : pieces)
            bind_together(memory, {piece}, {0}, note);
    } else {
        if (places.placing == Placing::spread)
            note("memory " + std::to_string(memory) + ": the device wants more bytes than the file has; " +
                 "pieces are spread, and the same ones overlap");
        bind_together(memory, pieces, places.starts, note);
    }
    for (size_t k = 0; k < pieces.size(); ++k)
        describe("piece " + std::to_string(pieces[k]) + ": memory " + std::to_string(memory) + ", " + std::to_string(wanted[k].size) +
                 " bytes at " + std::to_string(places.starts[k]));
}

void Resources::bind_together(uint32_t memory, const std::vector<PieceNumber> &pieces, const std::vector<uint64_t> &starts,
                              const Note &note) {
    uint32_t types = ~uint32_t{0};
    uint64_t end = 0;
    for (size_t k = 0; k < pieces.size(); ++k) {
        const auto needs = requirements(pieces[k]);
        types &= needs.memoryTypeBits;
        end = std::max(end, starts[k] + needs.size);
    }
    const auto visible = memory_type(device, types, host_memory);
    const auto type = visible ? visible : memory_type(device, types, 0);
    if (!type)
        throw Ended(Ending::refused, "memory " + std::to_string(memory) + ": the device has no type of memory for all of its pieces");
    memories.push_back(allocate(device, end, *type));
    const VkDeviceMemory made = memories.back().get();
    void *front = nullptr;
    if (visible) {
        succeed(vkMapMemory(device.get(), made, 0, VK_WHOLE_SIZE, 0, &front), "vkMapMemory");
        std::memset(front, 0, end);
    } else {
        note("memory " + std::to_string(memory) + ": the host does not see it, so it does not begin as zeros");
    }
    for (size_t k = 0; k < pieces.size(); ++k)
        bind(pieces[k], made, static_cast<uint8_t *>(front), starts[k]);
}

void Resources::bind(PieceNumber piece, VkDeviceMemory memory, uint8_t *front, uint64_t start) {
    mapped[piece] = front == nullptr ? nullptr : front + start;
    if (is_image(piece)) {
        ImageResource &image = images[piece];
        succeed(vkBindImageMemory(device.get(), image.image.get(), memory, start), "vkBindImageMemory");
        image.view = make_view(device, image.image.get(), image.kind);
        return;
    }
    BufferResource &buffer = buffers[piece];
    succeed(vkBindBufferMemory(device.get(), buffer.buffer.get(), memory, start), "vkBindBufferMemory");
    auto info = blank<VkBufferViewCreateInfo>(VK_STRUCTURE_TYPE_BUFFER_VIEW_CREATE_INFO);
    info.buffer = buffer.buffer.get();
    info.format = VK_FORMAT_R8_UINT;
    info.range = std::min<VkDeviceSize>(buffer.size, device.limits().maxTexelBufferElements);
    buffer.view = made<OwnedBufferView>(device.get(), vkCreateBufferView, info, "vkCreateBufferView");
}

// The import's bytes; of all other memory the file says nothing, and it begins as zeros.
void Resources::open(PieceNumber piece) {
    const Piece &told = program.pieces[piece];
    const auto &opening = program.memories[told.memory].opening;
    if (told.is_image() || opening.empty())
        return;
    if (mapped[piece] == nullptr)
        throw Ended(Ending::refused, "the host does not see memory " + std::to_string(told.memory) + ", into which it has to write");
    std::memcpy(mapped[piece], opening.data() + told.offset, told.bytes);
}

} // namespace replay
