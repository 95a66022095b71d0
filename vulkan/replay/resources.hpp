// The pieces of a program on the device: buffers and images, bound to memories.
#pragma once

#include "device.hpp"
#include "formats.hpp"
#include "places.hpp"

#include <functional>
#include <string>
#include <vector>

namespace replay {

struct BufferResource {
    OwnedBuffer buffer;
    OwnedBufferView view; // as a buffer of texels
    VkDeviceSize size = 0;
};

struct ImageResource {
    OwnedImage image;
    OwnedImageView view;
    ImageKind kind;
};

OwnedBuffer make_buffer(const Device &device, VkDeviceSize size, bool concurrent);
OwnedImage make_image(const Device &device, const ImageKind &kind, bool concurrent);
OwnedImageView make_view(const Device &device, VkImage image, const ImageKind &kind);
// The least memory type that is among `types` and has the properties.
std::optional<uint32_t> memory_type(const Device &device, uint32_t types, VkMemoryPropertyFlags properties);
OwnedMemory allocate(const Device &device, VkDeviceSize size, uint32_t type);

class Resources {
  public:
    // Notes tell what is not as in the file.
    using Note = std::function<void(const std::string &)>;

    Resources(const Device &device, const Program &program, const Note &note, const Note &describe);

    bool is_image(PieceNumber piece) const { return program.pieces.at(piece).is_image(); }
    const BufferResource &buffer(PieceNumber piece) const;
    const ImageResource &image(PieceNumber piece) const;
    std::vector<uint8_t> bytes_of(PieceNumber piece) const;

  private:
    void make(PieceNumber piece, const ImageKind &kind);
    VkMemoryRequirements requirements(PieceNumber piece) const;
    void bind_memory(uint32_t memory, const std::vector<PieceNumber> &pieces, const Note &note, const Note &describe);
    void bind_together(uint32_t memory, const std::vector<PieceNumber> &pieces, const std::vector<uint64_t> &starts, const Note &note);
    void bind(PieceNumber piece, VkDeviceMemory memory, uint8_t *mapped, uint64_t start);
    void open(PieceNumber piece);

    const Device &device;
    const Program &program;
    std::vector<OwnedMemory> memories;
    std::vector<BufferResource> buffers;
    std::vector<ImageResource> images;
    std::vector<uint8_t *> mapped; // where the host sees each piece
};

} // namespace replay
