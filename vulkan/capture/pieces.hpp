#pragma once
#include <set>

#include "capture.hpp"

// A piece of the file: bytes of a memory that are touched alike, or a part of an image.
struct Piece {
    bool image = false;
    const Memory *memory = nullptr;
    VkDeviceSize offset = 0, size = 0;
    bool concurrent = false;
    bool linear = false;
    VkImageLayout layout = VK_IMAGE_LAYOUT_UNDEFINED;
    std::string name;
    bool overlaps = false;
};

// Cuts what the items of a capture touch into pieces. What nobody stores, moves to another layout
// or owner, or overlaps with what is, has no piece.
class Pieces {
  public:
    explicit Pieces(Capture &capture);

    const std::vector<Piece> &all() const { return pieces; }
    std::vector<size_t> of(const BufferRange &range) const;
    std::vector<size_t> of(const ImageRange &range) const;
    std::vector<size_t> of(const std::variant<BufferRange, ImageRange> &range) const;
    bool overlap(size_t one, size_t other) const;

  private:
    struct Interval {
        VkDeviceSize from, to;
    };
    // What is known of the buffers in one memory.
    struct Bytes {
        std::vector<Interval> stored, touched, named;
        std::vector<Interval> kept;
        bool concurrent = false;
        std::map<VkDeviceSize, std::string> names;
        std::map<VkDeviceSize, size_t> starts;
    };
    // How an image is cut: the first mips and layers of its parts.
    struct Cut {
        Ref<Image> image;
        bool stored = false, touched = false, aspects = false;
        std::set<uint32_t> mips, layers;
        bool whole = false;
        size_t first_piece = 0;
        uint32_t aspect_parts = 1;
    };

    void look_at(const Capture &capture);
    void note(const BufferRange &range, bool stores, bool touches);
    void note(const ImageRange &range, bool stores, bool touches);
    void note(const Barrier &barrier);
    bool is_kept(const Cut &cut);
    void keep();
    void join_images(Capture &capture);
    void make_buffers(const Memory *memory, Bytes &bytes);
    void make_image(const Capture &capture, Cut &cut);
    void mark_overlaps();

    std::vector<Piece> pieces;
    std::map<const Memory *, Bytes> memories;
    std::map<const Image *, Cut> cuts;
    std::vector<const Image *> order;
};
