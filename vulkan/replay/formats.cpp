#include "formats.hpp"

#include "ending.hpp"

#include <algorithm>

namespace replay {

namespace {

constexpr uint32_t greatest_side = 256;
constexpr uint64_t texture_texel = 4;

// What all commands together want of an image.
struct Wishes {
    VkImageUsageFlags usage = VK_IMAGE_USAGE_TRANSFER_SRC_BIT | VK_IMAGE_USAGE_TRANSFER_DST_BIT;
    bool depth = false;        // an attachment for depth
    bool depth_layout = false; // a layout that says so
    bool color = false;        // a format of colours
    bool samples = false;      // several samples
    bool one_sample = false;
    bool resolved = false;  // written by a resolve
    bool operated = false;  // an operation computes with its texels as whole numbers
};

bool is_depth_layout(VkImageLayout layout) {
    return layout == VK_IMAGE_LAYOUT_DEPTH_STENCIL_ATTACHMENT_OPTIMAL || layout == VK_IMAGE_LAYOUT_DEPTH_STENCIL_READ_ONLY_OPTIMAL;
}

// What an image has to be made for, so that it may be in a layout.
VkImageUsageFlags usage_for(VkImageLayout layout) {
    switch (layout) {
    case VK_IMAGE_LAYOUT_COLOR_ATTACHMENT_OPTIMAL:
        return VK_IMAGE_USAGE_COLOR_ATTACHMENT_BIT;
    case VK_IMAGE_LAYOUT_DEPTH_STENCIL_ATTACHMENT_OPTIMAL:
    case VK_IMAGE_LAYOUT_DEPTH_STENCIL_READ_ONLY_OPTIMAL:
        return VK_IMAGE_USAGE_DEPTH_STENCIL_ATTACHMENT_BIT;
    case VK_IMAGE_LAYOUT_SHADER_READ_ONLY_OPTIMAL:
        return VK_IMAGE_USAGE_SAMPLED_BIT;
    default:
        return 0;
    }
}

class WishList {
  public:
    explicit WishList(const Program &program) : wishes(program.pieces.size()) {
        for (PieceNumber k = 0; k < program.pieces.size(); ++k)
            for (const auto &found : {program.pieces[k].initial_layout, program.pieces[k].final_layout})
                if (found)
                    layout(k, *found);
        for (const Queue &queue : program.queues)
            for (const Batch &batch : queue.batches)
                for (const Item &item : batch.items)
                    std::visit([&](const auto &what) { add(what); }, item.what);
    }

    std::vector<Wishes> wishes;

  private:
    void operation(PieceNumber piece, VkImageUsageFlags usage) {
        wishes[piece].usage |= usage;
        wishes[piece].color = wishes[piece].one_sample = wishes[piece].operated = true;
    }

    void layout(PieceNumber piece, VkImageLayout found) {
        wishes[piece].usage |= usage_for(found);
        wishes[piece].depth_layout |= is_depth_layout(found);
    }

    void add(const Barrier &barrier) {
        if (barrier.layouts) {
            layout(barrier.piece, barrier.layouts->from);
            layout(barrier.piece, barrier.layouts->to);
        }
    }

    void add(const Command &command) {
        std::visit([&](const auto &what) { add(what); }, command);
    }

    void add(const FillBuffer &) {}
    void add(const CopyBuffer &) {}
    void add(const ClearImage &clear) { operation(clear.destination, 0); }
    void add(const BufferToImage &copy) { operation(copy.destination, 0); }
    void add(const ImageToBuffer &copy) { operation(copy.source, 0); }
    void add(const CopyImage &copy) {
        operation(copy.source, 0);
        operation(copy.destination, 0);
    }
    void add(const Kernel &kernel) {
        for (const PieceNumber source : kernel.sources)
            operation(source, VK_IMAGE_USAGE_SAMPLED_BIT);
        operation(kernel.destination, VK_IMAGE_USAGE_STORAGE_BIT);
    }
    void add(const Draw &draw) { operation(draw.destination, VK_IMAGE_USAGE_COLOR_ATTACHMENT_BIT); }
    void add(const Action &action) {
        for (const Use &use : action.uses)
            add(use);
    }

    void add(const Use &use) {
        Wishes &wish = wishes[use.piece];
        layout(use.piece, use.layout);
        switch (use.role) {
        case Role::sampled:
            wish.usage |= VK_IMAGE_USAGE_SAMPLED_BIT;
            break;
        case Role::input:
            wish.usage |= VK_IMAGE_USAGE_INPUT_ATTACHMENT_BIT;
            break;
        case Role::storage_read:
        case Role::storage_write:
        case Role::storage:
            wish.usage |= VK_IMAGE_USAGE_STORAGE_BIT;
            wish.color = true;
            break;
        case Role::color:
            wish.usage |= VK_IMAGE_USAGE_COLOR_ATTACHMENT_BIT;
            wish.color = true;
            break;
        case Role::depth:
        case Role::depth_read:
            wish.usage |= VK_IMAGE_USAGE_DEPTH_STENCIL_ATTACHMENT_BIT;
            wish.depth = true;
            break;
        case Role::resolve_read:
            // What is resolved has to be a format of attachments.
            wish.usage |= VK_IMAGE_USAGE_COLOR_ATTACHMENT_BIT;
            wish.color = wish.samples = true;
            break;
        case Role::resolve_write:
            wish.usage |= VK_IMAGE_USAGE_COLOR_ATTACHMENT_BIT;
            wish.color = wish.one_sample = wish.resolved = true;
            break;
        case Role::blit_read:
        case Role::blit_write:
            wish.one_sample = true;
            break;
        default:
            break;
        }
    }
};

// Devices have several samples in formats of floating numbers sooner than in those of whole ones.
VkFormat color_format(const Piece &piece, bool floating) {
    if (piece.shape == Shape::texture)
        return floating ? VK_FORMAT_R8G8B8A8_UNORM : VK_FORMAT_R8G8B8A8_UINT;
    if (piece.texel == Texel::r8)
        return floating ? VK_FORMAT_R8_UNORM : VK_FORMAT_R8_UINT;
    return floating ? VK_FORMAT_R32_SFLOAT : VK_FORMAT_R32_UINT;
}

VkExtent2D extent_of(const Piece &piece) {
    if (piece.shape == Shape::image)
        return {piece.width, piece.height};
    const auto texels = (piece.bytes + texture_texel - 1) / texture_texel;
    const auto width = static_cast<uint32_t>(std::clamp<uint64_t>(texels, 1, greatest_side));
    return {width, static_cast<uint32_t>(std::clamp<uint64_t>(texels / width, 1, greatest_side))};
}

ImageKind kind_of(const Piece &piece, const Wishes &wish, size_t number) {
    const std::string name = "piece " + std::to_string(number);
    const bool depth = wish.depth || (wish.depth_layout && !wish.color);
    if (depth && wish.color)
        throw Ended(Ending::not_together, name + " is used as a depth attachment and as colours");
    if (wish.samples && wish.one_sample)
        throw Ended(Ending::not_together, name + " is resolved, and used as only an image of one sample can be");
    if ((wish.samples || wish.resolved) && wish.operated)
        throw Ended(Ending::not_together, name + " is resolved, and an operation takes its texels as whole numbers");
    ImageKind kind;
    kind.format = depth ? VK_FORMAT_D32_SFLOAT : color_format(piece, wish.samples || wish.resolved);
    kind.extent = extent_of(piece);
    kind.samples = wish.samples ? VK_SAMPLE_COUNT_4_BIT : VK_SAMPLE_COUNT_1_BIT;
    // A layout that no format of this kind can be in asks for nothing: what uses it is told by `check`.
    kind.usage = wish.usage & ~(depth ? VK_IMAGE_USAGE_COLOR_ATTACHMENT_BIT : VK_IMAGE_USAGE_DEPTH_STENCIL_ATTACHMENT_BIT);
    return kind;
}

} // namespace

Channel ImageKind::channel() const {
    switch (format) {
    case VK_FORMAT_R8_UINT:
    case VK_FORMAT_R32_UINT:
    case VK_FORMAT_R8G8B8A8_UINT:
        return Channel::unsigned_integer;
    default:
        return Channel::floating;
    }
}

const char *ImageKind::storage_word() const {
    switch (format) {
    case VK_FORMAT_R8_UINT:
        return "r8ui";
    case VK_FORMAT_R32_UINT:
        return "r32ui";
    case VK_FORMAT_R8G8B8A8_UINT:
        return "rgba8ui";
    case VK_FORMAT_R8_UNORM:
        return "r8";
    case VK_FORMAT_R32_SFLOAT:
        return "r32f";
    default:
        return "rgba8";
    }
}

std::vector<ImageKind> kinds_of_images(const Program &program) {
    const WishList list(program);
    std::vector<ImageKind> kinds;
    for (size_t k = 0; k < program.pieces.size(); ++k)
        kinds.push_back(program.pieces[k].is_image() ? kind_of(program.pieces[k], list.wishes[k], k) : ImageKind{});
    return kinds;
}

} // namespace replay
