// The fifteen operations, and actions with their uses.
#pragma once

#include <vulkan/vulkan.h>

#include <optional>
#include <string_view>
#include <variant>
#include <vector>

namespace replay {

using PieceNumber = uint32_t;

enum class Function { add, sub, mul, bit_and, bit_or, bit_xor, min, max, shl, shr };
enum class Mix { set, bit_and, bit_or, bit_xor };

struct Rectangle {
    uint32_t x, y, width, height;
    Mix mix;
    uint32_t value;
};

struct FillBuffer {
    PieceNumber destination;
    uint32_t offset, size, word;
};

struct ClearImage {
    PieceNumber destination;
    uint32_t value;
};

struct CopyBuffer {
    PieceNumber source, destination;
    uint32_t source_offset, destination_offset, size;
};

struct CopyImage {
    PieceNumber source, destination;
    uint32_t source_x, source_y, destination_x, destination_y, width, height;
};

struct BufferToImage {
    PieceNumber source, destination;
    uint32_t offset;
};

struct ImageToBuffer {
    PieceNumber source, destination;
    uint32_t offset;
};

enum class KernelKind { ramp, map, combine, select, convert, box3, halve, histogram };

// What kernels compute with: `base`, `dx` and `dy` of a ramp, or the value of a map.
struct KernelNumbers {
    uint32_t base = 0, dx = 0, dy = 0, value = 0;
};

struct Kernel {
    KernelKind kind;
    std::vector<PieceNumber> sources;
    PieceNumber destination;
    Function function = Function::add;
    KernelNumbers numbers;
};

struct Draw {
    PieceNumber destination;
    std::optional<uint32_t> clear;
    std::vector<Rectangle> rectangles;
};

enum class Role {
    indirect,
    index,
    vertex,
    uniform,
    sampled,
    input,
    storage_read,
    storage_write,
    storage,
    color,
    depth,
    depth_read,
    copy_read,
    blit_read,
    resolve_read,
    copy_write,
    blit_write,
    resolve_write,
    present,
    clear_write,
};

struct Use {
    PieceNumber piece;
    Role role;
    VkPipelineStageFlags2 stages; // of roles that shaders have
    VkImageLayout layout;
    bool keeps;
};

struct Action {
    std::vector<Use> uses;
};

using Command = std::variant<FillBuffer, ClearImage, CopyBuffer, CopyImage, BufferToImage, ImageToBuffer, Kernel, Draw, Action>;

std::optional<Role> role_of(std::string_view text);
VkImageLayout default_layout(Role role);
bool keeps_by_default(Role role);
bool has_stages(Role role);

} // namespace replay
