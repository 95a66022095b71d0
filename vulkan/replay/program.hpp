// A submission file as a program: memories, pieces, and what is submitted to each queue.
#pragma once

#include "masks.hpp"
#include "operation.hpp"

#include <cstdint>
#include <optional>
#include <string>
#include <variant>
#include <vector>

namespace replay {

enum class Family { graphics, compute, transfer };
inline constexpr size_t family_kinds = 3;

struct Memory {
    uint64_t size = 0;
    std::vector<uint8_t> opening; // the import's bytes
};

enum class Shape { buffer, image, texture };
enum class Texel { r8, r32 };

struct Piece {
    Shape shape;
    uint64_t bytes = 0;
    uint32_t width = 0, height = 0; // of an image
    Texel texel = Texel::r8;
    uint32_t memory = 0;
    uint64_t offset = 0;
    bool concurrent = false;
    std::optional<VkImageLayout> initial_layout;
    std::optional<VkImageLayout> final_layout;

    bool is_image() const { return shape != Shape::buffer; }
    uint64_t end() const { return offset + bytes; }
};

enum class BarrierKind { global, buffer, image, release, acquire };

struct Layouts {
    VkImageLayout from, to;
};

struct Barrier {
    BarrierKind kind;
    PieceNumber piece = 0;
    std::optional<Layouts> layouts;
    Family from_family = Family::graphics, to_family = Family::graphics;
    Masks masks;
    bool joined = false;
};

struct Wait {
    uint32_t queue;
    uint64_t value;
    VkPipelineStageFlags2 stages;
};

struct Signal {
    uint64_t value;
    VkPipelineStageFlags2 stages;
};

struct Item {
    std::string path; // where it stands in the file
    std::variant<Barrier, Command> what;
};

struct Batch {
    std::vector<Wait> waits;
    std::vector<Item> items;
    std::optional<Signal> signal;
};

struct Queue {
    Family family;
    std::vector<Batch> batches;
};

struct Program {
    std::vector<Memory> memories;
    std::vector<Piece> pieces;
    std::vector<Queue> queues;
    std::vector<PieceNumber> readbacks;
    bool wide = false; // of format 3
};

} // namespace replay
