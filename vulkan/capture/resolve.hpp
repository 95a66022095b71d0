#pragma once
#include "masks.hpp"
#include "pieces.hpp"

// Items of the file over its pieces.

struct FileUse {
    size_t piece = 0;
    Role role{};
    VkPipelineStageFlags2 stages = 0;
    std::string layout;
    bool whole = false;
    bool keeps = true;
};

struct FileAction {
    std::string name;
    uint32_t code = 0;
    std::vector<FileUse> uses;
};

struct FileBarrier {
    enum class Kind { global, buffer, image, release, acquire };
    Kind kind = Kind::global;
    size_t piece = 0;
    std::string from, to;
    std::string from_family, to_family;
    Masks masks;
    bool operator==(const FileBarrier &) const = default;
};

struct FileDependency {
    std::string name;
    std::vector<FileBarrier> barriers;
};

using FileItem = std::variant<FileAction, FileDependency>;

// Goes through the items of a capture in the order of submission.
class Resolver {
  public:
    Resolver(Capture &capture, const Pieces &pieces);
    // The items of all batches, by queue and batch.
    const std::vector<std::vector<std::vector<FileItem>>> &items() const { return resolved; }
    // The number of dependencies, and what was done with the one to be left out.
    uint64_t dependencies() const { return number; }
    bool left_one_out() const { return left_out; }

  private:
    void add(std::vector<FileItem> &out, const ActionItem &item);
    void add(std::vector<FileItem> &out, const DependencyItem &item, VkQueueFlags family);
    std::vector<FileUse> uses_of(const ActionItem &item);
    void settle(std::vector<FileUse> &uses);
    void settle_storage(std::vector<FileUse> &uses);
    void drop_overlapping(std::vector<FileUse> &uses);
    void set_keeps(std::vector<FileUse> &uses);
    std::vector<FileBarrier> barriers_of(const Barrier &barrier, VkQueueFlags family);
    void set_families(FileBarrier &made, const Families &told, VkQueueFlags family) const;
    std::vector<FileBarrier> over_pieces(const FileBarrier &model, const std::vector<size_t> &found);
    Masks said(const Masks &masks, FileBarrier::Kind kind, VkQueueFlags family, std::vector<FileBarrier> &beside);
    void follow(FileBarrier &barrier);

    Capture &capture;
    const Pieces &pieces;
    std::vector<std::vector<std::vector<FileItem>>> resolved;
    // Of each piece, while the items are gone through: whether something is in it, and its layout.
    std::vector<bool> contents;
    std::vector<std::string> layouts;
    uint64_t number = 0;
    uint32_t actions = 0;
    bool left_out = false;
};
