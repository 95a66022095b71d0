#pragma once
#include <string>

#include "commands.hpp"

// From Vulkan's masks and layouts to the words of format 3.

enum class Side { source, destination };

// Stages and accesses that the format has. `all_beside` says that everything is ordered on this
// side beside what the stages say with their accesses.
struct SaidMask {
    VkPipelineStageFlags2 stages = 0;
    VkAccessFlags2 access = 0;
    bool all_beside = false;
    // Whether stages were told that no queue of the family has.
    bool foreign = false;
};

// The stages that queues of a family have. Others order nothing there, and no file has them.
VkPipelineStageFlags2 stages_of(VkQueueFlags family);
inline constexpr const char *foreign_stages = "stages that the queue's family does not have: left out";

// `other_stages`: stages before rasterization that the file uses and the format lacks. The vertex
// shader stands for them, so a mask has it only where it has them all.
SaidMask said_mask(VkPipelineStageFlags2 stages, VkAccessFlags2 access, Side side, VkQueueFlags family,
                   VkPipelineStageFlags2 other_stages);

std::string stage_words(VkPipelineStageFlags2 stages);
std::string access_words(VkAccessFlags2 access);

// The word of a layout; `linear` is of the image that has it.
const char *layout_word(VkImageLayout layout, bool linear);
const char *family_word(VkQueueFlags family);

struct RoleWord {
    const char *word;
    bool stores;
    bool has_stages;
};
RoleWord role_word(Role role);
