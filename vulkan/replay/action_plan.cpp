#include "action_plan.hpp"

#include <algorithm>

namespace replay {

namespace {

// What a command has a limited number of.
enum class Slot {
    index,
    indirect,
    depth,
    color,
    input,
    vertex,
    uniform,
    sampled_image,
    sampled_buffer,
    storage_image,
    storage_buffer,
    count,
};

Slot slot_of(const Use &use, bool image) {
    switch (use.role) {
    case Role::index:
        return Slot::index;
    case Role::indirect:
        return Slot::indirect;
    case Role::depth:
    case Role::depth_read:
        return Slot::depth;
    case Role::color:
        return Slot::color;
    case Role::input:
        return Slot::input;
    case Role::vertex:
        return Slot::vertex;
    case Role::uniform:
        return Slot::uniform;
    case Role::sampled:
        return image ? Slot::sampled_image : Slot::sampled_buffer;
    default:
        return image ? Slot::storage_image : Slot::storage_buffer;
    }
}

uint32_t room_of(Slot slot, const VkPhysicalDeviceLimits &limits) {
    switch (slot) {
    case Slot::index:
    case Slot::indirect:
    case Slot::depth:
        return 1;
    case Slot::color:
        return std::min(limits.maxColorAttachments, limits.maxFragmentOutputAttachments);
    case Slot::input:
        return limits.maxPerStageDescriptorInputAttachments;
    case Slot::vertex:
        return std::min(limits.maxVertexInputBindings, limits.maxVertexInputAttributes);
    case Slot::uniform:
        return limits.maxPerStageDescriptorUniformBuffers;
    case Slot::sampled_image:
        return std::min(limits.maxPerStageDescriptorSampledImages, limits.maxPerStageDescriptorSamplers) / 2;
    case Slot::sampled_buffer:
        return limits.maxPerStageDescriptorSampledImages / 2;
    case Slot::storage_image:
        return limits.maxPerStageDescriptorStorageImages;
    default:
        return limits.maxPerStageDescriptorStorageBuffers;
    }
}

class Packer {
  public:
    explicit Packer(const Context &context) : context(context) {}

    void add(std::vector<Shaded> &commands, const Use &use) const {
        for (Shaded &command : commands)
            if (takes(command, use)) {
                command.uses.push_back(use);
                return;
            }
        commands.push_back({{use}});
    }

  private:
    Slot slot(const Use &use) const { return slot_of(use, context.resources.is_image(use.piece)); }

    // Attachments of one rendering have equally many samples.
    std::optional<VkSampleCountFlagBits> samples(const Use &use) const {
        if (use.role != Role::color && use.role != Role::depth && use.role != Role::depth_read)
            return std::nullopt;
        return context.resources.image(use.piece).kind.samples;
    }

    bool takes(const Shaded &command, const Use &use) const {
        const Slot own = slot(use);
        const auto there = std::count_if(command.uses.begin(), command.uses.end(), [&](const Use &other) { return slot(other) == own; });
        if (there >= room_of(own, context.device.limits()) || command.uses.size() >= context.device.limits().maxPerStageResources)
            return false;
        const auto wanted = samples(use);
        return std::none_of(command.uses.begin(), command.uses.end(), [&](const Use &other) {
            const auto found = samples(other);
            return wanted && found && *wanted != *found;
        });
    }

    const Context &context;
};

bool is_transfer(Role role) {
    switch (role) {
    case Role::copy_read:
    case Role::copy_write:
    case Role::blit_read:
    case Role::blit_write:
    case Role::resolve_read:
    case Role::resolve_write:
    case Role::clear_write:
    case Role::present:
        return true;
    default:
        return false;
    }
}

bool is_of_buffers(Role role) { return role == Role::indirect || role == Role::index || role == Role::vertex || role == Role::uniform; }

bool is_of_images(Role role) {
    switch (role) {
    case Role::input:
    case Role::color:
    case Role::depth:
    case Role::depth_read:
    case Role::blit_read:
    case Role::blit_write:
    case Role::resolve_read:
    case Role::resolve_write:
    case Role::present:
        return true;
    default:
        return false;
    }
}

void test_kind(const Context &context, const Use &use) {
    const bool image = context.resources.is_image(use.piece);
    if (image ? is_of_buffers(use.role) : is_of_images(use.role))
        throw Ended(Ending::refused, "piece " + std::to_string(use.piece) + " is " + (image ? "an image" : "a buffer") +
                                         ", which has no such use");
}

Use part_of(Use use, VkPipelineStageFlags2 stages) {
    use.stages &= stages;
    return use;
}

} // namespace

ActionPlan plan_of(const Context &context, const Action &action) {
    const Packer packer(context);
    ActionPlan plan;
    std::vector<Use> indirect;
    for (const Use &use : action.uses) {
        test_kind(context, use);
        if (is_transfer(use.role)) {
            plan.transfers.push_back(use);
        } else if (use.role == Role::indirect) {
            indirect.push_back(use);
        } else if (!has_stages(use.role)) {
            packer.add(plan.draws, use);
        } else {
            if ((use.stages & graphics_shaders) != 0)
                packer.add(plan.draws, part_of(use, graphics_shaders));
            if ((use.stages & VK_PIPELINE_STAGE_2_COMPUTE_SHADER_BIT) != 0)
                packer.add(plan.dispatches, part_of(use, VK_PIPELINE_STAGE_2_COMPUTE_SHADER_BIT));
        }
    }
    // Where nothing is drawn, what is read indirectly is a dispatch's: every family with this stage can dispatch.
    for (const Use &use : indirect)
        packer.add(plan.draws.empty() ? plan.dispatches : plan.draws, use);
    return plan;
}

} // namespace replay
