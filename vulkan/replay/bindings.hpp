// Descriptors of one command, and pipelines that take them.
#pragma once

#include "resources.hpp"
#include "shaders.hpp"

#include <string>
#include <vector>

namespace replay {

// A descriptor; its binding's number is its place in the list.
struct Binding {
    VkDescriptorType type;
    VkShaderStageFlags stages;
    VkDescriptorBufferInfo buffer{};
    VkDescriptorImageInfo image{};
    VkBufferView texels = VK_NULL_HANDLE;
};

// A set of descriptors and the layout of pipelines that take it, with room for so many bytes of constants.
class BoundSet {
  public:
    BoundSet(VkDevice device, const std::vector<Binding> &bindings, VkShaderStageFlags constants_of, uint32_t constant_bytes);

    VkPipelineLayout layout() const { return pipeline_layout.get(); }
    void bind(VkCommandBuffer commands, VkPipelineBindPoint point) const;

  private:
    void make_set(VkDevice device, const std::vector<Binding> &bindings);

    OwnedSetLayout set_layout;
    OwnedPipelineLayout pipeline_layout;
    OwnedDescriptorPool pool;
    VkDescriptorSet set = VK_NULL_HANDLE;
};

OwnedPipeline compute_pipeline(VkDevice device, VkPipelineLayout layout, VkShaderModule shader);

} // namespace replay
