#include "bindings.hpp"

namespace replay {

namespace {

VkWriteDescriptorSet write_of(VkDescriptorSet set, uint32_t number, const Binding &binding) {
    auto write = blank<VkWriteDescriptorSet>(VK_STRUCTURE_TYPE_WRITE_DESCRIPTOR_SET);
    write.dstSet = set;
    write.dstBinding = number;
    write.descriptorCount = 1;
    write.descriptorType = binding.type;
    write.pBufferInfo = &binding.buffer;
    write.pImageInfo = &binding.image;
    write.pTexelBufferView = &binding.texels;
    return write;
}

} // namespace

BoundSet::BoundSet(VkDevice device, const std::vector<Binding> &bindings, VkShaderStageFlags constants_of, uint32_t constant_bytes) {
    std::vector<VkDescriptorSetLayoutBinding> wanted;
    for (const Binding &binding : bindings)
        wanted.push_back({static_cast<uint32_t>(wanted.size()), binding.type, 1, binding.stages, nullptr});
    auto set_info = blank<VkDescriptorSetLayoutCreateInfo>(VK_STRUCTURE_TYPE_DESCRIPTOR_SET_LAYOUT_CREATE_INFO);
    set_info.bindingCount = static_cast<uint32_t>(wanted.size());
    set_info.pBindings = wanted.data();
    set_layout = made<OwnedSetLayout>(device, vkCreateDescriptorSetLayout, set_info, "vkCreateDescriptorSetLayout");

    const VkDescriptorSetLayout layouts[] = {set_layout.get()};
    const VkPushConstantRange constants{constants_of, 0, constant_bytes};
    auto info = blank<VkPipelineLayoutCreateInfo>(VK_STRUCTURE_TYPE_PIPELINE_LAYOUT_CREATE_INFO);
    info.setLayoutCount = 1;
    info.pSetLayouts = layouts;
    info.pushConstantRangeCount = constant_bytes == 0 ? 0 : 1;
    info.pPushConstantRanges = &constants;
    pipeline_layout = made<OwnedPipelineLayout>(device, vkCreatePipelineLayout, info, "vkCreatePipelineLayout");
    if (!bindings.empty())
        make_set(device, bindings);
}

void BoundSet::make_set(VkDevice device, const std::vector<Binding> &bindings) {
    std::vector<VkDescriptorPoolSize> sizes;
    for (const Binding &binding : bindings)
        sizes.push_back({binding.type, 1});
    auto pool_info = blank<VkDescriptorPoolCreateInfo>(VK_STRUCTURE_TYPE_DESCRIPTOR_POOL_CREATE_INFO);
    pool_info.maxSets = 1;
    pool_info.poolSizeCount = static_cast<uint32_t>(sizes.size());
    pool_info.pPoolSizes = sizes.data();
    pool = made<OwnedDescriptorPool>(device, vkCreateDescriptorPool, pool_info, "vkCreateDescriptorPool");

    const VkDescriptorSetLayout layouts[] = {set_layout.get()};
    auto info = blank<VkDescriptorSetAllocateInfo>(VK_STRUCTURE_TYPE_DESCRIPTOR_SET_ALLOCATE_INFO);
    info.descriptorPool = pool.get();
    info.descriptorSetCount = 1;
    info.pSetLayouts = layouts;
    succeed(vkAllocateDescriptorSets(device, &info, &set), "vkAllocateDescriptorSets");
    std::vector<VkWriteDescriptorSet> writes;
    for (const Binding &binding : bindings)
        writes.push_back(write_of(set, static_cast<uint32_t>(writes.size()), binding));
    vkUpdateDescriptorSets(device, static_cast<uint32_t>(writes.size()), writes.data(), 0, nullptr);
}

void BoundSet::bind(VkCommandBuffer commands, VkPipelineBindPoint point) const {
    if (set != VK_NULL_HANDLE)
        vkCmdBindDescriptorSets(commands, point, layout(), 0, 1, &set, 0, nullptr);
}

OwnedPipeline compute_pipeline(VkDevice device, VkPipelineLayout layout, VkShaderModule shader) {
    auto stage = blank<VkPipelineShaderStageCreateInfo>(VK_STRUCTURE_TYPE_PIPELINE_SHADER_STAGE_CREATE_INFO);
    stage.stage = VK_SHADER_STAGE_COMPUTE_BIT;
    stage.module = shader;
    stage.pName = "main";
    auto info = blank<VkComputePipelineCreateInfo>(VK_STRUCTURE_TYPE_COMPUTE_PIPELINE_CREATE_INFO);
    info.stage = stage;
    info.layout = layout;
    VkPipeline pipeline = VK_NULL_HANDLE;
    succeed(vkCreateComputePipelines(device, VK_NULL_HANDLE, 1, &info, nullptr, &pipeline), "vkCreateComputePipelines");
    return {device, pipeline};
}

} // namespace replay
