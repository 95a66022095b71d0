// Descriptor sets: their layouts, and what is written into them.

#include <algorithm>

#include "descriptors.hpp"
#include "hooks.hpp"
#include "ranges.hpp"

namespace {

enum class Kind { image, buffer, texels, other };

Kind kind_of(VkDescriptorType type) {
    switch (type) {
    case VK_DESCRIPTOR_TYPE_COMBINED_IMAGE_SAMPLER:
    case VK_DESCRIPTOR_TYPE_SAMPLED_IMAGE:
    case VK_DESCRIPTOR_TYPE_STORAGE_IMAGE:
    case VK_DESCRIPTOR_TYPE_INPUT_ATTACHMENT: return Kind::image;
    case VK_DESCRIPTOR_TYPE_UNIFORM_BUFFER:
    case VK_DESCRIPTOR_TYPE_STORAGE_BUFFER:
    case VK_DESCRIPTOR_TYPE_UNIFORM_BUFFER_DYNAMIC:
    case VK_DESCRIPTOR_TYPE_STORAGE_BUFFER_DYNAMIC: return Kind::buffer;
    case VK_DESCRIPTOR_TYPE_UNIFORM_TEXEL_BUFFER:
    case VK_DESCRIPTOR_TYPE_STORAGE_TEXEL_BUFFER: return Kind::texels;
    default: return Kind::other;
    }
}

Descriptor descriptor_of(const Objects &objects, VkDescriptorType type, const VkDescriptorImageInfo &info) {
    Descriptor made;
    made.type = type;
    made.image = objects.image_views.find(info.imageView);
    made.layout = info.imageLayout;
    return made;
}

Descriptor descriptor_of(const Objects &objects, VkDescriptorType type, const VkDescriptorBufferInfo &info) {
    Descriptor made;
    made.type = type;
    made.buffer = objects.buffers.find(info.buffer);
    made.offset = info.offset;
    made.range = info.range;
    return made;
}

Descriptor descriptor_of(const Objects &objects, VkDescriptorType type, const VkBufferView &view) {
    Descriptor made;
    made.type = type;
    made.texels = objects.buffer_views.find(view);
    return made;
}

// The places of a set from one element on: an update runs over into the next binding.
class Places {
  public:
    Places(DescriptorSet &set, uint32_t binding, uint32_t element) : set(set), binding(binding), element(element) {}

    Descriptor *next() {
        while (true) {
            const auto found = set.bindings.lower_bound(binding);
            if (found == set.bindings.end()) return nullptr;
            if (found->first != binding) element = 0;
            binding = found->first;
            if (element < found->second.size()) return &found->second[element++];
            element -= static_cast<uint32_t>(found->second.size());
            ++binding;
        }
    }

  private:
    DescriptorSet &set;
    uint32_t binding, element;
};

Descriptor decode(const Objects &objects, VkDescriptorType type, const void *data) {
    switch (kind_of(type)) {
    case Kind::image: return descriptor_of(objects, type, *static_cast<const VkDescriptorImageInfo *>(data));
    case Kind::buffer: return descriptor_of(objects, type, *static_cast<const VkDescriptorBufferInfo *>(data));
    case Kind::texels: return descriptor_of(objects, type, *static_cast<const VkBufferView *>(data));
    case Kind::other: break;
    }
    Descriptor made;
    made.type = type;
    return made;
}

const void *data_of(const VkWriteDescriptorSet &write, uint32_t place) {
    switch (kind_of(write.descriptorType)) {
    case Kind::image: return &write.pImageInfo[place];
    case Kind::buffer: return &write.pBufferInfo[place];
    case Kind::texels: return &write.pTexelBufferView[place];
    case Kind::other: break;
    }
    return nullptr;
}

void copy_descriptors(const Objects &objects, const VkCopyDescriptorSet &copy) {
    const auto from = objects.sets.find(copy.srcSet);
    const auto to = objects.sets.find(copy.dstSet);
    if (!from || !to) return;
    Places source(*from, copy.srcBinding, copy.srcArrayElement);
    Places target(*to, copy.dstBinding, copy.dstArrayElement);
    for (uint32_t count = 0; count < copy.descriptorCount; ++count) {
        const Descriptor *read = source.next();
        Descriptor *written = target.next();
        if (read == nullptr || written == nullptr) return;
        *written = *read;
    }
}

}  // namespace

void write_descriptors(const Objects &objects, DescriptorSet &set, const VkWriteDescriptorSet &write) {
    // Inline uniform blocks count bytes and name no memory.
    if (kind_of(write.descriptorType) == Kind::other) return;
    Places places(set, write.dstBinding, write.dstArrayElement);
    for (uint32_t place = 0; place < write.descriptorCount; ++place) {
        Descriptor *written = places.next();
        if (written == nullptr) return;
        *written = decode(objects, write.descriptorType, data_of(write, place));
    }
}

void write_with_template(const Objects &objects, DescriptorSet &set, const UpdateTemplate &layout, const void *data) {
    for (const VkDescriptorUpdateTemplateEntry &entry : layout.entries) {
        if (kind_of(entry.descriptorType) == Kind::other) continue;
        Places places(set, entry.dstBinding, entry.dstArrayElement);
        for (uint32_t place = 0; place < entry.descriptorCount; ++place) {
            Descriptor *written = places.next();
            if (written == nullptr) break;
            *written = decode(objects, entry.descriptorType, static_cast<const char *>(data) + entry.offset + place * entry.stride);
        }
    }
}

Ref<DescriptorSet> make_set(const Ref<SetLayout> &layout) {
    auto set = std::make_shared<DescriptorSet>();
    set->layout = layout;
    if (!layout) return set;
    for (const auto &[number, binding] : layout->bindings) {
        const bool is_block = binding.type == VK_DESCRIPTOR_TYPE_INLINE_UNIFORM_BLOCK;
        set->bindings[number].resize(is_block ? 1 : binding.count);
    }
    return set;
}

namespace hook {

void CreateDescriptorSetLayout(Device &layer, VkResult result, VkDevice, const VkDescriptorSetLayoutCreateInfo *pCreateInfo,
                               const VkAllocationCallbacks *, VkDescriptorSetLayout *pSetLayout) {
    if (result != VK_SUCCESS) return;
    auto layout = std::make_shared<SetLayout>();
    for (uint32_t place = 0; place < pCreateInfo->bindingCount; ++place) {
        const VkDescriptorSetLayoutBinding &binding = pCreateInfo->pBindings[place];
        layout->bindings[binding.binding] = {binding.descriptorType, binding.descriptorCount};
    }
    layer.objects.set_layouts.add(*pSetLayout, layout);
}

void DestroyDescriptorSetLayout(Device &layer, VkDevice, VkDescriptorSetLayout descriptorSetLayout, const VkAllocationCallbacks *) {
    layer.objects.set_layouts.remove(descriptorSetLayout);
}

void CreatePipelineLayout(Device &layer, VkResult result, VkDevice, const VkPipelineLayoutCreateInfo *pCreateInfo,
                          const VkAllocationCallbacks *, VkPipelineLayout *pPipelineLayout) {
    if (result != VK_SUCCESS) return;
    auto layout = std::make_shared<PipelineLayout>();
    for (uint32_t place = 0; place < pCreateInfo->setLayoutCount; ++place) {
        layout->sets.push_back(layer.objects.set_layouts.find(pCreateInfo->pSetLayouts[place]));
    }
    layer.objects.pipeline_layouts.add(*pPipelineLayout, layout);
}

void DestroyPipelineLayout(Device &layer, VkDevice, VkPipelineLayout pipelineLayout, const VkAllocationCallbacks *) {
    layer.objects.pipeline_layouts.remove(pipelineLayout);
}

void CreateDescriptorUpdateTemplate(Device &layer, VkResult result, VkDevice, const VkDescriptorUpdateTemplateCreateInfo *pCreateInfo,
                                    const VkAllocationCallbacks *, VkDescriptorUpdateTemplate *pDescriptorUpdateTemplate) {
    if (result != VK_SUCCESS) return;
    auto made = std::make_shared<UpdateTemplate>();
    made->entries.assign(pCreateInfo->pDescriptorUpdateEntries,
                         pCreateInfo->pDescriptorUpdateEntries + pCreateInfo->descriptorUpdateEntryCount);
    const bool pushes = pCreateInfo->templateType != VK_DESCRIPTOR_UPDATE_TEMPLATE_TYPE_DESCRIPTOR_SET;
    if (pushes) made->point = pCreateInfo->pipelineBindPoint;
    layer.objects.templates.add(*pDescriptorUpdateTemplate, made);
}

void DestroyDescriptorUpdateTemplate(Device &layer, VkDevice, VkDescriptorUpdateTemplate descriptorUpdateTemplate,
                                     const VkAllocationCallbacks *) {
    layer.objects.templates.remove(descriptorUpdateTemplate);
}

void AllocateDescriptorSets(Device &layer, VkResult result, VkDevice, const VkDescriptorSetAllocateInfo *pAllocateInfo,
                            VkDescriptorSet *pDescriptorSets) {
    for (uint32_t place = 0; result == VK_SUCCESS && place < pAllocateInfo->descriptorSetCount; ++place) {
        auto set = make_set(layer.objects.set_layouts.find(pAllocateInfo->pSetLayouts[place]));
        set->pool = pAllocateInfo->descriptorPool;
        layer.objects.sets.add(pDescriptorSets[place], set);
    }
}

void FreeDescriptorSets(Device &layer, VkDevice, VkDescriptorPool, uint32_t descriptorSetCount, const VkDescriptorSet *pDescriptorSets) {
    for (uint32_t place = 0; place < descriptorSetCount; ++place) layer.objects.sets.remove(pDescriptorSets[place]);
}

void ResetDescriptorPool(Device &layer, VkDevice, VkDescriptorPool descriptorPool, VkDescriptorPoolResetFlags) {
    layer.objects.sets.remove_if([&](const DescriptorSet &set) { return set.pool == descriptorPool; });
}

void DestroyDescriptorPool(Device &layer, VkDevice, VkDescriptorPool descriptorPool, const VkAllocationCallbacks *) {
    layer.objects.sets.remove_if([&](const DescriptorSet &set) { return set.pool == descriptorPool; });
}

void UpdateDescriptorSets(Device &layer, VkDevice, uint32_t descriptorWriteCount, const VkWriteDescriptorSet *pDescriptorWrites,
                          uint32_t descriptorCopyCount, const VkCopyDescriptorSet *pDescriptorCopies) {
    for (uint32_t place = 0; place < descriptorWriteCount; ++place) {
        const VkWriteDescriptorSet &write = pDescriptorWrites[place];
        if (const auto set = layer.objects.sets.find(write.dstSet)) write_descriptors(layer.objects, *set, write);
    }
    for (uint32_t place = 0; place < descriptorCopyCount; ++place) copy_descriptors(layer.objects, pDescriptorCopies[place]);
}

void UpdateDescriptorSetWithTemplate(Device &layer, VkDevice, VkDescriptorSet descriptorSet,
                                     VkDescriptorUpdateTemplate descriptorUpdateTemplate, const void *pData) {
    const auto set = layer.objects.sets.find(descriptorSet);
    const auto layout = layer.objects.templates.find(descriptorUpdateTemplate);
    if (set && layout) write_with_template(layer.objects, *set, *layout, pData);
}

}  // namespace hook
