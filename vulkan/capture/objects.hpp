#pragma once
#include <vulkan/vulkan.h>

#include <cstdint>
#include <map>
#include <memory>
#include <string>
#include <unordered_map>
#include <vector>

#include "spirv.hpp"

template <class T> using Ref = std::shared_ptr<T>;

// Handles come again after destruction, so objects are kept by reference; what was recorded
// goes on naming the object that it meant.
template <class Handle> uint64_t key_of(Handle handle) { return (uint64_t)handle; }

template <class T> class Table {
  public:
    template <class Handle> Ref<T> find(Handle handle) const {
        const auto found = objects.find(key_of(handle));
        return found == objects.end() ? nullptr : found->second;
    }
    template <class Handle> Ref<T> add(Handle handle, Ref<T> object) { return objects[key_of(handle)] = std::move(object); }
    template <class Handle> void remove(Handle handle) { objects.erase(key_of(handle)); }
    template <class Test> void remove_if(Test test) {
        std::erase_if(objects, [&](const auto &entry) { return test(*entry.second); });
    }

  private:
    std::unordered_map<uint64_t, Ref<T>> objects;
};

struct Memory {
    VkDeviceSize size = 0;
    std::string name;
};

// A buffer or an image at its place. One that has no place that can be told (sparse, of a
// swapchain, disjoint) gets a memory of its own.
struct Resource {
    Ref<Memory> memory;
    VkDeviceSize offset = 0;
    VkDeviceSize bytes = 0;
    bool concurrent = false;
    std::string name;
    VkDeviceSize end() const { return offset + bytes; }
};

struct Buffer : Resource {
    VkDeviceSize length = 0;
};

struct Swapchain;

struct Image : Resource {
    VkFormat format = VK_FORMAT_UNDEFINED;
    VkExtent3D extent{};
    uint32_t mips = 1, layers = 1;
    std::vector<VkImageAspectFlagBits> aspects;
    bool linear = false;
    std::weak_ptr<Swapchain> swapchain;
    uint32_t swapchain_index = 0;
    bool presented = false;
    std::vector<VkImageLayout> layouts;

    size_t cell(size_t aspect, uint32_t mip, uint32_t layer) const { return (aspect * mips + mip) * layers + layer; }
    size_t cells() const { return aspects.size() * mips * layers; }
};

struct BufferRange {
    Ref<Buffer> buffer;
    VkDeviceSize offset = 0, size = 0;
};

// A part of an image; aspects are a mask of positions in Image::aspects.
struct ImageRange {
    Ref<Image> image;
    uint32_t aspects = 0;
    uint32_t first_mip = 0, mips = 0, first_layer = 0, layers = 0;
};

struct ImageView {
    ImageRange range;
    VkImageAspectFlags aspects = 0;
};

struct BufferView {
    BufferRange range;
};

struct Swapchain {
    std::vector<Ref<Image>> images;
    VkFormat format = VK_FORMAT_UNDEFINED;
    VkExtent2D extent{};
    uint32_t layers = 1;
    bool concurrent = false;
    // What the family can do that presents its images, once one has.
    VkQueueFlags family = 0;
    std::string name;
};

struct RenderPass {
    struct Attachment {
        VkAttachmentLoadOp load, stencil_load;
        VkAttachmentStoreOp store, stencil_store;
        VkImageLayout initial, final, stencil_initial, stencil_final;
    };
    struct Reference {
        uint32_t attachment = VK_ATTACHMENT_UNUSED;
        VkImageLayout layout = VK_IMAGE_LAYOUT_UNDEFINED, stencil_layout = VK_IMAGE_LAYOUT_UNDEFINED;
    };
    struct Subpass {
        std::vector<Reference> inputs, colors, resolves;
        Reference depth, depth_resolve;
    };
    struct Dependency {
        uint32_t from, to;
        VkPipelineStageFlags2 src_stages, dst_stages;
        VkAccessFlags2 src_access, dst_access;
    };
    std::vector<Attachment> attachments;
    std::vector<Subpass> subpasses;
    std::vector<Dependency> dependencies;
};

struct Framebuffer {
    std::vector<Ref<ImageView>> attachments;
    VkExtent2D extent{};
};

struct SetLayout {
    struct Binding {
        VkDescriptorType type;
        uint32_t count;
    };
    std::map<uint32_t, Binding> bindings;
};

struct PipelineLayout {
    std::vector<Ref<SetLayout>> sets;
};

struct Descriptor {
    VkDescriptorType type = VK_DESCRIPTOR_TYPE_MAX_ENUM;
    Ref<Buffer> buffer;
    VkDeviceSize offset = 0, range = 0;
    Ref<ImageView> image;
    VkImageLayout layout = VK_IMAGE_LAYOUT_UNDEFINED;
    Ref<BufferView> texels;
};

struct DescriptorSet {
    Ref<SetLayout> layout;
    VkDescriptorPool pool = VK_NULL_HANDLE;
    std::map<uint32_t, std::vector<Descriptor>> bindings;
};

struct UpdateTemplate {
    std::vector<VkDescriptorUpdateTemplateEntry> entries;
    VkPipelineBindPoint point = VK_PIPELINE_BIND_POINT_GRAPHICS;
};

struct Shader {
    spirv::Module module;
};

// What the shaders of a pipeline statically use of one binding.
struct BindingUse {
    uint32_t set = 0, binding = 0;
    VkPipelineStageFlags2 stages = 0;
    bool loads = false, stores = false;
};

struct Pipeline {
    std::vector<BindingUse> uses;
    std::vector<uint32_t> vertex_bindings;
    bool dynamic_vertex_input = false;
    VkShaderStageFlags stages = 0;
};

// A shader of VK_EXT_shader_object.
struct ShaderObject {
    std::vector<BindingUse> uses;
    VkShaderStageFlags stage = 0;
};
