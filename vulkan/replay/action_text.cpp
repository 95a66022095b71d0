#include "action_text.hpp"

#include <algorithm>

namespace replay {

namespace {

VkShaderStageFlags shader_stages(const Use &use) {
    if (use.role == Role::input)
        return VK_SHADER_STAGE_FRAGMENT_BIT;
    VkShaderStageFlags stages = 0;
    if ((use.stages & VK_PIPELINE_STAGE_2_VERTEX_SHADER_BIT) != 0)
        stages |= VK_SHADER_STAGE_VERTEX_BIT;
    if ((use.stages & VK_PIPELINE_STAGE_2_FRAGMENT_SHADER_BIT) != 0)
        stages |= VK_SHADER_STAGE_FRAGMENT_BIT;
    if ((use.stages & VK_PIPELINE_STAGE_2_COMPUTE_SHADER_BIT) != 0)
        stages |= VK_SHADER_STAGE_COMPUTE_BIT;
    return stages;
}

bool touches(const Use &use, VkPipelineStageFlags2 stage) {
    if (use.role == Role::input)
        return stage == VK_PIPELINE_STAGE_2_FRAGMENT_SHADER_BIT;
    return has_descriptor(use.role) && (use.stages & stage) != 0;
}

VkDescriptorType type_of(Role role, bool image) {
    switch (role) {
    case Role::uniform:
        return VK_DESCRIPTOR_TYPE_UNIFORM_BUFFER;
    case Role::input:
        return VK_DESCRIPTOR_TYPE_INPUT_ATTACHMENT;
    case Role::sampled:
        return image ? VK_DESCRIPTOR_TYPE_COMBINED_IMAGE_SAMPLER : VK_DESCRIPTOR_TYPE_UNIFORM_TEXEL_BUFFER;
    default:
        return image ? VK_DESCRIPTOR_TYPE_STORAGE_IMAGE : VK_DESCRIPTOR_TYPE_STORAGE_BUFFER;
    }
}

bool stores(Role role) { return role == Role::storage_write || role == Role::storage; }

// The words of a shader for one descriptor: what declares it, what loads from it and what stores to it.
struct Words {
    std::string declaration, load, store;
};

std::string binding_text(size_t number, const std::string &more = "") {
    return "layout(set = 0, binding = " + std::to_string(number) + more + ") ";
}

std::string read_value(const ImageKind &kind, const std::string &value) {
    return kind.channel() == Channel::unsigned_integer ? value + ".r" : "floatBitsToUint(" + value + ".r)";
}

Words image_words(const ImageKind &kind, const Use &use, size_t number, size_t input) {
    const std::string k = std::to_string(number), letter = kind.channel() == Channel::unsigned_integer ? "u" : "";
    const bool several = kind.samples != VK_SAMPLE_COUNT_1_BIT;
    const std::string suffix = several ? "MS" : "", name = "image" + k;
    if (use.role == Role::sampled)
        return {binding_text(number) + "uniform " + letter + "sampler2D" + suffix + " " + name + ";\n",
                read_value(kind, "texelFetch(" + name + ", ivec2(0), 0)"), ""};
    if (use.role == Role::input)
        return {binding_text(number, ", input_attachment_index = " + std::to_string(input)) + "uniform " + letter + "subpassInput" +
                    suffix + " " + name + ";\n",
                read_value(kind, "subpassLoad(" + name + (several ? ", 0)" : ")")), ""};
    const std::string access = use.role == Role::storage_read ? "readonly " : use.role == Role::storage_write ? "writeonly " : "";
    const std::string place = "(" + name + ", ivec2(0)" + (several ? ", 0" : "");
    Words words{binding_text(number, std::string(", ") + kind.storage_word()) + access + "uniform " + letter + "image2D" + suffix + " " +
                    name + ";\n",
                "", ""};
    if (use.role != Role::storage_write)
        words.load = read_value(kind, "imageLoad" + place + ")");
    if (stores(use.role))
        words.store = "imageStore" + place + ", " + letter + "vec4(sum))";
    return words;
}

Words buffer_words(const Use &use, size_t number) {
    const std::string k = std::to_string(number), name = "buffer" + k;
    if (use.role == Role::uniform)
        return {binding_text(number, ", std140") + "uniform Block" + k + " { uint word; } " + name + ";\n", name + ".word", ""};
    if (use.role == Role::sampled)
        return {binding_text(number) + "uniform usamplerBuffer " + name + ";\n", "texelFetch(" + name + ", 0).r", ""};
    const std::string access = use.role == Role::storage_read ? "readonly " : use.role == Role::storage_write ? "writeonly " : "";
    Words words{binding_text(number, ", std430") + access + "buffer Block" + k + " { uint word; } " + name + ";\n", "", ""};
    if (use.role != Role::storage_write)
        words.load = name + ".word";
    if (stores(use.role))
        words.store = name + ".word = sum";
    return words;
}

std::string ending_of(VkPipelineStageFlags2 stage, const std::vector<Channel> &colors) {
    if (stage == VK_PIPELINE_STAGE_2_VERTEX_SHADER_BIT)
        return "    vec2 corner = vec2(gl_VertexIndex % 3 == 1 ? 3.0 : -1.0, gl_VertexIndex % 3 == 2 ? 3.0 : -1.0);\n"
               "    gl_Position = vec4(corner, 0.0, sum == 0 ? 1.0 : 1.5);\n";
    std::string text;
    if (stage == VK_PIPELINE_STAGE_2_FRAGMENT_SHADER_BIT)
        for (size_t k = 0; k < colors.size(); ++k)
            text += "    color" + std::to_string(k) + (colors[k] == Channel::unsigned_integer ? " = uvec4(sum);\n" : " = vec4(sum);\n");
    return text;
}

} // namespace

bool has_descriptor(Role role) { return has_stages(role) || role == Role::input; }

std::vector<Binding> bindings_of(Context &context, const std::vector<Use> &uses) {
    std::vector<Binding> bindings;
    for (const Use &use : uses) {
        if (!has_descriptor(use.role))
            continue;
        const bool image = context.resources.is_image(use.piece);
        Binding binding{type_of(use.role, image), shader_stages(use)};
        if (image) {
            const bool sampler = use.role == Role::sampled;
            binding.image = {sampler ? context.nearest() : VK_NULL_HANDLE, context.resources.image(use.piece).view.get(), use.layout};
        } else {
            const BufferResource &buffer = context.resources.buffer(use.piece);
            const VkDeviceSize most = use.role == Role::uniform ? context.device.limits().maxUniformBufferRange : VK_WHOLE_SIZE;
            binding.buffer = {buffer.buffer.get(), 0, std::min(buffer.size, most)};
            binding.texels = buffer.view.get();
        }
        bindings.push_back(binding);
    }
    return bindings;
}

std::string shader_text(const Context &context, const std::vector<Use> &uses, VkPipelineStageFlags2 stage, size_t attributes,
                        const std::vector<Channel> &colors) {
    std::string declarations, loads, stored;
    size_t number = 0, input = 0;
    for (const Use &use : uses) {
        if (!has_descriptor(use.role))
            continue;
        if (touches(use, stage)) {
            const bool image = context.resources.is_image(use.piece);
            const Words words =
                image ? image_words(context.resources.image(use.piece).kind, use, number, input) : buffer_words(use, number);
            declarations += words.declaration;
            loads += words.load.empty() ? "" : "    sum += " + words.load + ";\n";
            stored += words.store.empty() ? "" : "    " + words.store + ";\n";
        }
        ++number;
        input += use.role == Role::input ? 1 : 0;
    }
    std::string text = "#version 460\n";
    if (stage == VK_PIPELINE_STAGE_2_COMPUTE_SHADER_BIT)
        text += "layout(local_size_x = 1) in;\n";
    for (size_t k = 0; k < attributes; ++k) {
        text += "layout(location = " + std::to_string(k) + ") in uint attribute" + std::to_string(k) + ";\n";
        loads += "    sum += attribute" + std::to_string(k) + ";\n";
    }
    for (size_t k = 0; k < colors.size(); ++k)
        text += "layout(location = " + std::to_string(k) + ") out " + (colors[k] == Channel::unsigned_integer ? "uvec4" : "vec4") +
                " color" + std::to_string(k) + ";\n";
    return text + declarations + "void main() {\n    uint sum = 0;\n" + loads + stored + ending_of(stage, colors) + "}\n";
}

} // namespace replay
