#include "graphics.hpp"

namespace replay {

namespace {

VkPipelineShaderStageCreateInfo stage_of(VkShaderStageFlagBits stage, VkShaderModule shader) {
    auto info = blank<VkPipelineShaderStageCreateInfo>(VK_STRUCTURE_TYPE_PIPELINE_SHADER_STAGE_CREATE_INFO);
    info.stage = stage;
    info.module = shader;
    info.pName = "main";
    return info;
}

struct VertexInput {
    explicit VertexInput(const std::vector<VertexBinding> &vertices) {
        for (const VertexBinding &vertex : vertices) {
            const auto number = static_cast<uint32_t>(bindings.size());
            bindings.push_back({number, vertex.stride, VK_VERTEX_INPUT_RATE_VERTEX});
            attributes.push_back({number, number, VK_FORMAT_R8_UINT, 0});
        }
    }

    VkPipelineVertexInputStateCreateInfo info() const {
        auto made = blank<VkPipelineVertexInputStateCreateInfo>(VK_STRUCTURE_TYPE_PIPELINE_VERTEX_INPUT_STATE_CREATE_INFO);
        made.vertexBindingDescriptionCount = static_cast<uint32_t>(bindings.size());
        made.pVertexBindingDescriptions = bindings.data();
        made.vertexAttributeDescriptionCount = static_cast<uint32_t>(attributes.size());
        made.pVertexAttributeDescriptions = attributes.data();
        return made;
    }

    std::vector<VkVertexInputBindingDescription> bindings;
    std::vector<VkVertexInputAttributeDescription> attributes;
};

VkPipelineDepthStencilStateCreateInfo depth_state(bool there, bool writes) {
    auto info = blank<VkPipelineDepthStencilStateCreateInfo>(VK_STRUCTURE_TYPE_PIPELINE_DEPTH_STENCIL_STATE_CREATE_INFO);
    info.depthTestEnable = there ? VK_TRUE : VK_FALSE;
    info.depthWriteEnable = there && writes ? VK_TRUE : VK_FALSE;
    info.depthCompareOp = VK_COMPARE_OP_LESS_OR_EQUAL;
    return info;
}

VkPipelineMultisampleStateCreateInfo sample_state(VkSampleCountFlagBits samples) {
    auto info = blank<VkPipelineMultisampleStateCreateInfo>(VK_STRUCTURE_TYPE_PIPELINE_MULTISAMPLE_STATE_CREATE_INFO);
    info.rasterizationSamples = samples;
    return info;
}

// Every colour attachment is written whole; a logic operation is for all of them.
struct Blending {
    Blending(size_t colors, std::optional<VkLogicOp> logic) : logic(logic) {
        VkPipelineColorBlendAttachmentState written{};
        written.colorWriteMask = VK_COLOR_COMPONENT_R_BIT | VK_COLOR_COMPONENT_G_BIT | VK_COLOR_COMPONENT_B_BIT | VK_COLOR_COMPONENT_A_BIT;
        attachments.assign(colors, written);
    }

    VkPipelineColorBlendStateCreateInfo info() const {
        auto made = blank<VkPipelineColorBlendStateCreateInfo>(VK_STRUCTURE_TYPE_PIPELINE_COLOR_BLEND_STATE_CREATE_INFO);
        made.logicOpEnable = logic ? VK_TRUE : VK_FALSE;
        made.logicOp = logic.value_or(VK_LOGIC_OP_COPY);
        made.attachmentCount = static_cast<uint32_t>(attachments.size());
        made.pAttachments = attachments.data();
        return made;
    }

    std::optional<VkLogicOp> logic;
    std::vector<VkPipelineColorBlendAttachmentState> attachments;
};

} // namespace

OwnedPipeline GraphicsPipeline::make(VkDevice device) const {
    const std::vector<VkPipelineShaderStageCreateInfo> stages = {stage_of(VK_SHADER_STAGE_VERTEX_BIT, vertex),
                                                                 stage_of(VK_SHADER_STAGE_FRAGMENT_BIT, fragment)};
    const VertexInput input(vertices);
    const auto input_info = input.info();
    auto assembly = blank<VkPipelineInputAssemblyStateCreateInfo>(VK_STRUCTURE_TYPE_PIPELINE_INPUT_ASSEMBLY_STATE_CREATE_INFO);
    assembly.topology = VK_PRIMITIVE_TOPOLOGY_TRIANGLE_LIST;
    auto viewport = blank<VkPipelineViewportStateCreateInfo>(VK_STRUCTURE_TYPE_PIPELINE_VIEWPORT_STATE_CREATE_INFO);
    viewport.viewportCount = viewport.scissorCount = 1;
    auto raster = blank<VkPipelineRasterizationStateCreateInfo>(VK_STRUCTURE_TYPE_PIPELINE_RASTERIZATION_STATE_CREATE_INFO);
    raster.lineWidth = 1.0F;
    const auto sampling = sample_state(samples);
    const auto tests = depth_state(depth != VK_FORMAT_UNDEFINED, depth_writes);
    const Blending blending(colors.size(), logic);
    const auto blend = blending.info();
    const VkDynamicState states[] = {VK_DYNAMIC_STATE_VIEWPORT, VK_DYNAMIC_STATE_SCISSOR};
    auto dynamic = blank<VkPipelineDynamicStateCreateInfo>(VK_STRUCTURE_TYPE_PIPELINE_DYNAMIC_STATE_CREATE_INFO);
    dynamic.dynamicStateCount = 2;
    dynamic.pDynamicStates = states;
    auto rendering = blank<VkPipelineRenderingCreateInfo>(VK_STRUCTURE_TYPE_PIPELINE_RENDERING_CREATE_INFO);
    rendering.colorAttachmentCount = static_cast<uint32_t>(colors.size());
    rendering.pColorAttachmentFormats = colors.data();
    rendering.depthAttachmentFormat = depth;

    auto info = blank<VkGraphicsPipelineCreateInfo>(VK_STRUCTURE_TYPE_GRAPHICS_PIPELINE_CREATE_INFO,
                                                    render_pass == VK_NULL_HANDLE ? &rendering : nullptr);
    info.stageCount = static_cast<uint32_t>(stages.size());
    info.pStages = stages.data();
    info.pVertexInputState = &input_info;
    info.pInputAssemblyState = &assembly;
    info.pViewportState = &viewport;
    info.pRasterizationState = &raster;
    info.pMultisampleState = &sampling;
    info.pDepthStencilState = &tests;
    info.pColorBlendState = &blend;
    info.pDynamicState = &dynamic;
    info.layout = layout;
    info.renderPass = render_pass;
    VkPipeline pipeline = VK_NULL_HANDLE;
    succeed(vkCreateGraphicsPipelines(device, VK_NULL_HANDLE, 1, &info, nullptr, &pipeline), "vkCreateGraphicsPipelines");
    return {device, pipeline};
}

void set_area(VkCommandBuffer commands, VkExtent2D image, VkRect2D part) {
    const VkViewport viewport{0, 0, static_cast<float>(image.width), static_cast<float>(image.height), 0, 1};
    vkCmdSetViewport(commands, 0, 1, &viewport);
    vkCmdSetScissor(commands, 0, 1, &part);
}

} // namespace replay
