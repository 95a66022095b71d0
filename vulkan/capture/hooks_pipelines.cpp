// Shaders and pipelines: what they statically use of descriptors and vertex buffers.

#include <algorithm>

#include "chain.hpp"
#include "device.hpp"
#include "hooks.hpp"

namespace {

// A stage of shaders: as a stage of pipelines, and as SPIR-V's execution model.
struct ShaderStage {
    VkShaderStageFlagBits bit;
    VkPipelineStageFlags2 stage;
    uint32_t model;
};

constexpr ShaderStage shader_stages[] = {
    {VK_SHADER_STAGE_VERTEX_BIT, VK_PIPELINE_STAGE_2_VERTEX_SHADER_BIT, 0},
    {VK_SHADER_STAGE_TESSELLATION_CONTROL_BIT, VK_PIPELINE_STAGE_2_TESSELLATION_CONTROL_SHADER_BIT, 1},
    {VK_SHADER_STAGE_TESSELLATION_EVALUATION_BIT, VK_PIPELINE_STAGE_2_TESSELLATION_EVALUATION_SHADER_BIT, 2},
    {VK_SHADER_STAGE_GEOMETRY_BIT, VK_PIPELINE_STAGE_2_GEOMETRY_SHADER_BIT, 3},
    {VK_SHADER_STAGE_FRAGMENT_BIT, VK_PIPELINE_STAGE_2_FRAGMENT_SHADER_BIT, 4},
    {VK_SHADER_STAGE_COMPUTE_BIT, VK_PIPELINE_STAGE_2_COMPUTE_SHADER_BIT, 5},
    {VK_SHADER_STAGE_TASK_BIT_EXT, VK_PIPELINE_STAGE_2_TASK_SHADER_BIT_EXT, 5364},
    {VK_SHADER_STAGE_MESH_BIT_EXT, VK_PIPELINE_STAGE_2_MESH_SHADER_BIT_EXT, 5365},
};

const ShaderStage *stage_of(VkShaderStageFlagBits bit) {
    const auto *found = std::ranges::find(shader_stages, bit, &ShaderStage::bit);
    return found == std::end(shader_stages) ? nullptr : found;
}

void merge(std::vector<BindingUse> &uses, const BindingUse &more) {
    const auto same = std::ranges::find_if(
        uses, [&](const BindingUse &use) { return use.set == more.set && use.binding == more.binding && use.stages == more.stages; });
    if (same == uses.end()) {
        uses.push_back(more);
        return;
    }
    same->loads |= more.loads;
    same->stores |= more.stores;
}

void add_module(Device &layer, std::vector<BindingUse> &uses, const spirv::Module &module, const char *entry,
                VkShaderStageFlagBits bit) {
    const ShaderStage *stage = stage_of(bit);
    if (stage == nullptr) return;
    const spirv::Uses found = spirv::uses_of(module, entry, stage->model);
    if (found.addresses) layer.capture.summary.count("shaders that use buffer addresses: what is reached through them is not seen");
    for (const spirv::Use &use : found.of) merge(uses, {use.set, use.binding, stage->stage, use.loads, use.stores});
}

spirv::Module words_of(const void *code, size_t bytes) {
    const auto *words = static_cast<const uint32_t *>(code);
    return {words, words + bytes / sizeof(uint32_t)};
}

void add_stage(Device &layer, Pipeline &pipeline, const VkPipelineShaderStageCreateInfo &info) {
    pipeline.stages |= info.stage;
    if (const auto shader = layer.objects.shaders.find(info.module)) {
        add_module(layer, pipeline.uses, shader->module, info.pName, info.stage);
    } else if (const auto *given = in_chain<VkShaderModuleCreateInfo>(info.pNext, VK_STRUCTURE_TYPE_SHADER_MODULE_CREATE_INFO)) {
        add_module(layer, pipeline.uses, words_of(given->pCode, given->codeSize), info.pName, info.stage);
    } else {
        layer.capture.summary.count("shaders whose code is not given: what they use is not seen");
    }
}

void add_library(Pipeline &pipeline, const Pipeline &library) {
    pipeline.stages |= library.stages;
    pipeline.dynamic_vertex_input |= library.dynamic_vertex_input;
    for (const BindingUse &use : library.uses) merge(pipeline.uses, use);
    pipeline.vertex_bindings.insert(pipeline.vertex_bindings.end(), library.vertex_bindings.begin(), library.vertex_bindings.end());
}

void add_libraries(Device &layer, Pipeline &pipeline, const void *chain) {
    const auto *libraries = in_chain<VkPipelineLibraryCreateInfoKHR>(chain, VK_STRUCTURE_TYPE_PIPELINE_LIBRARY_CREATE_INFO_KHR);
    for (uint32_t place = 0; libraries != nullptr && place < libraries->libraryCount; ++place) {
        if (const auto library = layer.objects.pipelines.find(libraries->pLibraries[place])) add_library(pipeline, *library);
    }
}

// The vertex bindings that some attribute uses.
std::vector<uint32_t> used_bindings(const VkPipelineVertexInputStateCreateInfo &input) {
    std::vector<uint32_t> used;
    for (uint32_t place = 0; place < input.vertexAttributeDescriptionCount; ++place) {
        const uint32_t binding = input.pVertexAttributeDescriptions[place].binding;
        if (std::ranges::find(used, binding) == used.end()) used.push_back(binding);
    }
    return used;
}

// Which parts of a pipeline a library is of; all where it is no library. Parts that are not there
// may have dangling pointers.
VkGraphicsPipelineLibraryFlagsEXT parts_of(const VkGraphicsPipelineCreateInfo &info) {
    constexpr VkGraphicsPipelineLibraryFlagsEXT all = 0xf;
    if (const auto *library = in_chain<VkGraphicsPipelineLibraryCreateInfoEXT>(
            info.pNext, VK_STRUCTURE_TYPE_GRAPHICS_PIPELINE_LIBRARY_CREATE_INFO_EXT)) {
        return library->flags;
    }
    const auto *linked = in_chain<VkPipelineLibraryCreateInfoKHR>(info.pNext, VK_STRUCTURE_TYPE_PIPELINE_LIBRARY_CREATE_INFO_KHR);
    return linked != nullptr && linked->libraryCount > 0 ? 0 : all;
}

bool has_dynamic_vertex_input(const VkGraphicsPipelineCreateInfo &info) {
    const auto *dynamic = info.pDynamicState;
    if (dynamic == nullptr) return false;
    const auto *end = dynamic->pDynamicStates + dynamic->dynamicStateCount;
    return std::find(dynamic->pDynamicStates, end, VK_DYNAMIC_STATE_VERTEX_INPUT_EXT) != end;
}

void add_vertex_input(Pipeline &pipeline, const VkGraphicsPipelineCreateInfo &info) {
    pipeline.dynamic_vertex_input = has_dynamic_vertex_input(info);
    if (!pipeline.dynamic_vertex_input && info.pVertexInputState != nullptr) {
        pipeline.vertex_bindings = used_bindings(*info.pVertexInputState);
    }
}

Ref<Pipeline> make_pipeline(Device &layer, const VkGraphicsPipelineCreateInfo &info) {
    auto pipeline = std::make_shared<Pipeline>();
    const auto parts = parts_of(info);
    if (parts & VK_GRAPHICS_PIPELINE_LIBRARY_VERTEX_INPUT_INTERFACE_BIT_EXT) add_vertex_input(*pipeline, info);
    constexpr auto shaders =
        VK_GRAPHICS_PIPELINE_LIBRARY_PRE_RASTERIZATION_SHADERS_BIT_EXT | VK_GRAPHICS_PIPELINE_LIBRARY_FRAGMENT_SHADER_BIT_EXT;
    for (uint32_t place = 0; (parts & shaders) != 0 && place < info.stageCount; ++place) {
        add_stage(layer, *pipeline, info.pStages[place]);
    }
    add_libraries(layer, *pipeline, info.pNext);
    return pipeline;
}

}  // namespace

namespace hook {

void CreateShaderModule(Device &layer, VkResult result, VkDevice, const VkShaderModuleCreateInfo *pCreateInfo,
                        const VkAllocationCallbacks *, VkShaderModule *pShaderModule) {
    if (result != VK_SUCCESS) return;
    auto shader = std::make_shared<Shader>();
    shader->module = words_of(pCreateInfo->pCode, pCreateInfo->codeSize);
    layer.objects.shaders.add(*pShaderModule, shader);
}

void DestroyShaderModule(Device &layer, VkDevice, VkShaderModule shaderModule, const VkAllocationCallbacks *) {
    layer.objects.shaders.remove(shaderModule);
}

void CreateGraphicsPipelines(Device &layer, VkResult, VkDevice, VkPipelineCache, uint32_t createInfoCount,
                             const VkGraphicsPipelineCreateInfo *pCreateInfos, const VkAllocationCallbacks *, VkPipeline *pPipelines) {
    for (uint32_t place = 0; place < createInfoCount; ++place) {
        if (pPipelines[place] != VK_NULL_HANDLE) layer.objects.pipelines.add(pPipelines[place], make_pipeline(layer, pCreateInfos[place]));
    }
}

void CreateComputePipelines(Device &layer, VkResult, VkDevice, VkPipelineCache, uint32_t createInfoCount,
                            const VkComputePipelineCreateInfo *pCreateInfos, const VkAllocationCallbacks *, VkPipeline *pPipelines) {
    for (uint32_t place = 0; place < createInfoCount; ++place) {
        if (pPipelines[place] == VK_NULL_HANDLE) continue;
        auto pipeline = std::make_shared<Pipeline>();
        add_stage(layer, *pipeline, pCreateInfos[place].stage);
        layer.objects.pipelines.add(pPipelines[place], pipeline);
    }
}

void DestroyPipeline(Device &layer, VkDevice, VkPipeline pipeline, const VkAllocationCallbacks *) {
    layer.objects.pipelines.remove(pipeline);
}

#ifdef VK_EXT_shader_object
void CreateShadersEXT(Device &layer, VkResult, VkDevice, uint32_t createInfoCount, const VkShaderCreateInfoEXT *pCreateInfos,
                      const VkAllocationCallbacks *, VkShaderEXT *pShaders) {
    for (uint32_t place = 0; place < createInfoCount; ++place) {
        if (pShaders[place] == VK_NULL_HANDLE) continue;
        const VkShaderCreateInfoEXT &info = pCreateInfos[place];
        auto shader = std::make_shared<ShaderObject>();
        shader->stage = info.stage;
        if (info.codeType == VK_SHADER_CODE_TYPE_SPIRV_EXT) {
            add_module(layer, shader->uses, words_of(info.pCode, info.codeSize), info.pName, info.stage);
        } else {
            layer.capture.summary.count("shaders whose code is not given: what they use is not seen");
        }
        layer.objects.shader_objects.add(pShaders[place], shader);
    }
}

void DestroyShaderEXT(Device &layer, VkDevice, VkShaderEXT shader, const VkAllocationCallbacks *) {
    layer.objects.shader_objects.remove(shader);
}
#endif

}  // namespace hook
