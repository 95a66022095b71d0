#include "kernel_text.hpp"
#include "operations.hpp"

namespace replay {

namespace {

Binding binding_of(Context &context, PieceNumber piece, bool stored) {
    Binding binding{VK_DESCRIPTOR_TYPE_STORAGE_BUFFER, VK_SHADER_STAGE_COMPUTE_BIT};
    if (!context.resources.is_image(piece)) {
        binding.buffer = {context.resources.buffer(piece).buffer.get(), 0, VK_WHOLE_SIZE};
        return binding;
    }
    const VkImageView view = context.resources.image(piece).view.get();
    binding.type = stored ? VK_DESCRIPTOR_TYPE_STORAGE_IMAGE : VK_DESCRIPTOR_TYPE_COMBINED_IMAGE_SAMPLER;
    binding.image = stored ? VkDescriptorImageInfo{VK_NULL_HANDLE, view, VK_IMAGE_LAYOUT_GENERAL}
                           : VkDescriptorImageInfo{context.nearest(), view, VK_IMAGE_LAYOUT_SHADER_READ_ONLY_OPTIMAL};
    return binding;
}

VkExtent2D grid_of(const Piece &piece) {
    return piece.is_image() ? VkExtent2D{piece.width, piece.height} : VkExtent2D{static_cast<uint32_t>(piece.bytes / 4), 1};
}

// The shaders do not look where texels are not.
void test_fit(const Kernel &kernel, const Program &program) {
    const Piece &destination = program.pieces[kernel.destination];
    const bool images = kernel.kind == KernelKind::convert || kernel.kind == KernelKind::box3 || kernel.kind == KernelKind::halve;
    bool fits = images ? destination.is_image() : true;
    for (const PieceNumber number : kernel.sources) {
        const Piece &source = program.pieces[number];
        const VkExtent2D from = grid_of(source), to = grid_of(destination);
        if (kernel.kind == KernelKind::histogram) {
            fits &= source.is_image() && source.texel == Texel::r8 && !destination.is_image() && destination.bytes == 1024;
        } else if (kernel.kind == KernelKind::halve) {
            fits &= source.is_image() && from.width == 2 * to.width && from.height == 2 * to.height;
        } else {
            fits &= (!images || source.is_image()) && from.width == to.width && from.height == to.height;
        }
    }
    if (!fits || grid_of(destination).width == 0)
        throw Ended(Ending::refused, "the operation does not fit its pieces");
}

uint32_t groups(uint32_t texels, uint32_t side) { return (texels + side - 1) / side; }

VkPipeline pipeline_of(Context &context, const std::string &text, const BoundSet &set) {
    VkPipeline &kept = context.kept_pipelines[text];
    if (kept == VK_NULL_HANDLE) {
        const VkShaderModule shader = context.shaders.module(VK_SHADER_STAGE_COMPUTE_BIT, text);
        context.pipelines.push_back(compute_pipeline(context.device.get(), set.layout(), shader));
        kept = context.pipelines.back().get();
    }
    return kept;
}

} // namespace

void record(Context &context, VkCommandBuffer commands, const Kernel &kernel) {
    test_fit(kernel, context.program);
    std::vector<Binding> bindings;
    for (const PieceNumber source : kernel.sources)
        bindings.push_back(binding_of(context, source, false));
    bindings.push_back(binding_of(context, kernel.destination, true));
    constexpr auto bytes = static_cast<uint32_t>(sizeof(KernelConstants));
    const BoundSet &set = context.sets.emplace_back(context.device.get(), bindings, VK_SHADER_STAGE_COMPUTE_BIT, bytes);
    const VkPipeline pipeline = pipeline_of(context, kernel_text(kernel, context.program), set);

    const Piece &destination = context.program.pieces[kernel.destination];
    const bool counts = kernel.kind == KernelKind::histogram;
    const VkExtent2D grid = grid_of(counts ? context.program.pieces[kernel.sources.at(0)] : destination);
    const auto &numbers = kernel.numbers;
    const KernelConstants constants{numbers.base, numbers.dx, numbers.dy, numbers.value, grid.width, grid.height};
    vkCmdBindPipeline(commands, VK_PIPELINE_BIND_POINT_COMPUTE, pipeline);
    set.bind(commands, VK_PIPELINE_BIND_POINT_COMPUTE);
    vkCmdPushConstants(commands, set.layout(), VK_SHADER_STAGE_COMPUTE_BIT, 0, sizeof constants, &constants);
    if (counts) {
        vkCmdDispatch(commands, 1, 1, 1);
    } else if (destination.is_image()) {
        vkCmdDispatch(commands, groups(grid.width, kernel_side), groups(grid.height, kernel_side), 1);
    } else {
        vkCmdDispatch(commands, groups(grid.width, kernel_line), 1, 1);
    }
}

} // namespace replay
