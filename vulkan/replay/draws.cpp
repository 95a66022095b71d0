#include "graphics.hpp"
#include "operations.hpp"

namespace replay {

namespace {

// One triangle that covers every rectangle.
constexpr const char *vertex_text = R"(#version 460
void main() {
    vec2 corner = vec2(gl_VertexIndex == 1 ? 3.0 : -1.0, gl_VertexIndex == 2 ? 3.0 : -1.0);
    gl_Position = vec4(corner, 0.0, 1.0);
}
)";

constexpr const char *fragment_text = R"(#version 460
layout(push_constant) uniform Numbers { uint value; } numbers;
layout(location = 0) out uvec4 texel;
void main() { texel = uvec4(numbers.value); }
)";

uint32_t cut(VkFormat format, uint32_t value) { return format == VK_FORMAT_R8_UINT ? value & 0xFF : value; }

VkRect2D area_of(const Rectangle &rectangle) {
    return {{static_cast<int32_t>(rectangle.x), static_cast<int32_t>(rectangle.y)}, {rectangle.width, rectangle.height}};
}

VkLogicOp logic_of(Mix mix) {
    return mix == Mix::bit_and ? VK_LOGIC_OP_AND : mix == Mix::bit_or ? VK_LOGIC_OP_OR : VK_LOGIC_OP_XOR;
}

void begin(VkCommandBuffer commands, const ImageResource &image, const Draw &draw) {
    auto color = blank<VkRenderingAttachmentInfo>(VK_STRUCTURE_TYPE_RENDERING_ATTACHMENT_INFO);
    color.imageView = image.view.get();
    color.imageLayout = VK_IMAGE_LAYOUT_COLOR_ATTACHMENT_OPTIMAL;
    color.loadOp = draw.clear ? VK_ATTACHMENT_LOAD_OP_CLEAR : VK_ATTACHMENT_LOAD_OP_LOAD;
    color.storeOp = VK_ATTACHMENT_STORE_OP_STORE;
    color.clearValue.color.uint32[0] = cut(image.kind.format, draw.clear.value_or(0));
    auto info = blank<VkRenderingInfo>(VK_STRUCTURE_TYPE_RENDERING_INFO);
    info.renderArea.extent = image.kind.extent;
    info.layerCount = 1;
    info.colorAttachmentCount = 1;
    info.pColorAttachments = &color;
    vkCmdBeginRendering(commands, &info);
}

void set_rectangle(VkCommandBuffer commands, const ImageResource &image, const Rectangle &rectangle) {
    VkClearAttachment clear{VK_IMAGE_ASPECT_COLOR_BIT, 0, {}};
    clear.clearValue.color.uint32[0] = cut(image.kind.format, rectangle.value);
    const VkClearRect area{area_of(rectangle), 0, 1};
    vkCmdClearAttachments(commands, 1, &clear, 1, &area);
}

class Mixer {
  public:
    Mixer(Context &context, VkCommandBuffer commands, const ImageResource &image) : context(context), commands(commands), image(image) {}

    void mix(const Rectangle &rectangle) {
        if (!context.device.features().logicOp)
            throw Ended(Ending::refused, "the device has no logic operations");
        if (set == nullptr)
            set = &context.sets.emplace_back(context.device.get(), std::vector<Binding>(), VK_SHADER_STAGE_FRAGMENT_BIT,
                                             static_cast<uint32_t>(sizeof(uint32_t)));
        const uint32_t value = cut(image.kind.format, rectangle.value);
        vkCmdBindPipeline(commands, VK_PIPELINE_BIND_POINT_GRAPHICS, pipeline(logic_of(rectangle.mix)));
        set_area(commands, image.kind.extent, area_of(rectangle));
        vkCmdPushConstants(commands, set->layout(), VK_SHADER_STAGE_FRAGMENT_BIT, 0, sizeof value, &value);
        vkCmdDraw(commands, 3, 1, 0, 0);
    }

  private:
    VkPipeline pipeline(VkLogicOp logic) {
        VkPipeline &kept = context.kept_pipelines["mix " + std::to_string(logic) + " " + std::to_string(image.kind.format)];
        if (kept == VK_NULL_HANDLE) {
            GraphicsPipeline wanted;
            wanted.layout = set->layout();
            wanted.vertex = context.shaders.module(VK_SHADER_STAGE_VERTEX_BIT, vertex_text);
            wanted.fragment = context.shaders.module(VK_SHADER_STAGE_FRAGMENT_BIT, fragment_text);
            wanted.colors = {image.kind.format};
            wanted.logic = logic;
            context.pipelines.push_back(wanted.make(context.device.get()));
            kept = context.pipelines.back().get();
        }
        return kept;
    }

    Context &context;
    VkCommandBuffer commands;
    const ImageResource &image;
    const BoundSet *set = nullptr;
};

} // namespace

void record(Context &context, VkCommandBuffer commands, const Draw &draw) {
    const ImageResource &image = context.resources.image(draw.destination);
    Mixer mixer(context, commands, image);
    begin(commands, image, draw);
    for (const Rectangle &rectangle : draw.rectangles)
        if (rectangle.mix == Mix::set) {
            set_rectangle(commands, image, rectangle);
        } else {
            mixer.mix(rectangle);
        }
    vkCmdEndRendering(commands);
}

} // namespace replay
