#include "attachments.hpp"

namespace {

ImageRange part(const ImageRange &range, VkImageAspectFlagBits aspect) {
    ImageRange some = range;
    some.aspects = 0;
    for (size_t place = 0; range.image && place < range.image->aspects.size(); ++place) {
        if (range.image->aspects[place] == aspect) some.aspects |= range.aspects & (1U << place);
    }
    return some;
}

// Whether an operation leaves out what is in the attachment before.
bool throws_away(VkAttachmentLoadOp load) { return load == VK_ATTACHMENT_LOAD_OP_CLEAR || load == VK_ATTACHMENT_LOAD_OP_DONT_CARE; }

Touch depth_attachment(const ImageRange &range, VkImageLayout layout, const AttachmentOperations &operations) {
    const bool stores_nothing = operations.store == VK_ATTACHMENT_STORE_OP_NONE && !throws_away(operations.load);
    Touch touch{range, Role::depth, 0, layout, throws_away(operations.load), nullptr};
    if (stores_nothing || is_read_only(layout)) touch.role = Role::depth_read;
    if (!stores_nothing && is_read_only(layout)) touch.remark = "depth or stencil stored in a layout for reading: taken as read alone";
    return touch;
}

}  // namespace

bool is_read_only(VkImageLayout layout) {
    switch (layout) {
    case VK_IMAGE_LAYOUT_DEPTH_STENCIL_READ_ONLY_OPTIMAL:
    case VK_IMAGE_LAYOUT_DEPTH_READ_ONLY_OPTIMAL:
    case VK_IMAGE_LAYOUT_STENCIL_READ_ONLY_OPTIMAL:
    case VK_IMAGE_LAYOUT_READ_ONLY_OPTIMAL:
    case VK_IMAGE_LAYOUT_SHADER_READ_ONLY_OPTIMAL: return true;
    default: return false;
    }
}

ImageRange depth_part(const ImageRange &range) { return part(range, VK_IMAGE_ASPECT_DEPTH_BIT); }
ImageRange stencil_part(const ImageRange &range) { return part(range, VK_IMAGE_ASPECT_STENCIL_BIT); }

Touch color_attachment(const ImageRange &range, VkImageLayout layout, VkAttachmentLoadOp load) {
    return {range, Role::color, 0, layout, throws_away(load), nullptr};
}

void add_depth_attachment(std::vector<Touch> &touches, const ImageRange &range, VkImageLayout depth_layout, VkImageLayout stencil_layout,
                          const AttachmentOperations &depth, const AttachmentOperations &stencil) {
    const Touch of_depth = depth_attachment(depth_part(range), depth_layout, depth);
    const Touch of_stencil = depth_attachment(stencil_part(range), stencil_layout, stencil);
    const bool has_depth = std::get<ImageRange>(of_depth.where).aspects != 0;
    const bool has_stencil = std::get<ImageRange>(of_stencil.where).aspects != 0;
    const bool alike = of_depth.role == of_stencil.role && of_depth.layout == of_stencil.layout && of_depth.whole == of_stencil.whole;
    if (has_depth && has_stencil && alike) {
        Touch both = of_depth;
        std::get<ImageRange>(both.where).aspects |= std::get<ImageRange>(of_stencil.where).aspects;
        touches.push_back(both);
        return;
    }
    if (has_depth) touches.push_back(of_depth);
    if (has_stencil) touches.push_back(of_stencil);
}
