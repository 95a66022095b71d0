#pragma once
#include "commands.hpp"

// How attachments are used by load and store operation.

struct AttachmentOperations {
    VkAttachmentLoadOp load;
    VkAttachmentStoreOp store;
};

// What the format cannot say of renderings.
constexpr const char *clears_a_part = "renderings that clear a part of an attachment: taken as clearing the whole";
constexpr const char *resolves_depth = "resolves of depth or stencil: left out";

bool is_read_only(VkImageLayout layout);

// The use of an attachment of colours.
Touch color_attachment(const ImageRange &range, VkImageLayout layout, VkAttachmentLoadOp load);
// Uses of a depth and stencil attachment: one where both aspects are used alike.
void add_depth_attachment(std::vector<Touch> &touches, const ImageRange &range, VkImageLayout depth_layout, VkImageLayout stencil_layout,
                          const AttachmentOperations &depth, const AttachmentOperations &stencil);

// The parts of a range that are of depth, and of stencil.
ImageRange depth_part(const ImageRange &range);
ImageRange stencil_part(const ImageRange &range);
