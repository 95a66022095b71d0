#include "attachments.hpp"

#include <algorithm>
#include <array>

namespace replay {

namespace {

VkRenderingAttachmentInfo dynamic_info(const Attachment &attachment) {
    auto info = blank<VkRenderingAttachmentInfo>(VK_STRUCTURE_TYPE_RENDERING_ATTACHMENT_INFO);
    info.imageView = attachment.image->view.get();
    info.imageLayout = attachment.use.layout;
    info.loadOp = attachment.load();
    info.storeOp = attachment.store();
    return info;
}

// All attachments of a render pass, each image once, with the references of its one subpass.
class PassParts {
  public:
    PassParts(const Attachments &attachments, bool load_none) : load_none(load_none) {
        for (const Attachment &color : attachments.colors)
            colors.push_back(reference(color));
        for (const Attachment &depth : attachments.depths)
            depths.push_back(reference(depth));
        for (const Attachment &input : attachments.inputs)
            inputs.push_back(reference(input));
    }

    std::vector<VkAttachmentDescription2> descriptions;
    std::vector<VkImageView> views;
    std::vector<VkAttachmentReference2> colors, depths, inputs;

  private:
    VkAttachmentReference2 reference(const Attachment &attachment) {
        const VkImageView view = attachment.image->view.get();
        const auto found = std::find(views.begin(), views.end(), view);
        const auto number = static_cast<uint32_t>(found - views.begin());
        if (found == views.end()) {
            views.push_back(view);
            descriptions.push_back(description(attachment));
        }
        auto made = blank<VkAttachmentReference2>(VK_STRUCTURE_TYPE_ATTACHMENT_REFERENCE_2);
        made.attachment = number;
        made.layout = attachment.use.layout;
        made.aspectMask = attachment.image->kind.aspect();
        return made;
    }

    VkAttachmentDescription2 description(const Attachment &attachment) const {
        auto made = blank<VkAttachmentDescription2>(VK_STRUCTURE_TYPE_ATTACHMENT_DESCRIPTION_2);
        made.format = attachment.image->kind.format;
        made.samples = attachment.image->kind.samples;
        made.loadOp = attachment.load();
        if (made.loadOp == VK_ATTACHMENT_LOAD_OP_NONE_EXT && !load_none)
            made.loadOp = VK_ATTACHMENT_LOAD_OP_LOAD;
        made.storeOp = attachment.store();
        made.stencilLoadOp = VK_ATTACHMENT_LOAD_OP_DONT_CARE;
        made.stencilStoreOp = VK_ATTACHMENT_STORE_OP_DONT_CARE;
        made.initialLayout = made.finalLayout = attachment.use.layout;
        return made;
    }

    bool load_none;
};

// Dependencies to and from the outside that order nothing, in the place of those that stand where none is told.
class NoDependencies {
  public:
    NoDependencies() : nothing(blank<VkMemoryBarrier2>(VK_STRUCTURE_TYPE_MEMORY_BARRIER_2)) {
        both[0] = both[1] = blank<VkSubpassDependency2>(VK_STRUCTURE_TYPE_SUBPASS_DEPENDENCY_2, &nothing);
        both[0].srcSubpass = both[1].dstSubpass = VK_SUBPASS_EXTERNAL;
    }
    NoDependencies(const NoDependencies &) = delete;
    NoDependencies &operator=(const NoDependencies &) = delete;

    std::array<VkSubpassDependency2, 2> both;

  private:
    VkMemoryBarrier2 nothing;
};

VkRenderPass made_pass(Context &context, const PassParts &parts) {
    auto subpass = blank<VkSubpassDescription2>(VK_STRUCTURE_TYPE_SUBPASS_DESCRIPTION_2);
    subpass.pipelineBindPoint = VK_PIPELINE_BIND_POINT_GRAPHICS;
    subpass.colorAttachmentCount = static_cast<uint32_t>(parts.colors.size());
    subpass.pColorAttachments = parts.colors.data();
    subpass.inputAttachmentCount = static_cast<uint32_t>(parts.inputs.size());
    subpass.pInputAttachments = parts.inputs.data();
    subpass.pDepthStencilAttachment = parts.depths.empty() ? nullptr : parts.depths.data();
    const NoDependencies dependencies;
    auto info = blank<VkRenderPassCreateInfo2>(VK_STRUCTURE_TYPE_RENDER_PASS_CREATE_INFO_2);
    info.attachmentCount = static_cast<uint32_t>(parts.descriptions.size());
    info.pAttachments = parts.descriptions.data();
    info.subpassCount = 1;
    info.pSubpasses = &subpass;
    info.dependencyCount = static_cast<uint32_t>(dependencies.both.size());
    info.pDependencies = dependencies.both.data();
    context.passes.push_back(made<OwnedRenderPass>(context.device.get(), vkCreateRenderPass2, info, "vkCreateRenderPass2"));
    return context.passes.back().get();
}

} // namespace

VkAttachmentLoadOp Attachment::load() const {
    if (use.role == Role::input)
        return VK_ATTACHMENT_LOAD_OP_NONE_EXT;
    return use.role == Role::depth_read || use.keeps ? VK_ATTACHMENT_LOAD_OP_LOAD : VK_ATTACHMENT_LOAD_OP_CLEAR;
}

VkAttachmentStoreOp Attachment::store() const {
    return use.role == Role::input || use.role == Role::depth_read ? VK_ATTACHMENT_STORE_OP_NONE : VK_ATTACHMENT_STORE_OP_STORE;
}

Attachments::Attachments(const Context &context, const std::vector<Use> &uses) {
    area = {UINT32_MAX, UINT32_MAX};
    for (const Use &use : uses) {
        std::vector<Attachment> *list = use.role == Role::color                                    ? &colors
                                        : use.role == Role::depth || use.role == Role::depth_read ? &depths
                                        : use.role == Role::input                                 ? &inputs
                                                                                                  : nullptr;
        if (list == nullptr)
            continue;
        const ImageResource &image = context.resources.image(use.piece);
        list->push_back({use, &image});
        area = {std::min(area.width, image.kind.extent.width), std::min(area.height, image.kind.extent.height)};
        if (use.role != Role::input)
            samples = image.kind.samples;
    }
    if (area.width == UINT32_MAX)
        area = {1, 1};
}

std::vector<Channel> Attachments::channels() const {
    std::vector<Channel> found;
    for (const Attachment &color : colors)
        found.push_back(color.image->kind.channel());
    return found;
}

Rendering::Rendering(Context &context, const Attachments &attachments) : attachments(attachments) {
    if (!attachments.inputs.empty())
        make_pass(context);
}

void Rendering::make_pass(Context &context) {
    if (!context.device.has_load_none())
        context.note("the device cannot leave input attachments unloaded, so they are loaded as attachments too");
    const PassParts parts(attachments, context.device.has_load_none());
    render_pass = made_pass(context, parts);
    auto info = blank<VkFramebufferCreateInfo>(VK_STRUCTURE_TYPE_FRAMEBUFFER_CREATE_INFO);
    info.renderPass = render_pass;
    info.attachmentCount = static_cast<uint32_t>(parts.views.size());
    info.pAttachments = parts.views.data();
    info.width = attachments.area.width;
    info.height = attachments.area.height;
    info.layers = 1;
    context.framebuffers.push_back(made<OwnedFramebuffer>(context.device.get(), vkCreateFramebuffer, info, "vkCreateFramebuffer"));
    framebuffer = context.framebuffers.back().get();
}

void Rendering::begin_dynamic(VkCommandBuffer commands) const {
    std::vector<VkRenderingAttachmentInfo> colors, depths;
    for (const Attachment &color : attachments.colors)
        colors.push_back(dynamic_info(color));
    for (const Attachment &depth : attachments.depths)
        depths.push_back(dynamic_info(depth));
    auto info = blank<VkRenderingInfo>(VK_STRUCTURE_TYPE_RENDERING_INFO);
    info.renderArea.extent = attachments.area;
    info.layerCount = 1;
    info.colorAttachmentCount = static_cast<uint32_t>(colors.size());
    info.pColorAttachments = colors.data();
    info.pDepthAttachment = depths.empty() ? nullptr : depths.data();
    vkCmdBeginRendering(commands, &info);
}

void Rendering::begin(VkCommandBuffer commands) const {
    if (render_pass == VK_NULL_HANDLE) {
        begin_dynamic(commands);
        return;
    }
    const size_t most = attachments.colors.size() + attachments.depths.size() + attachments.inputs.size();
    const std::vector<VkClearValue> clears(most);
    auto info = blank<VkRenderPassBeginInfo>(VK_STRUCTURE_TYPE_RENDER_PASS_BEGIN_INFO);
    info.renderPass = render_pass;
    info.framebuffer = framebuffer;
    info.renderArea.extent = attachments.area;
    info.clearValueCount = static_cast<uint32_t>(clears.size());
    info.pClearValues = clears.data();
    vkCmdBeginRenderPass(commands, &info, VK_SUBPASS_CONTENTS_INLINE);
}

void Rendering::end(VkCommandBuffer commands) const {
    if (render_pass == VK_NULL_HANDLE) {
        vkCmdEndRendering(commands);
    } else {
        vkCmdEndRenderPass(commands);
    }
}

} // namespace replay
