// Render passes and dynamic rendering.

#include <span>

#include "attachments.hpp"
#include "chain.hpp"
#include "hooks.hpp"
#include "ranges.hpp"
#include "recorder.hpp"

namespace {

VkExtent2D extent_of(const ImageRange &range) {
    const VkExtent3D &extent = range.image->extent;
    return {std::max(extent.width >> range.first_mip, 1U), std::max(extent.height >> range.first_mip, 1U)};
}

bool covers(const VkRect2D &area, const VkExtent2D &extent) {
    return area.offset.x == 0 && area.offset.y == 0 && area.extent.width >= extent.width && area.extent.height >= extent.height;
}

// The attachments of one call of dynamic rendering.
class Attachments {
  public:
    Attachments(Device &layer, const VkRenderingInfo &info) : layer(layer), info(info) {
        for (const auto &color : std::span(info.pColorAttachments, info.colorAttachmentCount)) add_color(color);
        add_depth();
    }

    BeginRendering begin() && { return std::move(made); }

  private:
    ImageRange range_of_view(VkImageView handle) {
        const auto view = layer.objects.image_views.find(handle);
        if (!view) return {};
        ImageRange range = view->range;
        // A rendering of one layer touches the first one of the view alone.
        if (info.viewMask == 0 && info.layerCount < range.layers) range.layers = info.layerCount;
        return range;
    }

    void note_area(const ImageRange &range, VkAttachmentLoadOp load) {
        const bool is_part = load == VK_ATTACHMENT_LOAD_OP_CLEAR && !covers(info.renderArea, extent_of(range));
        if (is_part) made.remarks.push_back(clears_a_part);
    }

    void add_color(const VkRenderingAttachmentInfo &color) {
        const ImageRange range = range_of_view(color.imageView);
        if (!range.image) return;
        note_area(range, color.loadOp);
        made.attachments.push_back(color_attachment(range, color.imageLayout, color.loadOp));
        const ImageRange resolve = color.resolveMode == VK_RESOLVE_MODE_NONE ? ImageRange{} : range_of_view(color.resolveImageView);
        if (resolve.image) {
            made.attachments.push_back(color_attachment(resolve, color.resolveImageLayout, VK_ATTACHMENT_LOAD_OP_DONT_CARE));
        }
    }

    void add_depth() {
        const VkRenderingAttachmentInfo none{};
        const auto &depth = info.pDepthAttachment != nullptr ? *info.pDepthAttachment : none;
        const auto &stencil = info.pStencilAttachment != nullptr ? *info.pStencilAttachment : none;
        const ImageRange of_depth = depth_part(range_of_view(depth.imageView));
        const ImageRange of_stencil = stencil_part(range_of_view(stencil.imageView));
        ImageRange both = of_depth.image ? of_depth : of_stencil;
        if (!both.image) return;
        note_area(both, of_depth.image ? depth.loadOp : stencil.loadOp);
        if (of_depth.image && of_stencil.image == of_depth.image) both.aspects |= of_stencil.aspects;
        add_depth_attachment(made.attachments, both, depth.imageLayout, stencil.imageLayout, {depth.loadOp, depth.storeOp},
                             {stencil.loadOp, stencil.storeOp});
        const bool resolves = depth.resolveMode != VK_RESOLVE_MODE_NONE || stencil.resolveMode != VK_RESOLVE_MODE_NONE;
        if (resolves) made.remarks.push_back(resolves_depth);
    }

    Device &layer;
    const VkRenderingInfo &info;
    BeginRendering made;
};

std::vector<Ref<ImageView>> views_of(Device &layer, const VkRenderPassBeginInfo &info) {
    const auto *given = in_chain<VkRenderPassAttachmentBeginInfo>(info.pNext, VK_STRUCTURE_TYPE_RENDER_PASS_ATTACHMENT_BEGIN_INFO);
    if (given != nullptr && given->attachmentCount > 0) {
        std::vector<Ref<ImageView>> views;
        for (const VkImageView view : std::span(given->pAttachments, given->attachmentCount)) {
            views.push_back(layer.objects.image_views.find(view));
        }
        return views;
    }
    const auto framebuffer = layer.objects.framebuffers.find(info.framebuffer);
    return framebuffer ? framebuffer->attachments : std::vector<Ref<ImageView>>{};
}

bool clears_partly(const RenderPass &pass, const std::vector<Ref<ImageView>> &views, const VkRect2D &area) {
    for (size_t place = 0; place < views.size() && place < pass.attachments.size(); ++place) {
        if (!views[place] || pass.attachments[place].load != VK_ATTACHMENT_LOAD_OP_CLEAR) continue;
        if (!covers(area, extent_of(views[place]->range))) return true;
    }
    return false;
}

void begin_pass(Device &layer, VkCommandBuffer commandBuffer, const VkRenderPassBeginInfo &info) {
    const auto buffer = buffer_of(layer, commandBuffer);
    const auto pass = layer.objects.render_passes.find(info.renderPass);
    if (!buffer || !pass) return;
    buffer->pass = pass;
    buffer->pass_attachments = views_of(layer, info);
    BeginRenderPass begin{pass, buffer->pass_attachments, {}};
    if (clears_partly(*pass, buffer->pass_attachments, info.renderArea)) begin.remarks.push_back(clears_a_part);
    record(*buffer, std::move(begin));
}

void end_pass(Device &layer, VkCommandBuffer commandBuffer) {
    const auto buffer = buffer_of(layer, commandBuffer);
    if (!buffer || !buffer->pass) return;
    for (size_t place = 0; place < buffer->pass->attachments.size() && place < buffer->pass_attachments.size(); ++place) {
        const auto &attachment = buffer->pass->attachments[place];
        const auto &view = buffer->pass_attachments[place];
        if (!view) continue;
        const ImageRange &range = view->range;
        const ImageRange stencil = stencil_part(range);
        ImageRange rest = range;
        rest.aspects &= ~stencil.aspects;
        if (rest.aspects != 0) buffer->recording->layouts.push_back({rest, attachment.final});
        if (stencil.aspects != 0) buffer->recording->layouts.push_back({stencil, attachment.stencil_final});
    }
    buffer->pass = nullptr;
    record(*buffer, EndRenderPass{});
}

}  // namespace

namespace hook {

void CmdBeginRendering(Device &layer, VkCommandBuffer commandBuffer, const VkRenderingInfo *pRenderingInfo) {
    const auto buffer = buffer_of(layer, commandBuffer);
    if (!buffer) return;
    BeginRendering begin = Attachments(layer, *pRenderingInfo).begin();
    begin.resumes = (pRenderingInfo->flags & VK_RENDERING_RESUMING_BIT) != 0;
    buffer->suspends = pRenderingInfo->flags & VK_RENDERING_SUSPENDING_BIT;
    record(*buffer, std::move(begin));
}

void CmdEndRendering(Device &layer, VkCommandBuffer commandBuffer) {
    if (const auto buffer = buffer_of(layer, commandBuffer)) record(*buffer, EndRendering{buffer->suspends != 0});
}

void CmdBeginRenderPass(Device &layer, VkCommandBuffer commandBuffer, const VkRenderPassBeginInfo *pRenderPassBegin, VkSubpassContents) {
    begin_pass(layer, commandBuffer, *pRenderPassBegin);
}

void CmdBeginRenderPass2(Device &layer, VkCommandBuffer commandBuffer, const VkRenderPassBeginInfo *pRenderPassBegin,
                         const VkSubpassBeginInfo *) {
    begin_pass(layer, commandBuffer, *pRenderPassBegin);
}

void CmdNextSubpass(Device &layer, VkCommandBuffer commandBuffer, VkSubpassContents) { record(layer, commandBuffer, NextSubpass{}); }

void CmdNextSubpass2(Device &layer, VkCommandBuffer commandBuffer, const VkSubpassBeginInfo *, const VkSubpassEndInfo *) {
    record(layer, commandBuffer, NextSubpass{});
}

void CmdEndRenderPass(Device &layer, VkCommandBuffer commandBuffer) { end_pass(layer, commandBuffer); }

void CmdEndRenderPass2(Device &layer, VkCommandBuffer commandBuffer, const VkSubpassEndInfo *) { end_pass(layer, commandBuffer); }

void CmdExecuteCommands(Device &layer, VkCommandBuffer commandBuffer, uint32_t commandBufferCount, const VkCommandBuffer *pCommandBuffers) {
    const auto buffer = buffer_of(layer, commandBuffer);
    if (!buffer) return;
    Execute execute;
    for (const VkCommandBuffer handle : std::span(pCommandBuffers, commandBufferCount)) {
        const auto secondary = buffer_of(layer, handle);
        if (!secondary) continue;
        const auto &layouts = secondary->recording->layouts;
        buffer->recording->layouts.insert(buffer->recording->layouts.end(), layouts.begin(), layouts.end());
        execute.recordings.push_back(secondary->recording);
    }
    record(*buffer, std::move(execute));
    // What was bound is bound no more.
    buffer->bound.clear();
    buffer->recorded.clear();
}

void CmdBeginDebugUtilsLabelEXT(Device &layer, VkCommandBuffer commandBuffer, const VkDebugUtilsLabelEXT *pLabelInfo) {
    record(layer, commandBuffer, BeginLabel{pLabelInfo->pLabelName});
}

void CmdEndDebugUtilsLabelEXT(Device &layer, VkCommandBuffer commandBuffer) { record(layer, commandBuffer, EndLabel{}); }

}  // namespace hook
