// Render passes and framebuffers.

#include "chain.hpp"
#include "device.hpp"
#include "hooks.hpp"

namespace {

template <class Description> RenderPass::Attachment attachment_of(const Description &from) {
    return {from.loadOp, from.stencilLoadOp, from.storeOp, from.stencilStoreOp,
            from.initialLayout, from.finalLayout, from.initialLayout, from.finalLayout};
}

RenderPass::Reference reference_of(const VkAttachmentReference *from) {
    return from == nullptr ? RenderPass::Reference{} : RenderPass::Reference{from->attachment, from->layout, from->layout};
}

RenderPass::Reference reference_of(const VkAttachmentReference2 *from) {
    if (from == nullptr) return {};
    RenderPass::Reference reference{from->attachment, from->layout, from->layout};
    if (const auto *stencil = in_chain<VkAttachmentReferenceStencilLayout>(
            from->pNext, VK_STRUCTURE_TYPE_ATTACHMENT_REFERENCE_STENCIL_LAYOUT)) {
        reference.stencil_layout = stencil->stencilLayout;
    }
    return reference;
}

template <class Reference> std::vector<RenderPass::Reference> references_of(uint32_t count, const Reference *from) {
    std::vector<RenderPass::Reference> references;
    for (uint32_t place = 0; from != nullptr && place < count; ++place) references.push_back(reference_of(&from[place]));
    return references;
}

template <class Description> RenderPass::Subpass subpass_of(const Description &from) {
    RenderPass::Subpass subpass;
    subpass.inputs = references_of(from.inputAttachmentCount, from.pInputAttachments);
    subpass.colors = references_of(from.colorAttachmentCount, from.pColorAttachments);
    subpass.resolves = references_of(from.colorAttachmentCount, from.pResolveAttachments);
    subpass.depth = reference_of(from.pDepthStencilAttachment);
    return subpass;
}

template <class Info> Ref<RenderPass> make_render_pass(const Info &info) {
    auto pass = std::make_shared<RenderPass>();
    for (uint32_t place = 0; place < info.attachmentCount; ++place) pass->attachments.push_back(attachment_of(info.pAttachments[place]));
    for (uint32_t place = 0; place < info.subpassCount; ++place) pass->subpasses.push_back(subpass_of(info.pSubpasses[place]));
    for (uint32_t place = 0; place < info.dependencyCount; ++place) {
        const auto &from = info.pDependencies[place];
        pass->dependencies.push_back(
            {from.srcSubpass, from.dstSubpass, from.srcStageMask, from.dstStageMask, from.srcAccessMask, from.dstAccessMask});
    }
    return pass;
}

// What chained structures of the newer call say beyond the older one.
void add_chained(RenderPass &pass, const VkRenderPassCreateInfo2 &info) {
    for (uint32_t place = 0; place < info.attachmentCount; ++place) {
        if (const auto *stencil = in_chain<VkAttachmentDescriptionStencilLayout>(
                info.pAttachments[place].pNext, VK_STRUCTURE_TYPE_ATTACHMENT_DESCRIPTION_STENCIL_LAYOUT)) {
            pass.attachments[place].stencil_initial = stencil->stencilInitialLayout;
            pass.attachments[place].stencil_final = stencil->stencilFinalLayout;
        }
    }
    for (uint32_t place = 0; place < info.subpassCount; ++place) {
        if (const auto *resolve = in_chain<VkSubpassDescriptionDepthStencilResolve>(
                info.pSubpasses[place].pNext, VK_STRUCTURE_TYPE_SUBPASS_DESCRIPTION_DEPTH_STENCIL_RESOLVE)) {
            pass.subpasses[place].depth_resolve = reference_of(resolve->pDepthStencilResolveAttachment);
        }
    }
    for (uint32_t place = 0; place < info.dependencyCount; ++place) {
        if (const auto *barrier =
                in_chain<VkMemoryBarrier2>(info.pDependencies[place].pNext, VK_STRUCTURE_TYPE_MEMORY_BARRIER_2)) {
            RenderPass::Dependency &dependency = pass.dependencies[place];
            dependency.src_stages = barrier->srcStageMask;
            dependency.dst_stages = barrier->dstStageMask;
            dependency.src_access = barrier->srcAccessMask;
            dependency.dst_access = barrier->dstAccessMask;
        }
    }
}

}  // namespace

namespace hook {

void CreateRenderPass(Device &layer, VkResult result, VkDevice, const VkRenderPassCreateInfo *pCreateInfo,
                      const VkAllocationCallbacks *, VkRenderPass *pRenderPass) {
    if (result == VK_SUCCESS) layer.objects.render_passes.add(*pRenderPass, make_render_pass(*pCreateInfo));
}

void CreateRenderPass2(Device &layer, VkResult result, VkDevice, const VkRenderPassCreateInfo2 *pCreateInfo,
                       const VkAllocationCallbacks *, VkRenderPass *pRenderPass) {
    if (result != VK_SUCCESS) return;
    auto pass = make_render_pass(*pCreateInfo);
    add_chained(*pass, *pCreateInfo);
    layer.objects.render_passes.add(*pRenderPass, pass);
}

void DestroyRenderPass(Device &layer, VkDevice, VkRenderPass renderPass, const VkAllocationCallbacks *) {
    layer.objects.render_passes.remove(renderPass);
}

void CreateFramebuffer(Device &layer, VkResult result, VkDevice, const VkFramebufferCreateInfo *pCreateInfo,
                       const VkAllocationCallbacks *, VkFramebuffer *pFramebuffer) {
    if (result != VK_SUCCESS) return;
    auto framebuffer = std::make_shared<Framebuffer>();
    framebuffer->extent = {pCreateInfo->width, pCreateInfo->height};
    const bool has_views = !(pCreateInfo->flags & VK_FRAMEBUFFER_CREATE_IMAGELESS_BIT);
    for (uint32_t place = 0; has_views && place < pCreateInfo->attachmentCount; ++place) {
        framebuffer->attachments.push_back(layer.objects.image_views.find(pCreateInfo->pAttachments[place]));
    }
    layer.objects.framebuffers.add(*pFramebuffer, framebuffer);
}

void DestroyFramebuffer(Device &layer, VkDevice, VkFramebuffer framebuffer, const VkAllocationCallbacks *) {
    layer.objects.framebuffers.remove(framebuffer);
}

}  // namespace hook
