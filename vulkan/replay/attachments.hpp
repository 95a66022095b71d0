// The attachments of an action's draw.
#pragma once

#include "context.hpp"

namespace replay {

struct Attachment {
    Use use;
    const ImageResource *image;

    VkAttachmentLoadOp load() const;
    VkAttachmentStoreOp store() const;
};

struct Attachments {
    Attachments(const Context &context, const std::vector<Use> &uses);

    std::vector<Attachment> colors, depths, inputs;
    VkSampleCountFlagBits samples = VK_SAMPLE_COUNT_1_BIT;
    VkExtent2D area{};

    std::vector<Channel> channels() const;
};

// Begins the rendering, by a render pass where there are input attachments, which dynamic rendering does not have.
class Rendering {
  public:
    Rendering(Context &context, const Attachments &attachments);

    VkRenderPass pass() const { return render_pass; }
    void begin(VkCommandBuffer commands) const;
    void end(VkCommandBuffer commands) const;

  private:
    void make_pass(Context &context);
    void begin_dynamic(VkCommandBuffer commands) const;

    const Attachments &attachments;
    VkRenderPass render_pass = VK_NULL_HANDLE;
    VkFramebuffer framebuffer = VK_NULL_HANDLE;
};

} // namespace replay
