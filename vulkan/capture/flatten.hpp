#pragma once
#include <optional>

#include "capture.hpp"

// Turns recorded command buffers into the items of a batch: dependencies and actions. One is
// used for all command buffers of a submission, since a rendering may be suspended in one and
// resumed in the next.
class Flattener {
  public:
    Flattener(Capture &capture, std::vector<Item> &items) : capture(capture), items(items) {}
    void add(const Recording &recording);
    // The submission ends, and with it a rendering that nobody resumed.
    void finish();

  private:
    struct Pass {
        const RenderPass *pass;
        const std::vector<Ref<ImageView>> *views;
        uint32_t subpass = 0;
        std::vector<RenderPass::Reference> now;
        std::vector<bool> used;
        std::vector<uint32_t> last;
    };

    void visit(const Dependency &command);
    void visit(const Transfer &command);
    void visit(const Draw &command);
    void visit(const Dispatch &command);
    void visit(const BeginRendering &command);
    void visit(const EndRendering &command);
    void visit(const BeginRenderPass &command);
    void visit(const NextSubpass &command);
    void visit(const EndRenderPass &command);
    void visit(const BeginLabel &command);
    void visit(const EndLabel &command);
    void visit(const Unsaid &command);
    void visit(const Execute &command);

    void enter_subpass();
    void leave_subpass();
    void add_attachments(const RenderPass::Subpass &subpass);
    void change_layout(std::vector<Barrier> &barriers, uint32_t attachment, const RenderPass::Reference &to, const Masks &masks);
    Masks entering(uint32_t attachment) const;
    Masks leaving(uint32_t attachment) const;
    const ImageView *view(uint32_t attachment) const;
    VkAttachmentLoadOp load_of(uint32_t attachment, bool stencil) const;

    void add_bound(const Bound &bound, std::vector<Touch> &touches);
    void add_binding(const Bound &bound, const BindingUse &use, std::vector<Touch> &touches);
    void add_vertex_buffers(const Bound &bound, std::vector<Touch> &touches);
    void push(DependencyItem item);
    void push(ActionItem item);
    void open_rendering();
    void close_rendering();
    std::string name_of(const std::string &what) const;

    Capture &capture;
    std::vector<Item> &items;
    std::optional<ActionItem> rendering;
    unsigned draws = 0;
    std::optional<Pass> pass;
    std::vector<std::string> labels;
};

void apply_layouts(const Recording &recording);
