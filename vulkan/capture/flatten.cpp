#include "flatten.hpp"

#include <algorithm>

#include "attachments.hpp"
#include "ranges.hpp"

namespace {

constexpr VkPipelineStageFlags2 said_shaders = VK_PIPELINE_STAGE_2_VERTEX_SHADER_BIT | VK_PIPELINE_STAGE_2_FRAGMENT_SHADER_BIT |
                                               VK_PIPELINE_STAGE_2_COMPUTE_SHADER_BIT;

bool is_dynamic(VkDescriptorType type) {
    return type == VK_DESCRIPTOR_TYPE_UNIFORM_BUFFER_DYNAMIC || type == VK_DESCRIPTOR_TYPE_STORAGE_BUFFER_DYNAMIC;
}

// The position of a binding's first dynamic offset among those of its set.
size_t first_dynamic(const SetLayout &layout, uint32_t binding) {
    size_t place = 0;
    for (const auto &[number, entry] : layout.bindings) {
        if (number >= binding) break;
        place += is_dynamic(entry.type) ? entry.count : 0;
    }
    return place;
}

std::optional<Role> storage_role(const BindingUse &use) {
    if (use.loads && use.stores) return Role::storage;
    if (use.stores) return Role::storage_write;
    if (use.loads) return Role::storage_read;
    return std::nullopt;
}

std::optional<Role> role_of(VkDescriptorType type, const BindingUse &use) {
    switch (type) {
    case VK_DESCRIPTOR_TYPE_COMBINED_IMAGE_SAMPLER:
    case VK_DESCRIPTOR_TYPE_SAMPLED_IMAGE:
    case VK_DESCRIPTOR_TYPE_UNIFORM_TEXEL_BUFFER: return Role::sampled;
    case VK_DESCRIPTOR_TYPE_INPUT_ATTACHMENT: return Role::input;
    case VK_DESCRIPTOR_TYPE_UNIFORM_BUFFER:
    case VK_DESCRIPTOR_TYPE_UNIFORM_BUFFER_DYNAMIC: return Role::uniform;
    case VK_DESCRIPTOR_TYPE_STORAGE_IMAGE:
    case VK_DESCRIPTOR_TYPE_STORAGE_BUFFER:
    case VK_DESCRIPTOR_TYPE_STORAGE_BUFFER_DYNAMIC:
    case VK_DESCRIPTOR_TYPE_STORAGE_TEXEL_BUFFER: return storage_role(use);
    default: return std::nullopt;
    }
}

// Where a descriptor leads; a buffer of no size where it leads nowhere.
std::variant<BufferRange, ImageRange> place_of(const Descriptor &descriptor, uint32_t dynamic_offset) {
    if (descriptor.image) return descriptor.image->range;
    if (descriptor.texels) return descriptor.texels->range;
    if (descriptor.buffer) return range_of(descriptor.buffer, descriptor.offset + dynamic_offset, descriptor.range);
    return BufferRange{};
}

bool leads_somewhere(const std::variant<BufferRange, ImageRange> &place) {
    if (const auto *buffer = std::get_if<BufferRange>(&place)) return buffer->buffer && buffer->size > 0;
    return std::get<ImageRange>(place).image != nullptr;
}

void unite(Masks &all, const RenderPass::Dependency &dependency) {
    all.src_stages |= dependency.src_stages;
    all.src_access |= dependency.src_access;
    all.dst_stages |= dependency.dst_stages;
    all.dst_access |= dependency.dst_access;
}

constexpr VkAccessFlags2 attachment_reads = VK_ACCESS_2_INPUT_ATTACHMENT_READ_BIT | VK_ACCESS_2_COLOR_ATTACHMENT_READ_BIT |
                                            VK_ACCESS_2_DEPTH_STENCIL_ATTACHMENT_READ_BIT;
constexpr VkAccessFlags2 attachment_writes =
    VK_ACCESS_2_COLOR_ATTACHMENT_WRITE_BIT | VK_ACCESS_2_DEPTH_STENCIL_ATTACHMENT_WRITE_BIT;

// The dependencies that a render pass has where it tells none and a layout changes.
constexpr Masks implicit_before{VK_PIPELINE_STAGE_2_NONE, 0, VK_PIPELINE_STAGE_2_ALL_COMMANDS_BIT,
                                attachment_reads | attachment_writes};
constexpr Masks implicit_after{VK_PIPELINE_STAGE_2_ALL_COMMANDS_BIT, attachment_writes, VK_PIPELINE_STAGE_2_NONE, 0};

Masks masks_of(const RenderPass::Dependency &dependency) {
    Masks masks;
    unite(masks, dependency);
    return masks;
}

}  // namespace

void apply_layouts(const Recording &recording) {
    for (const auto &[range, to] : recording.layouts) {
        for (size_t aspect = 0; aspect < range.image->aspects.size(); ++aspect) {
            if (!(range.aspects & (1U << aspect))) continue;
            for (uint32_t mip = range.first_mip; mip < range.first_mip + range.mips; ++mip) {
                const auto first = range.image->layouts.begin() +
                                   static_cast<std::ptrdiff_t>(range.image->cell(aspect, mip, range.first_layer));
                std::fill_n(first, range.layers, to);
            }
        }
    }
}

void Flattener::add(const Recording &recording) {
    for (const Command &command : recording.commands) {
        std::visit([&](const auto &one) { visit(one); }, command);
    }
}

std::string Flattener::name_of(const std::string &what) const { return labels.empty() ? what : labels.back() + ": " + what; }

void Flattener::push(DependencyItem item) {
    for (const Barrier &barrier : item.barriers) {
        if (const auto *image = std::get_if<ImageBarrier>(&barrier)) capture.see(image->range.image);
    }
    if (!item.barriers.empty()) items.push_back(std::move(item));
}

void Flattener::push(ActionItem item) {
    for (const Touch &touch : item.touches) {
        if (const auto *image = std::get_if<ImageRange>(&touch.where)) capture.see(image->image);
        if (touch.remark != nullptr) capture.summary.count(touch.remark);
    }
    if (!item.touches.empty()) items.push_back(std::move(item));
}

void Flattener::visit(const Dependency &command) {
    if (rendering || pass) {
        capture.summary.count("barriers inside a rendering: it is one action, without them");
        return;
    }
    push(DependencyItem{command.call, command.barriers});
}

void Flattener::visit(const Transfer &command) { push(ActionItem{name_of(command.call), command.touches}); }

void Flattener::visit(const Draw &command) {
    if (!rendering) open_rendering();
    ++draws;
    auto &touches = rendering->touches;
    touches.insert(touches.end(), command.touches.begin(), command.touches.end());
    add_vertex_buffers(*command.bound, touches);
    add_bound(*command.bound, touches);
}

void Flattener::visit(const Dispatch &command) {
    ActionItem action{name_of(command.call), command.touches};
    add_bound(*command.bound, action.touches);
    push(std::move(action));
}

void Flattener::finish() { close_rendering(); }

void Flattener::open_rendering() {
    rendering = ActionItem{};
    draws = 0;
}

void Flattener::close_rendering() {
    if (!rendering) return;
    // Draws that follow each other with the same bound are recorded once.
    rendering->name = name_of("rendering of " + std::to_string(draws) + (draws == 1 ? " distinct draw" : " distinct draws"));
    push(std::move(*rendering));
    rendering.reset();
}

void Flattener::visit(const BeginRendering &command) {
    for (const char *remark : command.remarks) capture.summary.count(remark);
    if (command.resumes && rendering) return;
    open_rendering();
    rendering->touches = command.attachments;
}

void Flattener::visit(const EndRendering &command) {
    if (!command.suspends) close_rendering();
}

void Flattener::visit(const BeginRenderPass &command) {
    for (const char *remark : command.remarks) capture.summary.count(remark);
    pass = Pass{command.pass.get(), &command.attachments, 0, {}, {}, {}};
    for (const auto &attachment : command.pass->attachments) pass->now.push_back({0, attachment.initial, attachment.stencil_initial});
    pass->used.assign(pass->now.size(), false);
    pass->last.assign(pass->now.size(), 0);
    enter_subpass();
}

void Flattener::visit(const NextSubpass &) {
    if (!pass) return;
    leave_subpass();
    ++pass->subpass;
    enter_subpass();
}

void Flattener::visit(const EndRenderPass &) {
    if (!pass) return;
    leave_subpass();
    DependencyItem behind{"end of a render pass", {}};
    for (const auto &dependency : pass->pass->dependencies) {
        if (dependency.to == VK_SUBPASS_EXTERNAL && dependency.from != VK_SUBPASS_EXTERNAL) {
            behind.barriers.push_back(GlobalBarrier{masks_of(dependency)});
        }
    }
    for (uint32_t attachment = 0; attachment < pass->now.size(); ++attachment) {
        const auto &told = pass->pass->attachments[attachment];
        if (pass->used[attachment]) change_layout(behind.barriers, attachment, {0, told.final, told.stencil_final}, leaving(attachment));
    }
    push(std::move(behind));
    pass.reset();
}

void Flattener::visit(const BeginLabel &command) { labels.push_back(command.name); }

void Flattener::visit(const EndLabel &) {
    if (!labels.empty()) labels.pop_back();
}

void Flattener::visit(const Unsaid &command) { capture.summary.count(command.what); }

void Flattener::visit(const Execute &command) {
    for (const auto &recording : command.recordings) add(*recording);
}

const ImageView *Flattener::view(uint32_t attachment) const {
    return attachment < pass->views->size() ? (*pass->views)[attachment].get() : nullptr;
}

// The first subpass that uses an attachment loads it as told, later ones go on with what is there.
VkAttachmentLoadOp Flattener::load_of(uint32_t attachment, bool stencil) const {
    const auto &told = pass->pass->attachments[attachment];
    if (pass->used[attachment]) return VK_ATTACHMENT_LOAD_OP_LOAD;
    return stencil ? told.stencil_load : told.load;
}

// The masks of the layout change before the first, or a further, subpass that uses an attachment.
Masks Flattener::entering(uint32_t attachment) const {
    Masks masks;
    bool told = false;
    for (const auto &dependency : pass->pass->dependencies) {
        const bool from_outside = dependency.from == VK_SUBPASS_EXTERNAL;
        if (dependency.to != pass->subpass || dependency.from == pass->subpass || from_outside == pass->used[attachment]) continue;
        unite(masks, dependency);
        told = true;
    }
    return told || pass->used[attachment] ? masks : implicit_before;
}

Masks Flattener::leaving(uint32_t attachment) const {
    Masks masks;
    bool told = false;
    for (const auto &dependency : pass->pass->dependencies) {
        if (dependency.to != VK_SUBPASS_EXTERNAL || dependency.from != pass->last[attachment]) continue;
        unite(masks, dependency);
        told = true;
    }
    return told ? masks : implicit_after;
}

void Flattener::change_layout(std::vector<Barrier> &barriers, uint32_t attachment, const RenderPass::Reference &to, const Masks &masks) {
    const ImageView *seen = view(attachment);
    if (seen == nullptr) return;
    RenderPass::Reference &from = pass->now[attachment];
    const ImageRange stencil = stencil_part(seen->range);
    ImageRange rest = seen->range;
    rest.aspects &= ~stencil.aspects;
    const bool together = from.layout == from.stencil_layout && to.layout == to.stencil_layout;
    if (together || rest.aspects == 0) rest.aspects |= stencil.aspects;
    if (from.layout != to.layout) barriers.push_back(ImageBarrier{masks, rest, {}, from.layout, to.layout});
    if (!together && stencil.aspects != 0 && rest.aspects != stencil.aspects && from.stencil_layout != to.stencil_layout) {
        barriers.push_back(ImageBarrier{masks, stencil, {}, from.stencil_layout, to.stencil_layout});
    }
    from.layout = to.layout;
    from.stencil_layout = to.stencil_layout;
}

namespace {

template <class Visit> void each_reference(const RenderPass::Subpass &subpass, Visit visit) {
    const auto all = [&](const std::vector<RenderPass::Reference> &references) {
        for (const auto &reference : references) {
            if (reference.attachment != VK_ATTACHMENT_UNUSED) visit(reference);
        }
    };
    all(subpass.inputs);
    all(subpass.colors);
    all(subpass.resolves);
    all({subpass.depth, subpass.depth_resolve});
}

}  // namespace

void Flattener::enter_subpass() {
    if (pass->subpass >= pass->pass->subpasses.size()) return;
    const RenderPass::Subpass &subpass = pass->pass->subpasses[pass->subpass];
    DependencyItem before{pass->subpass == 0 ? "begin of a render pass" : "next subpass", {}};
    for (const auto &dependency : pass->pass->dependencies) {
        if (dependency.to == pass->subpass && dependency.from != pass->subpass) {
            before.barriers.push_back(GlobalBarrier{masks_of(dependency)});
        }
    }
    each_reference(subpass, [&](const RenderPass::Reference &reference) {
        change_layout(before.barriers, reference.attachment, reference, entering(reference.attachment));
    });
    push(std::move(before));
    open_rendering();
    add_attachments(subpass);
    each_reference(subpass, [&](const RenderPass::Reference &reference) {
        pass->used[reference.attachment] = true;
        pass->last[reference.attachment] = pass->subpass;
    });
}

void Flattener::leave_subpass() { close_rendering(); }

void Flattener::add_attachments(const RenderPass::Subpass &subpass) {
    auto &touches = rendering->touches;
    for (const auto &color : subpass.colors) {
        if (color.attachment == VK_ATTACHMENT_UNUSED || view(color.attachment) == nullptr) continue;
        touches.push_back(color_attachment(view(color.attachment)->range, color.layout, load_of(color.attachment, false)));
    }
    for (const auto &resolve : subpass.resolves) {
        if (resolve.attachment == VK_ATTACHMENT_UNUSED || view(resolve.attachment) == nullptr) continue;
        touches.push_back(color_attachment(view(resolve.attachment)->range, resolve.layout, VK_ATTACHMENT_LOAD_OP_DONT_CARE));
    }
    const auto &depth = subpass.depth;
    if (depth.attachment != VK_ATTACHMENT_UNUSED && view(depth.attachment) != nullptr) {
        const auto &told = pass->pass->attachments[depth.attachment];
        add_depth_attachment(touches, view(depth.attachment)->range, depth.layout, depth.stencil_layout,
                             {load_of(depth.attachment, false), told.store}, {load_of(depth.attachment, true), told.stencil_store});
    }
    const auto &resolve = subpass.depth_resolve;
    if (resolve.attachment != VK_ATTACHMENT_UNUSED && view(resolve.attachment) != nullptr) {
        capture.summary.count(resolves_depth);
    }
}

void Flattener::add_vertex_buffers(const Bound &bound, std::vector<Touch> &touches) {
    const bool dynamic = !bound.pipeline || bound.pipeline->dynamic_vertex_input;
    for (const uint32_t binding : dynamic ? bound.dynamic_vertex_bindings : bound.pipeline->vertex_bindings) {
        const auto found = bound.vertex_buffers.find(binding);
        if (found == bound.vertex_buffers.end() || !found->second.buffer || found->second.size == 0) continue;
        touches.push_back({found->second, Role::vertex, 0, VK_IMAGE_LAYOUT_UNDEFINED, false, nullptr});
    }
}

void Flattener::add_bound(const Bound &bound, std::vector<Touch> &touches) {
    if (bound.pipeline) {
        for (const BindingUse &use : bound.pipeline->uses) add_binding(bound, use, touches);
        return;
    }
    for (const auto &[stage, shader] : bound.shaders) {
        if (!shader) continue;
        for (const BindingUse &use : shader->uses) add_binding(bound, use, touches);
    }
}

void Flattener::add_binding(const Bound &bound, const BindingUse &use, std::vector<Touch> &touches) {
    if (use.set >= bound.sets.size() || !bound.sets[use.set].set) return;
    const BoundSet &slot = bound.sets[use.set];
    const auto found = slot.set->bindings.find(use.binding);
    if (found == slot.set->bindings.end() || !slot.set->layout) return;
    VkPipelineStageFlags2 stages = use.stages & said_shaders;
    if (stages == 0) {
        // Other stages before rasterization count as the vertex shader.
        capture.other_stages |= use.stages;
        stages = VK_PIPELINE_STAGE_2_VERTEX_SHADER_BIT;
        capture.summary.count("uses by shaders before rasterization other than the vertex shader: counted as its own");
    }
    size_t dynamic = first_dynamic(*slot.set->layout, use.binding);
    for (const Descriptor &descriptor : found->second) {
        uint32_t offset = 0;
        if (is_dynamic(descriptor.type) && dynamic < slot.dynamic_offsets.size()) offset = slot.dynamic_offsets[dynamic++];
        const auto role = role_of(descriptor.type, use);
        const auto place = place_of(descriptor, offset);
        if (role && leads_somewhere(place)) touches.push_back({place, *role, stages, descriptor.layout, false, nullptr});
    }
}
