#include "resolve.hpp"

#include <algorithm>
#include <bit>

#include "settings.hpp"

namespace {

constexpr size_t most_uses = 256;

bool is_storage(Role role) { return role == Role::storage || role == Role::storage_write || role == Role::storage_read; }
bool is_transfer_write(Role role) {
    return role == Role::copy_write || role == Role::blit_write || role == Role::resolve_write || role == Role::clear_write;
}
bool may_keep(Role role) { return is_transfer_write(role) || role == Role::color || role == Role::depth; }
bool stores(const FileUse &use) { return role_word(use.role).stores; }

bool orders_nothing(const FileBarrier &barrier) {
    return barrier.kind == FileBarrier::Kind::global && (barrier.masks.src_stages == 0 || barrier.masks.dst_stages == 0);
}

FileBarrier order_alone(const Masks &masks) {
    FileBarrier order;
    order.masks = {masks.src_stages, 0, masks.dst_stages, 0};
    return order;
}

}  // namespace

Resolver::Resolver(Capture &capture, const Pieces &pieces) : capture(capture), pieces(pieces) {
    for (const Piece &piece : pieces.all()) {
        layouts.push_back(layout_word(piece.layout, piece.linear));
        contents.push_back(!piece.image || layouts.back() != "UNDEFINED");
    }
    struct Turn {
        uint64_t turn;
        size_t queue, batch;
    };
    std::vector<Turn> turns;
    for (size_t queue = 0; queue < capture.queues().size(); ++queue) {
        const auto &batches = capture.queues()[queue].batches;
        resolved.emplace_back(batches.size());
        for (size_t batch = 0; batch < batches.size(); ++batch) turns.push_back({batches[batch].turn, queue, batch});
    }
    std::ranges::sort(turns, {}, &Turn::turn);
    for (const Turn &turn : turns) {
        const FileQueue &queue = capture.queues()[turn.queue];
        auto &out = resolved[turn.queue][turn.batch];
        for (const Item &item : queue.batches[turn.batch].items) {
            if (const auto *action = std::get_if<ActionItem>(&item)) {
                add(out, *action);
            } else {
                add(out, std::get<DependencyItem>(item), queue.family);
            }
        }
    }
}

std::vector<FileUse> Resolver::uses_of(const ActionItem &item) {
    std::vector<FileUse> uses;
    for (const Touch &touch : item.touches) {
        for (const size_t piece : pieces.of(touch.where)) {
            const auto same = std::ranges::find_if(uses, [&](const FileUse &use) { return use.piece == piece && use.role == touch.role; });
            if (same != uses.end()) {
                same->stages |= touch.stages;
                same->whole |= touch.whole;
                continue;
            }
            FileUse use{piece, touch.role, touch.stages, "", touch.whole, true};
            if (const auto *image = std::get_if<ImageRange>(&touch.where)) use.layout = layout_word(touch.layout, image->image->linear);
            uses.push_back(std::move(use));
        }
    }
    return uses;
}

// One use of a piece that is loaded and stored as storage; one stage where it is stored.
void Resolver::settle_storage(std::vector<FileUse> &uses) {
    for (FileUse &use : uses) {
        if (!is_storage(use.role)) continue;
        for (FileUse &other : uses) {
            if (&other == &use || other.piece != use.piece || !is_storage(other.role)) continue;
            use.role = other.role = Role::storage;
            use.stages |= other.stages;
            other.stages = 0;
        }
        if (stores(use) && std::popcount(use.stages) > 1) {
            capture.summary.count("storage that is written in an action of several shader stages: the last stage counts");
            use.stages = std::bit_floor(use.stages);
        }
    }
    std::erase_if(uses, [](const FileUse &use) { return is_storage(use.role) && use.stages == 0; });
}

// A piece that is stored has one use in an action.
void Resolver::settle(std::vector<FileUse> &uses) {
    settle_storage(uses);
    std::vector<FileUse> kept;
    for (const FileUse &use : uses) {
        const auto rival = std::ranges::find_if(
            uses, [&](const FileUse &other) { return &other != &use && other.piece == use.piece && stores(other) && (!stores(use) || &other < &use); });
        if (rival == uses.end()) {
            kept.push_back(use);
        } else {
            capture.summary.count("pieces that an action stores and uses otherwise too: the store counts");
        }
    }
    uses = std::move(kept);
    drop_overlapping(uses);
}

void Resolver::drop_overlapping(std::vector<FileUse> &uses) {
    std::vector<FileUse> kept;
    for (const FileUse &use : uses) {
        const bool meets = pieces.all()[use.piece].overlaps && std::ranges::any_of(uses, [&](const FileUse &other) {
                               const bool counts = stores(other) && (!stores(use) || &other < &use);
                               return counts && other.piece != use.piece && pieces.overlap(other.piece, use.piece);
                           });
        if (!meets) {
            kept.push_back(use);
        } else {
            capture.summary.count("pieces over one another in an action that stores one: the store counts");
        }
    }
    uses = std::move(kept);
}

// Where nothing is in a piece a copy of a part has nothing to keep.
void Resolver::set_keeps(std::vector<FileUse> &uses) {
    for (FileUse &use : uses) {
        if (!stores(use)) continue;
        use.keeps = may_keep(use.role) && !use.whole && (!is_transfer_write(use.role) || contents[use.piece]);
        contents[use.piece] = true;
    }
}

void Resolver::add(std::vector<FileItem> &out, const ActionItem &item) {
    std::vector<FileUse> uses = uses_of(item);
    settle(uses);
    set_keeps(uses);
    // Uses of an action are not ordered, and their pieces do not meet: so several actions say as much.
    for (size_t first = 0; first < uses.size(); first += most_uses) {
        const auto begin = uses.begin() + static_cast<std::ptrdiff_t>(first);
        const auto end = uses.begin() + static_cast<std::ptrdiff_t>(std::min(first + most_uses, uses.size()));
        out.push_back(FileAction{item.name, actions++, {begin, end}});
    }
}

// What a release says of its second side, and an acquire of its first, is ignored.
Masks Resolver::said(const Masks &masks, FileBarrier::Kind kind, VkQueueFlags family, std::vector<FileBarrier> &beside) {
    const bool has_src = kind != FileBarrier::Kind::acquire, has_dst = kind != FileBarrier::Kind::release;
    const SaidMask src = said_mask(masks.src_stages, masks.src_access, Side::source, family, capture.other_stages);
    const SaidMask dst = said_mask(masks.dst_stages, masks.dst_access, Side::destination, family, capture.other_stages);
    if ((has_src && src.foreign) || (has_dst && dst.foreign)) capture.summary.count(foreign_stages);
    const Masks said{src.stages, has_src ? src.access : 0, dst.stages, has_dst ? dst.access : 0};
    if (src.all_beside || dst.all_beside) {
        FileBarrier order = order_alone(said);
        if (src.all_beside) order.masks.src_stages = VK_PIPELINE_STAGE_2_ALL_COMMANDS_BIT;
        if (dst.all_beside) order.masks.dst_stages = VK_PIPELINE_STAGE_2_ALL_COMMANDS_BIT;
        beside.push_back(order);
    }
    return said;
}

// An ownership transfer is a release on a queue of the old family and an acquire on one of the new. The
// format has three families, so one between two that are the same there is none.
void Resolver::set_families(FileBarrier &made, const Families &told, VkQueueFlags family) const {
    const auto &families = capture.families;
    if (told.from == told.to || told.from >= families.size() || told.to >= families.size()) return;
    const std::string from = family_word(families[told.from]), to = family_word(families[told.to]);
    if (from == to) return;
    const bool releases = from == family_word(family);
    made.kind = releases ? FileBarrier::Kind::release : FileBarrier::Kind::acquire;
    made.from_family = from;
    made.to_family = to;
}

// A barrier of what has no piece orders all the same.
std::vector<FileBarrier> Resolver::over_pieces(const FileBarrier &model, const std::vector<size_t> &found) {
    if (found.empty()) return {order_alone(model.masks)};
    std::vector<FileBarrier> barriers;
    for (const size_t piece : found) {
        barriers.push_back(model);
        barriers.back().piece = piece;
    }
    return barriers;
}

std::vector<FileBarrier> Resolver::barriers_of(const Barrier &barrier, VkQueueFlags family) {
    std::vector<FileBarrier> beside;
    std::vector<FileBarrier> made;
    if (const auto *global = std::get_if<GlobalBarrier>(&barrier)) {
        FileBarrier one;
        one.masks = said(global->masks, one.kind, family, beside);
        made = {one};
    } else if (const auto *buffer = std::get_if<BufferBarrier>(&barrier)) {
        FileBarrier one;
        one.kind = FileBarrier::Kind::buffer;
        set_families(one, buffer->families, family);
        one.masks = said(buffer->masks, one.kind, family, beside);
        made = over_pieces(one, pieces.of(buffer->range));
    } else {
        const auto &image = std::get<ImageBarrier>(barrier);
        FileBarrier one;
        one.kind = FileBarrier::Kind::image;
        set_families(one, image.families, family);
        one.masks = said(image.masks, one.kind, family, beside);
        one.from = layout_word(image.from, image.range.image->linear);
        one.to = layout_word(image.to, image.range.image->linear);
        made = over_pieces(one, pieces.of(image.range));
    }
    made.insert(made.end(), beside.begin(), beside.end());
    return made;
}

// A transition from the layout that a piece is in keeps nothing where nothing is in it. Vulkan allows
// it; the format has it as a load, so it is said as one that discards.
void Resolver::follow(FileBarrier &barrier) {
    if (barrier.from.empty() || barrier.from == barrier.to) return;
    const bool keeps_nothing = barrier.kind == FileBarrier::Kind::image && !contents[barrier.piece] && barrier.from == layouts[barrier.piece];
    if (keeps_nothing) barrier.from = "UNDEFINED";
    if (barrier.from == "UNDEFINED") contents[barrier.piece] = false;
    layouts[barrier.piece] = barrier.to;
}

void Resolver::add(std::vector<FileItem> &out, const DependencyItem &item, VkQueueFlags family) {
    const bool leave_out = settings()->left_out == number;
    FileDependency dependency{std::to_string(number) + " " + item.call, {}};
    for (const Barrier &barrier : item.barriers) {
        for (FileBarrier &made : barriers_of(barrier, family)) {
            if (leave_out) {
                // Without its transition the layout would be what is wrong first.
                if (made.kind != FileBarrier::Kind::image || made.from == made.to) continue;
                made.masks = {};
            }
            follow(made);
            const bool is_there = std::ranges::find(dependency.barriers, made) != dependency.barriers.end();
            if (!is_there && !orders_nothing(made)) dependency.barriers.push_back(std::move(made));
        }
    }
    left_out |= leave_out;
    ++number;
    if (!dependency.barriers.empty()) out.push_back(std::move(dependency));
}
