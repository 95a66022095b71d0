#include "pieces.hpp"

#include <algorithm>

#include "masks.hpp"

namespace {

bool moves(const Families &families) {
    return families.from != families.to && families.from != VK_QUEUE_FAMILY_IGNORED && families.to != VK_QUEUE_FAMILY_IGNORED;
}

template <class Interval> std::vector<Interval> merged(std::vector<Interval> intervals) {
    std::ranges::sort(intervals, {}, &Interval::from);
    std::vector<Interval> all;
    for (const Interval &next : intervals) {
        if (!all.empty() && next.from <= all.back().to) {
            all.back().to = std::max(all.back().to, next.to);
        } else {
            all.push_back(next);
        }
    }
    return all;
}

// The parts of intervals that lie in others; those are merged.
template <class Interval> std::vector<Interval> inside(const std::vector<Interval> &intervals, const std::vector<Interval> &others) {
    std::vector<Interval> parts;
    for (const Interval &one : intervals) {
        auto other = std::ranges::upper_bound(others, one.from, {}, &Interval::to);
        for (; other != others.end() && other->from < one.to; ++other) {
            parts.push_back({std::max(one.from, other->from), std::min(one.to, other->to)});
        }
    }
    return parts;
}

}  // namespace

Pieces::Pieces(Capture &capture) {
    look_at(capture);
    keep();
    join_images(capture);
    for (auto &[memory, bytes] : memories) make_buffers(memory, bytes);
    for (const Image *image : order) make_image(capture, cuts.at(image));
    mark_overlaps();
}

void Pieces::note(const BufferRange &range, bool stores, bool touches) {
    const Buffer &buffer = *range.buffer;
    Bytes &bytes = memories[buffer.memory.get()];
    const Interval interval{buffer.offset + range.offset, buffer.offset + range.offset + range.size};
    if (stores) bytes.stored.push_back(interval);
    if (touches) bytes.touched.push_back(interval);
    bytes.named.push_back(interval);
    bytes.concurrent |= buffer.concurrent;
    if (!buffer.name.empty()) bytes.names.try_emplace(buffer.offset, buffer.name);
}

void Pieces::note(const ImageRange &range, bool stores, bool touches) {
    if (range.mips == 0 || range.layers == 0) return;
    const auto [place, is_new] = cuts.try_emplace(range.image.get());
    Cut &cut = place->second;
    if (is_new) {
        cut.image = range.image;
        order.push_back(range.image.get());
    }
    cut.stored |= stores;
    cut.touched |= touches;
    cut.aspects |= range.aspects != (1U << range.image->aspects.size()) - 1;
    cut.mips.insert({range.first_mip, range.first_mip + range.mips});
    cut.layers.insert({range.first_layer, range.first_layer + range.layers});
}

void Pieces::note(const Barrier &barrier) {
    if (const auto *buffer = std::get_if<BufferBarrier>(&barrier)) {
        note(buffer->range, moves(buffer->families), moves(buffer->families));
    } else if (const auto *image = std::get_if<ImageBarrier>(&barrier)) {
        const bool changes = image->from != image->to || moves(image->families);
        note(image->range, changes, changes);
    }
}

void Pieces::look_at(const Capture &capture) {
    for (const FileQueue &queue : capture.queues()) {
        for (const Batch &batch : queue.batches) {
            for (const Item &item : batch.items) {
                if (const auto *dependency = std::get_if<DependencyItem>(&item)) {
                    for (const Barrier &barrier : dependency->barriers) note(barrier);
                    continue;
                }
                for (const Touch &touch : std::get<ActionItem>(item).touches) {
                    const bool stores = role_word(touch.role).stores;
                    std::visit([&](const auto &range) { note(range, stores, true); }, touch.where);
                }
            }
        }
    }
}

bool Pieces::is_kept(const Cut &cut) {
    if (!cut.touched) return false;
    if (cut.stored) return true;
    const Image &image = *cut.image;
    const auto &kept = memories[image.memory.get()].kept;
    return std::ranges::any_of(kept, [&](const Interval &other) { return other.from < image.end() && image.offset < other.to; });
}

// Finds what has to have a piece: in each memory the bytes that somebody stores or moves.
void Pieces::keep() {
    for (auto &[memory, bytes] : memories) bytes.kept = bytes.stored;
    for (const auto &[key, cut] : cuts) {
        const Image &image = *cut.image;
        if (cut.stored) memories[image.memory.get()].kept.push_back({image.offset, image.end()});
    }
    for (auto &[memory, bytes] : memories) bytes.kept = merged(std::move(bytes.kept));
    std::erase_if(order, [&](const Image *image) { return !is_kept(cuts.at(image)); });
    std::erase_if(cuts, [&](const auto &entry) { return std::ranges::find(order, entry.first) == order.end(); });
}

// An image whose bytes are another one's or a buffer's too is one piece: the places of its parts are
// invented, and say nothing of what overlaps.
void Pieces::join_images(Capture &capture) {
    for (const Image *image : order) {
        Cut &cut = cuts.at(image);
        Bytes &bytes = memories[image->memory.get()];
        const std::vector<Interval> own{{image->offset, image->end()}};
        cut.whole = !inside(inside(bytes.touched, bytes.kept), own).empty();
        for (const Image *other : order) {
            cut.whole |= other != image && other->memory == image->memory && other->offset < image->end() && image->offset < other->end();
        }
        const bool has_parts = cut.aspects || cut.mips.size() > 2 || cut.layers.size() > 2;
        if (cut.whole && has_parts) capture.summary.count("images of several parts whose memory is used again: one piece");
    }
}

void Pieces::make_buffers(const Memory *memory, Bytes &bytes) {
    const auto touched = merged(inside(bytes.touched, bytes.kept));
    std::set<VkDeviceSize> bounds;
    for (const Interval &interval : inside(bytes.named, touched)) bounds.insert({interval.from, interval.to});
    for (const Interval &interval : inside(bytes.stored, touched)) bounds.insert({interval.from, interval.to});
    for (const Interval &interval : touched) {
        bounds.insert({interval.from, interval.to});
        for (auto from = bounds.find(interval.from); *from != interval.to; ++from) {
            Piece piece;
            piece.memory = memory;
            piece.offset = *from;
            piece.size = *std::next(from) - *from;
            piece.concurrent = bytes.concurrent;
            const auto named = bytes.names.upper_bound(*from);
            piece.name = named == bytes.names.begin() ? "buffer" : std::prev(named)->second;
            piece.name += " at " + std::to_string(*from);
            bytes.starts[*from] = pieces.size();
            pieces.push_back(std::move(piece));
        }
    }
}

void Pieces::make_image(const Capture &capture, Cut &cut) {
    const Image &image = *cut.image;
    if (cut.whole) {
        cut.mips = {0, image.mips};
        cut.layers = {0, image.layers};
        cut.aspects = false;
    }
    cut.aspect_parts = cut.aspects ? static_cast<uint32_t>(image.aspects.size()) : 1;
    const size_t parts = cut.aspect_parts * (cut.mips.size() - 1) * (cut.layers.size() - 1);
    const VkDeviceSize size = std::max<VkDeviceSize>(image.bytes / parts, 1);
    const std::string base =
        (image.name.empty() ? "image " + std::to_string(image.extent.width) + "x" + std::to_string(image.extent.height) : image.name);
    const auto &layouts = capture.layouts_before().at(&image);
    cut.first_piece = pieces.size();
    for (uint32_t aspect = 0; aspect < cut.aspect_parts; ++aspect) {
        for (auto mip = cut.mips.begin(); std::next(mip) != cut.mips.end(); ++mip) {
            for (auto layer = cut.layers.begin(); std::next(layer) != cut.layers.end(); ++layer) {
                Piece piece;
                piece.image = true;
                piece.memory = image.memory.get();
                piece.size = cut.whole || parts == 1 ? std::max<VkDeviceSize>(image.bytes, 1) : size;
                piece.offset = image.offset + (pieces.size() - cut.first_piece) * size;
                piece.concurrent = image.concurrent;
                piece.linear = image.linear;
                piece.layout = layouts[image.cell(aspect, *mip, *layer)];
                piece.name = base;
                if (cut.aspect_parts > 1) piece.name += " aspect " + std::to_string(aspect);
                if (cut.mips.size() > 2) piece.name += " mip " + std::to_string(*mip);
                if (cut.layers.size() > 2) piece.name += " layer " + std::to_string(*layer);
                pieces.push_back(std::move(piece));
            }
        }
    }
}

void Pieces::mark_overlaps() {
    std::vector<size_t> by_place(pieces.size());
    for (size_t place = 0; place < pieces.size(); ++place) by_place[place] = place;
    std::ranges::sort(by_place, {}, [&](size_t place) { return std::pair(pieces[place].memory, pieces[place].offset); });
    for (size_t one = 0; one < by_place.size(); ++one) {
        for (size_t other = one + 1; other < by_place.size() && overlap(by_place[one], by_place[other]); ++other) {
            pieces[by_place[one]].overlaps = pieces[by_place[other]].overlaps = true;
        }
    }
}

bool Pieces::overlap(size_t one, size_t other) const {
    const Piece &a = pieces[one], &b = pieces[other];
    return a.memory == b.memory && a.offset < b.offset + b.size && b.offset < a.offset + a.size;
}

std::vector<size_t> Pieces::of(const BufferRange &range) const {
    std::vector<size_t> found;
    const auto memory = memories.find(range.buffer->memory.get());
    if (memory == memories.end()) return found;
    const VkDeviceSize from = range.buffer->offset + range.offset;
    const auto &starts = memory->second.starts;
    for (auto next = starts.lower_bound(from); next != starts.end() && next->first < from + range.size; ++next) {
        found.push_back(next->second);
    }
    return found;
}

std::vector<size_t> Pieces::of(const ImageRange &range) const {
    std::vector<size_t> found;
    const auto place = cuts.find(range.image.get());
    if (place == cuts.end()) return found;
    const Cut &cut = place->second;
    size_t piece = cut.first_piece;
    for (uint32_t aspect = 0; aspect < cut.aspect_parts; ++aspect) {
        const bool aspect_meets = cut.aspect_parts == 1 || (range.aspects & (1U << aspect));
        for (auto mip = cut.mips.begin(); std::next(mip) != cut.mips.end(); ++mip) {
            const bool mip_meets = *mip < range.first_mip + range.mips && range.first_mip < *std::next(mip);
            for (auto layer = cut.layers.begin(); std::next(layer) != cut.layers.end(); ++layer, ++piece) {
                const bool layer_meets = *layer < range.first_layer + range.layers && range.first_layer < *std::next(layer);
                if (aspect_meets && mip_meets && layer_meets) found.push_back(piece);
            }
        }
    }
    return found;
}

std::vector<size_t> Pieces::of(const std::variant<BufferRange, ImageRange> &range) const {
    return std::visit([&](const auto &one) { return of(one); }, range);
}
