#include "writer.hpp"

#include <cstdio>
#include <fstream>

#include "capture.hpp"
#include "resolve.hpp"

namespace {

// A name of the format: 1 to 64 bytes of printable ASCII without quotes and backslashes.
std::string as_name(const std::string &text) {
    constexpr size_t longest = 64;
    std::string name = text.substr(0, longest);
    for (char &letter : name) {
        if (letter < 0x20 || letter > 0x7e || letter == '"' || letter == '\\') letter = '?';
    }
    return name;
}

std::string between(char open, const std::string &text, char close) {
    std::string made(1, open);
    made.append(text);
    made.push_back(close);
    return made;
}

std::string quoted(const std::string &text) { return between('"', text, '"'); }

// One object of the file, member by member.
class Object {
  public:
    Object &text(const char *member, const std::string &value) { return raw(member, quoted(value)); }
    Object &number(const char *member, uint64_t value) { return raw(member, std::to_string(value)); }
    Object &truth(const char *member, bool value) { return raw(member, value ? "true" : "false"); }
    Object &name(const std::string &value) { return value.empty() ? *this : text("name", as_name(value)); }
    Object &raw(const char *member, const std::string &value) {
        if (!body.empty()) body.append(", ");
        body.append(quoted(member)).append(": ").append(value);
        return *this;
    }
    std::string str() const { return between('{', body, '}'); }

  private:
    std::string body;
};

template <class Entries, class Write> std::string list(const Entries &entries, const std::string &indent, Write write) {
    std::string text;
    for (const auto &entry : entries) {
        text.append(text.empty() ? "\n" : ",\n").append(indent).append(write(entry));
    }
    return between('[', text, ']');
}

std::string item_text(const FileUse &use) {
    const RoleWord role = role_word(use.role);
    Object object;
    object.number("piece", use.piece).text("as", role.word);
    if (role.has_stages) object.text("stage", stage_words(use.stages));
    if (!use.layout.empty()) object.text("layout", use.layout);
    const bool told = role.stores && use.role != Role::storage && use.role != Role::storage_write && !use.keeps;
    if (told) object.truth("keeps", false);
    return object.str();
}

std::string item_text(const FileAction &action) {
    std::string uses;
    for (const FileUse &use : action.uses) uses.append(uses.empty() ? "" : ", ").append(item_text(use));
    return Object()
        .text("item", "command")
        .text("op", "action")
        .number("code", action.code)
        .raw("uses", between('[', uses, ']'))
        .name(action.name)
        .str();
}

const char *kind_word(FileBarrier::Kind kind) {
    switch (kind) {
    case FileBarrier::Kind::global: return "global";
    case FileBarrier::Kind::buffer: return "buffer";
    case FileBarrier::Kind::image: return "image";
    case FileBarrier::Kind::release: return "release";
    case FileBarrier::Kind::acquire: return "acquire";
    }
    return "";
}

std::string barrier_text(const FileBarrier &barrier, const std::string &name, bool joined) {
    Object object;
    object.text("item", kind_word(barrier.kind));
    if (barrier.kind != FileBarrier::Kind::global) object.number("piece", barrier.piece);
    if (!barrier.from_family.empty()) object.text("from_family", barrier.from_family).text("to_family", barrier.to_family);
    if (!barrier.from.empty()) object.text("from", barrier.from).text("to", barrier.to);
    object.text("src_stage", stage_words(barrier.masks.src_stages)).text("src_access", access_words(barrier.masks.src_access));
    object.text("dst_stage", stage_words(barrier.masks.dst_stages)).text("dst_access", access_words(barrier.masks.dst_access));
    if (joined) object.truth("joined", true);
    return object.name(name).str();
}

struct FileWait {
    Point point;
    VkPipelineStageFlags2 stages;
};

// One capture while its file is written.
class Writer {
  public:
    explicit Writer(Capture &capture) : capture(capture), pieces(capture), resolver(capture, pieces) {
        for (const Piece &piece : pieces.all()) memories.try_emplace(piece.memory, memories.size());
        for (const auto kind : {FileQueue::Kind::device, FileQueue::Kind::presentation}) {
            for (size_t queue = 0; queue < capture.queues().size(); ++queue) {
                if (capture.queues()[queue].kind == kind) order.push_back(queue);
            }
        }
        numbers.resize(order.size());
        for (size_t place = 0; place < order.size(); ++place) numbers[order[place]] = place;
    }

    std::string text() {
        std::string file = "{\"format\": 3,\n\"memories\": " + memories_text();
        file += ",\n\"pieces\": " + list(pieces.all(), " ", [&](const Piece &piece) { return piece_text(piece); });
        file += ",\n\"queues\": [";
        for (const size_t queue : order) file.append(queue == order.front() ? "\n " : ",\n ").append(queue_text(queue));
        return file + "],\n\"readbacks\": []}\n";
    }

    size_t piece_count() const { return pieces.all().size(); }
    const Resolver &items() const { return resolver; }
    uint64_t nodes = 0;

  private:
    std::string memories_text() const {
        std::vector<const Memory *> order(memories.size());
        for (const auto &[memory, number] : memories) order[number] = memory;
        return list(order, " ", [](const Memory *memory) { return Object().number("size", memory->size).name(memory->name).str(); });
    }

    std::string piece_text(const Piece &piece) const {
        Object object;
        object.number(piece.image ? "texture" : "buffer", piece.size);
        object.number("memory", memories.at(piece.memory)).number("offset", piece.offset);
        if (piece.concurrent) object.text("sharing", "concurrent");
        const std::string layout = layout_word(piece.layout, piece.linear);
        if (!piece.image) {
            object.raw("initial", "{}");
        } else if (layout != "UNDEFINED") {
            object.raw("initial", Object().text("layout", layout).str());
        }
        return object.name(piece.name).str();
    }

    std::string queue_text(size_t number) {
        const FileQueue &queue = capture.queues()[number];
        std::string batches;
        for (size_t batch = 0; batch < queue.batches.size(); ++batch) {
            batches.append(batch == 0 ? "\n  " : ",\n  ").append(batch_text(number, batch));
        }
        const std::string name = queue.name.empty() ? "queue " + std::to_string(numbers[number]) : queue.name;
        return Object().text("family", family_word(queue.family)).raw("batches", between('[', batches, ']')).name(name).str();
    }

    std::string batch_text(size_t queue, size_t number) {
        const Batch &batch = capture.queues()[queue].batches[number];
        const VkQueueFlags family = capture.queues()[queue].family;
        const auto waits = waits_of(batch, family);
        std::vector<std::string> items;
        for (const FileItem &item : resolver.items()[queue][number]) add_item(items, item);
        const SaidMask stages = said_mask(batch.signal_stages, 0, Side::source, family, capture.other_stages);
        nodes += waits.size() + items.size() + 1;
        Object object;
        object.raw("waits", list(waits, "   ", [&](const FileWait &wait) {
            return Object().number("queue", numbers[wait.point.queue]).number("value", wait.point.value).text("stage", stage_words(wait.stages)).str();
        }));
        object.raw("items", list(items, "   ", [](const std::string &text) { return text; }));
        const auto signalled = stages.stages == 0 ? VkPipelineStageFlags2{VK_PIPELINE_STAGE_2_ALL_COMMANDS_BIT} : stages.stages;
        object.raw("signal", Object().number("value", batch.value).text("stage", stage_words(signalled)).str());
        return object.str();
    }

    static void add_item(std::vector<std::string> &items, const FileItem &item) {
        if (const auto *action = std::get_if<FileAction>(&item)) {
            items.push_back(item_text(*action));
            return;
        }
        const auto &dependency = std::get<FileDependency>(item);
        for (const FileBarrier &barrier : dependency.barriers) {
            items.push_back(barrier_text(barrier, dependency.name, &barrier != &dependency.barriers.front()));
        }
    }

    // A wait at BOTTOM_OF_PIPE or NONE orders nothing and is left out.
    std::vector<FileWait> waits_of(const Batch &batch, VkQueueFlags family) const {
        std::vector<FileWait> waits;
        for (const Wait &wait : batch.waits) {
            const SaidMask said = said_mask(wait.stages, 0, Side::destination, family, capture.other_stages);
            if (said.foreign) capture.summary.count(foreign_stages);
            if (said.stages == 0) continue;
            for (const Point &point : points_of(wait)) waits.push_back({point, said.stages});
        }
        return waits;
    }

    Points points_of(const Wait &wait) const {
        if (const auto *point = std::get_if<Point>(&wait.what)) return {*point};
        const auto &[semaphore, value] = std::get<std::pair<Ref<Semaphore>, uint64_t>>(wait.what);
        if (const Points *points = semaphore->reaching(value)) return *points;
        capture.summary.count("waits for a value that nothing in the file signals: left out");
        return {};
    }

    Capture &capture;
    Pieces pieces;
    Resolver resolver;
    std::map<const Memory *, size_t> memories;
    // The queues as the file has them, those of the device first, and their numbers there.
    std::vector<size_t> order, numbers;
};

bool store(const std::string &path, const std::string &text) {
    std::ofstream out(path, std::ios::binary);
    out << text;
    out.close();
    return out.good();
}

void tell(const Capture &capture) {
    for (const auto &[what, number] : capture.summary.all()) {
        std::fprintf(stderr, "framec capture: cannot say: %llu times: %s\n", static_cast<unsigned long long>(number), what.c_str());
    }
}

void tell_limit(const char *what, uint64_t number, uint64_t most) {
    if (number <= most) return;
    std::fprintf(stderr, "framec capture: %llu %s are more than the %llu of the format: capture less\n",
                 static_cast<unsigned long long>(number), what, static_cast<unsigned long long>(most));
}

void tell_limits(const Capture &capture, const Writer &writer, size_t bytes) {
    constexpr uint64_t most_queues = 8, most_pieces = 4096, most_nodes = 65536, most_bytes = 32 << 20;
    tell_limit("queues", capture.queues().size(), most_queues);
    tell_limit("pieces", writer.piece_count(), most_pieces);
    tell_limit("nodes", writer.nodes, most_nodes);
    tell_limit("bytes", bytes, most_bytes);
}

}  // namespace

void write_file(Capture &capture) {
    if (capture.queues().empty()) {
        std::fprintf(stderr, "framec capture: nothing was submitted meanwhile: nothing is written\n");
        return;
    }
    Writer writer(capture);
    const std::string text = writer.text();
    const std::string &path = settings()->file;
    if (!store(path, text)) {
        std::fprintf(stderr, "framec capture: cannot write %s\n", path.c_str());
        return;
    }
    std::fprintf(stderr, "framec capture: wrote %s: %zu queues, %zu pieces, %llu nodes, %llu dependencies, %zu bytes\n", path.c_str(),
                 capture.queues().size(), writer.piece_count(), static_cast<unsigned long long>(writer.nodes),
                 static_cast<unsigned long long>(writer.items().dependencies()), text.size());
    if (settings()->left_out && !writer.items().left_one_out()) {
        std::fprintf(stderr, "framec capture: there is no dependency %llu to leave out\n",
                     static_cast<unsigned long long>(*settings()->left_out));
    }
    tell_limits(capture, writer, text.size());
    tell(capture);
}
