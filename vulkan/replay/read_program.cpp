#include "read_program.hpp"

#include "ending.hpp"
#include "json_value.hpp"
#include "read_command.hpp"

namespace replay {

namespace {

constexpr uint32_t newest_format = 3;
constexpr uint64_t most_layers = 8;
constexpr uint64_t between_layers = 256;

int digit_of(char letter) {
    if (letter >= '0' && letter <= '9')
        return letter - '0';
    const char lower = static_cast<char>(letter | 0x20);
    return lower >= 'a' && lower <= 'f' ? lower - 'a' + 10 : -1;
}

std::vector<uint8_t> bytes_of(const JsonValue &value) {
    const std::string text = value.text();
    if (text.size() % 2 != 0)
        value.refuse("an odd number of digits");
    std::vector<uint8_t> bytes;
    for (size_t k = 0; k < text.size(); k += 2) {
        const int high = digit_of(text[k]), low = digit_of(text[k + 1]);
        if (high < 0 || low < 0)
            value.refuse("no hexadecimal text");
        bytes.push_back(static_cast<uint8_t>(16 * high + low));
    }
    return bytes;
}

Family family_of(const JsonValue &value) {
    const std::string text = value.text();
    if (text == "graphics")
        return Family::graphics;
    if (text == "compute")
        return Family::compute;
    if (text == "transfer")
        return Family::transfer;
    value.refuse("no family");
}

VkPipelineStageFlags2 read_stages(const JsonValue &value) {
    const auto stages = stages_of(value.text());
    if (!stages)
        value.refuse("no mask of stages");
    return *stages;
}

VkAccessFlags2 read_accesses(const JsonValue &value) {
    const auto accesses = accesses_of(value.text());
    if (!accesses)
        value.refuse("no mask of accesses");
    return *accesses;
}

VkImageLayout read_layout(const JsonValue &value) {
    const auto layout = layout_of(value.text());
    if (!layout)
        value.refuse("no layout");
    return *layout;
}

class ProgramReader {
  public:
    Program read(JsonValue root) {
        const uint64_t format = root.member("format").number();
        if (format < 1 || format > newest_format)
            throw Ended(Ending::refused, "$.format: not from 1 to 3");
        layers_known = format >= 2;
        wide = program.wide = format == newest_format;
        for (JsonValue entry : root.member("memories").entries())
            memory(entry);
        for (JsonValue entry : root.member("pieces").entries())
            piece(entry);
        const auto queues = root.member("queues").entries();
        queue_count = queues.size();
        for (JsonValue entry : queues)
            queue(entry);
        for (const JsonValue &entry : root.member("readbacks").entries())
            program.readbacks.push_back(readback(entry));
        name(root);
        return std::move(program);
    }

  private:
    // Names serve messages of others; here they are passed over.
    void name(JsonValue &object) const {
        if (wide && object.has("name"))
            object.member("name").text();
        object.unknown();
    }

    void memory(JsonValue &entry) {
        Memory memory;
        if (entry.has("size")) {
            memory.size = entry.member("size").number();
        } else {
            memory.opening = bytes_of(entry.member("import"));
            memory.size = memory.opening.size();
        }
        name(entry);
        program.memories.push_back(std::move(memory));
    }

    Piece shape(JsonValue &entry, uint64_t &layers) const {
        Piece piece{};
        if (entry.has("buffer")) {
            piece.shape = Shape::buffer;
            piece.bytes = entry.member("buffer").number(1, UINT32_MAX);
            return piece;
        }
        if (!entry.has("image") && wide && entry.has("texture")) {
            piece.shape = Shape::texture;
            piece.bytes = entry.member("texture").number(1, UINT32_MAX);
        } else {
            piece.shape = Shape::image;
            const JsonValue image = entry.member("image");
            const auto sides = image.entries();
            if (sides.size() != 2)
                image.refuse("not two sides");
            piece.width = static_cast<uint32_t>(sides[0].number(1, 16384));
            piece.height = static_cast<uint32_t>(sides[1].number(1, 16384));
            piece.texel = texel(entry.member("texel"));
            piece.bytes = uint64_t{piece.width} * piece.height * (piece.texel == Texel::r32 ? 4 : 1);
        }
        if (layers_known && entry.has("layers"))
            layers = entry.member("layers").number(1, most_layers);
        return piece;
    }

    static Texel texel(const JsonValue &value) {
        const std::string text = value.text();
        if (text != "r8" && text != "r32")
            value.refuse("no texel");
        return text == "r8" ? Texel::r8 : Texel::r32;
    }

    void piece(JsonValue &entry) {
        uint64_t layers = 1;
        Piece piece = shape(entry, layers);
        const JsonValue memory = entry.member("memory");
        piece.memory = memory.number();
        if (piece.memory >= program.memories.size())
            memory.refuse("there is no such memory");
        piece.offset = entry.member("offset").number();
        if (layers_known && entry.has("sharing"))
            piece.concurrent = sharing(entry.member("sharing"));
        outside(entry, piece);
        name(entry);
        for (uint64_t layer = 0; layer < layers; ++layer) {
            if (piece.end() > program.memories[piece.memory].size)
                entry.refuse("is not inside its memory");
            program.pieces.push_back(piece);
            piece.offset = (piece.end() + between_layers - 1) / between_layers * between_layers;
        }
    }

    static bool sharing(const JsonValue &value) {
        const std::string text = value.text();
        if (text != "exclusive" && text != "concurrent")
            value.refuse("no sharing mode");
        return text == "concurrent";
    }

    // The state before and after the file. Owners and contents are the checker's alone.
    void outside(JsonValue &entry, Piece &piece) const {
        for (const char *when : {"initial", "final"}) {
            if (!wide || !entry.has(when))
                continue;
            JsonValue state = entry.member(when);
            auto &layout = std::string_view(when) == "initial" ? piece.initial_layout : piece.final_layout;
            if (piece.is_image())
                layout = read_layout(state.member("layout"));
            if (state.has("family"))
                family_of(state.member("family"));
            if (std::string_view(when) == "initial" && state.has("contents"))
                state.member("contents").truth();
            state.unknown();
        }
    }

    PieceNumber readback(const JsonValue &value) const {
        const uint32_t piece = value.number();
        if (piece >= program.pieces.size() || program.pieces[piece].is_image())
            value.refuse("is no buffer");
        return piece;
    }

    void queue(JsonValue &entry) {
        Queue queue{family_of(entry.member("family")), {}};
        for (JsonValue one : entry.member("batches").entries())
            queue.batches.push_back(batch(one));
        name(entry);
        program.queues.push_back(std::move(queue));
    }

    Batch batch(JsonValue &entry) {
        Batch batch;
        if (entry.has("waits"))
            for (JsonValue one : entry.member("waits").entries())
                batch.waits.push_back(wait(one));
        if (entry.has("items"))
            for (JsonValue one : entry.member("items").entries())
                batch.items.push_back(item(one));
        if (entry.has("signal")) {
            JsonValue one = entry.member("signal");
            batch.signal = Signal{one.member("value").number(1, UINT64_MAX), read_stages(one.member("stage"))};
            one.unknown();
        }
        entry.unknown();
        return batch;
    }

    Wait wait(JsonValue &entry) const {
        const JsonValue queue = entry.member("queue");
        if (queue.number() >= queue_count)
            queue.refuse("there is no such queue");
        const Wait read{queue.number(), entry.member("value").number(1, UINT64_MAX), read_stages(entry.member("stage"))};
        entry.unknown();
        return read;
    }

    Item item(JsonValue &entry) {
        const JsonValue word = entry.member("item");
        const std::string kind = word.text();
        const auto pieces = static_cast<uint32_t>(program.pieces.size());
        Item read{entry.path(), {}};
        if (kind == "command") {
            read.what = read_command(entry, pieces, wide);
        } else if (const auto found = barrier_kind(kind)) {
            read.what = barrier(entry, *found);
        } else {
            word.refuse("no item");
        }
        name(entry);
        return read;
    }

    static std::optional<BarrierKind> barrier_kind(std::string_view word) {
        if (word == "global")
            return BarrierKind::global;
        if (word == "buffer")
            return BarrierKind::buffer;
        if (word == "image")
            return BarrierKind::image;
        if (word == "release")
            return BarrierKind::release;
        if (word == "acquire")
            return BarrierKind::acquire;
        return std::nullopt;
    }

    Barrier barrier(JsonValue &entry, BarrierKind kind) {
        Barrier read{};
        read.kind = kind;
        if (kind != BarrierKind::global)
            read.piece = barrier_piece(entry, kind);
        if (kind == BarrierKind::release || kind == BarrierKind::acquire) {
            read.from_family = family_of(entry.member("from_family"));
            read.to_family = family_of(entry.member("to_family"));
        }
        if (kind == BarrierKind::image || entry.has("from") || entry.has("to"))
            read.layouts = Layouts{read_layout(entry.member("from")), read_layout(entry.member("to"))};
        read.masks = {read_stages(entry.member("src_stage")), read_accesses(entry.member("src_access")),
                      read_stages(entry.member("dst_stage")), read_accesses(entry.member("dst_access"))};
        if (wide && entry.has("joined"))
            read.joined = entry.member("joined").truth();
        return read;
    }

    PieceNumber barrier_piece(JsonValue &entry, BarrierKind kind) const {
        const JsonValue number = entry.member("piece");
        const uint32_t piece = number.number();
        if (piece >= program.pieces.size())
            number.refuse("there is no piece " + std::to_string(piece));
        const bool image = program.pieces[piece].is_image();
        const bool transfer = kind == BarrierKind::release || kind == BarrierKind::acquire;
        if ((kind == BarrierKind::buffer && image) || (kind == BarrierKind::image && !image) ||
            (transfer && image != entry.has("from")))
            number.refuse("is a piece of another kind");
        return piece;
    }

    Program program;
    bool layers_known = false;
    bool wide = false;
    size_t queue_count = 0;
};

} // namespace

Program read_program(std::string_view text) {
    nlohmann::json value;
    try {
        value = nlohmann::json::parse(text);
    } catch (const nlohmann::json::exception &error) {
        throw Ended(Ending::refused, "$: no JSON value");
    }
    return ProgramReader().read(JsonValue(value, "$"));
}

} // namespace replay
