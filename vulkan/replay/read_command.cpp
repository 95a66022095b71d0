#include "read_command.hpp"

#include "masks.hpp"

#include <map>

namespace replay {

namespace {

class CommandReader {
  public:
    CommandReader(JsonValue &item, uint32_t pieces) : item(item), pieces(pieces) {}

    PieceNumber operand(const char *name) { return piece_of(item.member(name)); }
    uint32_t number(const char *name) { return item.member(name).number(); }

    PieceNumber piece_of(const JsonValue &value) const {
        const uint32_t piece = value.number();
        if (piece >= pieces)
            value.refuse("there is no piece " + std::to_string(piece));
        return piece;
    }

    Function function() {
        static const std::map<std::string, Function> functions = {
            {"add", Function::add},       {"sub", Function::sub},     {"mul", Function::mul}, {"and", Function::bit_and},
            {"or", Function::bit_or},     {"xor", Function::bit_xor}, {"min", Function::min}, {"max", Function::max},
            {"shl", Function::shl},       {"shr", Function::shr},
        };
        const JsonValue value = item.member("fun");
        const auto found = functions.find(value.text());
        if (found == functions.end())
            value.refuse("no function");
        return found->second;
    }

    Kernel kernel(KernelKind kind, std::initializer_list<const char *> sources) {
        Kernel kernel{kind, {}, 0, Function::add, {}};
        for (const char *source : sources)
            kernel.sources.push_back(operand(source));
        kernel.destination = operand("dst");
        return kernel;
    }

    Kernel ramp() {
        Kernel kernel = this->kernel(KernelKind::ramp, {});
        kernel.numbers = {number("base"), number("dx"), number("dy"), 0};
        return kernel;
    }

    Kernel map() {
        Kernel kernel = this->kernel(KernelKind::map, {"src"});
        kernel.function = function();
        kernel.numbers.value = number("value");
        return kernel;
    }

    Kernel combine() {
        Kernel kernel = this->kernel(KernelKind::combine, {"a", "b"});
        kernel.function = function();
        return kernel;
    }

    Draw draw() {
        Draw draw{operand("dst"), std::nullopt, {}};
        if (item.has("clear"))
            draw.clear = number("clear");
        for (JsonValue entry : item.member("rects").entries())
            draw.rectangles.push_back(rectangle(entry));
        return draw;
    }

    Action action() {
        Action action;
        number("code");
        for (JsonValue entry : item.member("uses").entries())
            action.uses.push_back(use(entry));
        return action;
    }

  private:
    static Rectangle rectangle(JsonValue &entry) {
        static const std::map<std::string, Mix> mixes = {
            {"set", Mix::set}, {"and", Mix::bit_and}, {"or", Mix::bit_or}, {"xor", Mix::bit_xor}};
        Rectangle read{entry.member("x").number(),      entry.member("y").number(), entry.member("width").number(),
                       entry.member("height").number(), Mix::set,                   0};
        if (entry.has("mix")) {
            const auto found = mixes.find(entry.member("mix").text());
            if (found == mixes.end())
                entry.refuse("no mix");
            read.mix = found->second;
        }
        read.value = entry.member("value").number();
        entry.unknown();
        return read;
    }

    Use use(JsonValue &entry) const {
        const PieceNumber piece = piece_of(entry.member("piece"));
        const auto role = role_of(entry.member("as").text());
        if (!role)
            entry.refuse("no role of a use");
        Use use{piece, *role, 0, default_layout(*role), keeps_by_default(*role)};
        if (has_stages(*role)) {
            const auto stages = stages_of(entry.member("stage").text());
            if (!stages || *stages == 0)
                entry.refuse("no stages of a use");
            use.stages = *stages;
        }
        if (entry.has("layout")) {
            const auto layout = layout_of(entry.member("layout").text());
            if (!layout)
                entry.refuse("no layout");
            use.layout = *layout;
        }
        if (entry.has("keeps"))
            use.keeps = entry.member("keeps").truth();
        entry.unknown();
        return use;
    }

    JsonValue &item;
    uint32_t pieces;
};

} // namespace

Command read_command(JsonValue &item, uint32_t pieces, bool wide) {
    CommandReader reader(item, pieces);
    const JsonValue word = item.member("op");
    const std::string op = word.text();
    const auto operand = [&](const char *name) { return reader.operand(name); };
    const auto number = [&](const char *name) { return reader.number(name); };
    if (op == "fill_buffer")
        return FillBuffer{operand("dst"), number("offset"), number("size"), number("word")};
    if (op == "clear_image")
        return ClearImage{operand("dst"), number("value")};
    if (op == "copy_buffer")
        return CopyBuffer{operand("src"), operand("dst"), number("src_offset"), number("dst_offset"), number("size")};
    if (op == "copy_image")
        return CopyImage{operand("src"),  operand("dst"),  number("src_x"), number("src_y"),
                         number("dst_x"), number("dst_y"), number("width"), number("height")};
    if (op == "buffer_to_image")
        return BufferToImage{operand("src"), operand("dst"), number("offset")};
    if (op == "image_to_buffer")
        return ImageToBuffer{operand("src"), operand("dst"), number("offset")};
    if (op == "ramp")
        return reader.ramp();
    if (op == "map")
        return reader.map();
    if (op == "combine")
        return reader.combine();
    if (op == "select")
        return reader.kernel(KernelKind::select, {"mask", "a", "b"});
    if (op == "convert")
        return reader.kernel(KernelKind::convert, {"src"});
    if (op == "box3")
        return reader.kernel(KernelKind::box3, {"src"});
    if (op == "halve")
        return reader.kernel(KernelKind::halve, {"src"});
    if (op == "histogram")
        return reader.kernel(KernelKind::histogram, {"src"});
    if (op == "draw")
        return reader.draw();
    if (op == "action" && wide)
        return reader.action();
    word.refuse("no operation");
}

} // namespace replay
