#include "kernel_text.hpp"

namespace replay {

namespace {

struct Operand {
    bool image;
    bool bytes; // texels of one byte
};

Operand operand_of(const Piece &piece) { return {piece.is_image(), piece.is_image() && piece.texel == Texel::r8}; }

std::string source_text(size_t number, const Operand &operand) {
    const std::string k = std::to_string(number);
    const std::string binding = "layout(set = 0, binding = " + k;
    if (operand.image)
        return binding + ") uniform usampler2D source" + k + ";\nuint load" + k + "(ivec2 at) { return texelFetch(source" + k +
               ", at, 0).r; }\n";
    return binding + ", std430) readonly buffer Source" + k + " { uint words[]; } source" + k + ";\nuint load" + k +
           "(ivec2 at) { return source" + k + ".words[at.x]; }\n";
}

std::string destination_text(size_t number, const Operand &operand) {
    const std::string binding = "layout(set = 0, binding = " + std::to_string(number);
    if (operand.image)
        return binding + (operand.bytes ? ", r8ui" : ", r32ui") +
               ") writeonly uniform uimage2D destination;\n"
               "void store(ivec2 at, uint value) { imageStore(destination, at, uvec4(value & mask)); }\n";
    return binding + ", std430) writeonly buffer Destination { uint words[]; } destination;\n"
                     "void store(ivec2 at, uint value) { destination.words[at.x] = value; }\n";
}

const char *function_text(Function function) {
    switch (function) {
    case Function::add:
        return "a + b";
    case Function::sub:
        return "a - b";
    case Function::mul:
        return "a * b";
    case Function::bit_and:
        return "a & b";
    case Function::bit_or:
        return "a | b";
    case Function::bit_xor:
        return "a ^ b";
    case Function::min:
        return "min(a, b)";
    case Function::max:
        return "max(a, b)";
    case Function::shl:
        return "a << (b % bits)";
    case Function::shr:
        return "a >> (b % bits)";
    }
    return "";
}

// Sums of means do not fit into a word, so quotients and rests are added apart.
std::string mean_text(uint32_t count) {
    const std::string n = std::to_string(count);
    return "uint mean(uint texels[" + n + "]) {\n    uint quotients = 0, rests = 0;\n    for (int k = 0; k < " + n +
           "; ++k) {\n        quotients += texels[k] / " + n + ";\n        rests += texels[k] % " + n +
           ";\n    }\n    return quotients + rests / " + n + ";\n}\n";
}

constexpr const char *box_text = R"(uint result(ivec2 at) {
    uint texels[9];
    ivec2 last = ivec2(numbers.width, numbers.height) - 1;
    for (int k = 0; k < 9; ++k)
        texels[k] = load0(clamp(at + ivec2(k % 3, k / 3) - 1, ivec2(0), last));
    return mean(texels);
}
)";

constexpr const char *halve_text = R"(uint result(ivec2 at) {
    uint texels[4];
    for (int k = 0; k < 4; ++k)
        texels[k] = load0(2 * at + ivec2(k % 2, k / 2));
    return mean(texels);
}
)";

std::string result_text(const Kernel &kernel) {
    const auto returns = [](const std::string &value) { return "uint result(ivec2 at) { return " + value + "; }\n"; };
    const std::string function = std::string("uint function(uint a, uint b) { return ") + function_text(kernel.function) + "; }\n";
    switch (kernel.kind) {
    case KernelKind::ramp:
        return returns("numbers.base + uint(at.x) * numbers.dx + uint(at.y) * numbers.dy");
    case KernelKind::map:
        return function + returns("function(load0(at), numbers.value & mask)");
    case KernelKind::combine:
        return function + returns("function(load0(at), load1(at))");
    case KernelKind::select:
        return returns("load0(at) == 0 ? load2(at) : load1(at)");
    case KernelKind::convert:
        return returns("load0(at)");
    case KernelKind::box3:
        return mean_text(9) + box_text;
    case KernelKind::halve:
        return mean_text(4) + halve_text;
    case KernelKind::histogram:
        break;
    }
    return "";
}

constexpr const char *histogram_main = R"(shared uint counts[256];
void main() {
    uint own = gl_LocalInvocationIndex;
    counts[own] = 0;
    barrier();
    for (uint k = own; k < numbers.width * numbers.height; k += 256)
        atomicAdd(counts[load0(ivec2(k % numbers.width, k / numbers.width))], 1);
    barrier();
    store(ivec2(own, 0), counts[own]);
}
)";

constexpr const char *texel_main = R"(void main() {
    uvec2 at = gl_GlobalInvocationID.xy;
    if (at.x < numbers.width && at.y < numbers.height)
        store(ivec2(at), result(ivec2(at)));
}
)";

} // namespace

std::string kernel_text(const Kernel &kernel, const Program &program) {
    const Operand destination = operand_of(program.pieces[kernel.destination]);
    const bool line = !destination.image;
    std::string text = "#version 460\nlayout(local_size_x = " + std::to_string(line ? kernel_line : kernel_side) +
                       ", local_size_y = " + std::to_string(line ? 1 : kernel_side) + ") in;\n";
    text += "layout(push_constant) uniform Numbers { uint base, dx, dy, value, width, height; } numbers;\n";
    text += destination.bytes ? "const uint mask = 0xff, bits = 8;\n" : "const uint mask = 0xffffffff, bits = 32;\n";
    for (size_t k = 0; k < kernel.sources.size(); ++k)
        text += source_text(k, operand_of(program.pieces[kernel.sources[k]]));
    text += destination_text(kernel.sources.size(), destination);
    return text + result_text(kernel) + (kernel.kind == KernelKind::histogram ? histogram_main : texel_main);
}

} // namespace replay
