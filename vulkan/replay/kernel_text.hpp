// The shader of a kernel, as a text in GLSL.
#pragma once

#include "operation.hpp"
#include "program.hpp"

#include <string>

namespace replay {

inline constexpr uint32_t kernel_side = 16;      // of a workgroup over an image
inline constexpr uint32_t kernel_line = 256;     // of one over a buffer, and of a histogram's

// What a kernel is told at each dispatch; the order is that of the shader's block.
struct KernelConstants {
    uint32_t base, dx, dy, value, width, height;
};

std::string kernel_text(const Kernel &kernel, const Program &program);

} // namespace replay
