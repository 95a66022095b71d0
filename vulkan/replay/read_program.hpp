// Reads submission files of formats 1, 2 and 3.
#pragma once

#include "program.hpp"

#include <string_view>

namespace replay {

// What is no submission file is refused at its first fault. `check` tests more; here is tested what Vulkan needs.
Program read_program(std::string_view text);

} // namespace replay
