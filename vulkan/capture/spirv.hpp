#pragma once
#include <cstdint>
#include <span>
#include <string>
#include <string_view>
#include <vector>

// What an entry point of a SPIR-V module statically uses of descriptors.
namespace spirv {

struct Use {
    uint32_t set = 0, binding = 0;
    bool loads = false, stores = false;
};

using Module = std::vector<uint32_t>;

// Stores are seen through access chains, copies, function arguments and loaded images. A
// storage resource that is only passed on to a function counts as loaded, and as stored
// where it is not NonWritable. `addresses` tells whether the module reads memory through buffer
// addresses, which nobody can follow.
struct Uses {
    std::vector<Use> of;
    bool addresses = false;
};

Uses uses_of(std::span<const uint32_t> module, std::string_view entry_point, uint32_t execution_model);

}  // namespace spirv
