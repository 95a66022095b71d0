// Where the pieces of one memory are bound, given what the device wants for each.
#pragma once

#include <cstdint>
#include <optional>
#include <vector>

namespace replay {

struct Wanted {
    uint64_t start, end;      // in the file
    uint64_t size, alignment; // on the device
};

enum class Placing {
    as_told,  // each piece lies where the file has it
    spread,   // at other places, at which the same ones overlap
    separate, // each has a memory of its own, since no such places were found
};

struct Places {
    Placing placing;
    std::vector<uint64_t> starts;
};

Places places_of(const std::vector<Wanted> &pieces);

} // namespace replay
