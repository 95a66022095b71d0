// Reads operations and actions.
#pragma once

#include "json_value.hpp"
#include "operation.hpp"

namespace replay {

// `pieces` is how many there are, `wide` whether the file is of format 3.
Command read_command(JsonValue &item, uint32_t pieces, bool wide);

} // namespace replay
