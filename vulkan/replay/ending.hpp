// How a run of this program ends: its status, and what it says then.
#pragma once

#include <stdexcept>
#include <string>

namespace replay {

enum class Ending {
    replayed = 0,
    messages = 1,     // replayed, and the validation layer has given messages
    refused = 2,      // the file is no submission file, or cannot be replayed here
    words = 3,        // the words are no command line
    read_failed = 4,
    write_failed = 5,
    stuck = 6,        // no queue can go on; nothing was submitted
    vulkan = 7,       // Vulkan failed, or the device or a layer is missing
    not_together = 8, // uses that Vulkan cannot make together
};

struct Ended : std::runtime_error {
    Ended(Ending ending, const std::string &what) : std::runtime_error(what), ending(ending) {}
    Ending ending;
};

} // namespace replay
