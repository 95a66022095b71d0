#include "options.hpp"

#include "ending.hpp"

#include <cstdlib>
#include <filesystem>
#include <string_view>

namespace replay {

const char *const usage = R"(usage: framec-replay [OPTION]... [FILE]

Replays a submission file on a Vulkan device, and prints what the host reads. Without FILE standard input is read.

  --families     load the layer that shows three families of eight queues
  --layers DIR   where that layer's manifest stands; else in the build folder
  --syncval      run under Khronos' synchronization validation; print "messages N", and each
                 distinct message with its count, name and text
  --core         with --syncval: its other checks too
  --reverse      take the highest queue that can go on first, not the lowest
  --execution    put a global barrier with the same stages and no accesses beside each barrier
  --shaders DIR  where compiled shaders are kept; else in the user's cache
  --describe     tell on standard error where each piece is bound
  --help         print this

status: 0  replayed
        1  replayed, and the validation layer gave a message
        2  the file has a fault, or this device cannot take it; the message says what and where
        3  these words are no command line
        4  a read failed
        5  a write failed
        6  the queues are stuck; nothing was submitted
        7  Vulkan failed, or the device or a layer is missing
        8  uses of an action, or of one image, that Vulkan cannot make together)";

namespace {

std::string beside_the_program() { return std::filesystem::read_symlink("/proc/self/exe").parent_path().parent_path() / "families"; }

std::string cache_of_the_user() {
    if (const char *cache = std::getenv("XDG_CACHE_HOME"); cache != nullptr && *cache != '\0')
        return std::filesystem::path(cache) / "framec-replay";
    if (const char *home = std::getenv("HOME"); home != nullptr && *home != '\0')
        return std::filesystem::path(home) / ".cache" / "framec-replay";
    return std::filesystem::temp_directory_path() / "framec-replay";
}

bool *flag_of(Options &options, std::string_view word) {
    if (word == "--families")
        return &options.families;
    if (word == "--syncval")
        return &options.syncval;
    if (word == "--core")
        return &options.core;
    if (word == "--reverse")
        return &options.reverse;
    if (word == "--execution")
        return &options.execution;
    if (word == "--describe")
        return &options.describe;
    if (word == "--help")
        return &options.help;
    return nullptr;
}

} // namespace

Options read_options(int count, char **words) {
    Options options;
    for (int k = 1; k < count; ++k) {
        const std::string_view word = words[k];
        std::string *value = word == "--layers" ? &options.layers : word == "--shaders" ? &options.shaders : nullptr;
        if (bool *flag = flag_of(options, word)) {
            *flag = true;
        } else if (value != nullptr && k + 1 < count) {
            *value = words[++k];
        } else if (!word.starts_with("-") && options.file.empty()) {
            options.file = word;
        } else {
            throw Ended(Ending::words, usage);
        }
    }
    if (options.core && !options.syncval)
        throw Ended(Ending::words, usage);
    if (options.layers.empty())
        options.layers = beside_the_program();
    if (options.shaders.empty())
        options.shaders = cache_of_the_user();
    return options;
}

} // namespace replay
