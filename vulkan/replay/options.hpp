// The words of the command line.
#pragma once

#include <string>

namespace replay {

struct Options {
    std::string file;        // empty: standard input
    std::string layers;      // where the manifest of the families layer stands
    std::string shaders;     // where compiled shaders are kept
    bool families = false;   // show three families of several queues
    bool syncval = false;    // under synchronization validation
    bool core = false;       // its other checks too
    bool reverse = false;    // the highest queue first
    bool execution = false;  // each barrier orders more than its resource
    bool describe = false;   // tell where pieces are bound
    bool help = false;       // print the usage, and do nothing else
};

extern const char *const usage;

Options read_options(int count, char **words);

} // namespace replay
