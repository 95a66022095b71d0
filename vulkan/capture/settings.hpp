#pragma once
#include <cstdint>
#include <optional>
#include <string>

// What the environment asks for.
//
//   FRAMEC_CAPTURE=first,count,file[,submissions]
//   FRAMEC_CAPTURE_LEAVE_OUT=number of a dependency of the file
struct Settings {
    enum class Unit { frames, submissions };
    uint64_t first = 0;
    uint64_t count = 1;
    std::string file;
    Unit unit = Unit::frames;
    std::optional<uint64_t> left_out;
};

// Nothing where no capture is asked for, or where what is asked for cannot be read (which is told).
const std::optional<Settings> &settings();
