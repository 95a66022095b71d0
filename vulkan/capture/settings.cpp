#include "settings.hpp"

#include <charconv>
#include <cstdio>
#include <cstdlib>
#include <string_view>
#include <vector>

namespace {

std::optional<uint64_t> whole_number(std::string_view text) {
    uint64_t number = 0;
    const char *end = text.data() + text.size();
    const auto [stop, error] = std::from_chars(text.data(), end, number);
    if (text.empty() || error != std::errc() || stop != end) return std::nullopt;
    return number;
}

std::vector<std::string_view> split(std::string_view text) {
    std::vector<std::string_view> parts;
    for (size_t comma = text.find(','); comma != std::string_view::npos; comma = text.find(',')) {
        parts.push_back(text.substr(0, comma));
        text.remove_prefix(comma + 1);
    }
    parts.push_back(text);
    return parts;
}

std::optional<Settings> parse(std::string_view text) {
    const auto parts = split(text);
    if (parts.size() != 3 && parts.size() != 4) return std::nullopt;
    const auto first = whole_number(parts[0]);
    const auto count = whole_number(parts[1]);
    if (!first || !count || *count == 0 || parts[2].empty()) return std::nullopt;
    if (parts.size() == 4 && parts[3] != "submissions") return std::nullopt;
    Settings read;
    read.first = *first;
    read.count = *count;
    read.file = parts[2];
    read.unit = parts.size() == 4 ? Settings::Unit::submissions : Settings::Unit::frames;
    return read;
}

std::optional<Settings> read() {
    const char *text = std::getenv("FRAMEC_CAPTURE");
    if (text == nullptr) return std::nullopt;
    auto asked = parse(text);
    if (!asked) {
        std::fprintf(stderr, "framec capture: FRAMEC_CAPTURE is \"%s\", not first,count,file[,submissions]: nothing is captured\n",
                     text);
        return std::nullopt;
    }
    if (const char *number = std::getenv("FRAMEC_CAPTURE_LEAVE_OUT")) {
        asked->left_out = whole_number(number);
        if (!asked->left_out) {
            std::fprintf(stderr, "framec capture: FRAMEC_CAPTURE_LEAVE_OUT is \"%s\", not a number: nothing is captured\n", number);
            return std::nullopt;
        }
    }
    return asked;
}

}  // namespace

const std::optional<Settings> &settings() {
    // Never destroyed: a program that ends without destroying its device has its file written then.
    static const auto *asked = new std::optional<Settings>(read());
    return *asked;
}
