// A value of a JSON text with its path, so that what is refused is told at its place.
#pragma once

#include <nlohmann/json.hpp>

#include <set>
#include <string>
#include <string_view>
#include <vector>

namespace replay {

class JsonValue {
  public:
    JsonValue(const nlohmann::json &value, std::string path) : value(&value), place(std::move(path)) {}

    const std::string &path() const { return place; }
    [[noreturn]] void refuse(const std::string &what) const;

    // Members of an object. `unknown` refuses one that nobody has asked for.
    JsonValue member(const char *name);
    bool has(const char *name) const;
    void unknown() const;

    std::vector<JsonValue> entries() const;
    uint64_t number(uint64_t least, uint64_t most) const;
    uint32_t number() const { return static_cast<uint32_t>(number(0, UINT32_MAX)); }
    std::string text() const;
    bool truth() const;

  private:
    const nlohmann::json &object() const;

    const nlohmann::json *value;
    std::string place;
    std::set<std::string> asked;
};

} // namespace replay
