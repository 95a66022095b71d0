#include "json_value.hpp"

#include "ending.hpp"

namespace replay {

void JsonValue::refuse(const std::string &what) const { throw Ended(Ending::refused, place + ": " + what); }

const nlohmann::json &JsonValue::object() const {
    if (!value->is_object())
        refuse("no object");
    return *value;
}

JsonValue JsonValue::member(const char *name) {
    const auto found = object().find(name);
    if (found == object().end())
        throw Ended(Ending::refused, place + "." + name + ": is absent");
    asked.insert(name);
    return {*found, place + "." + name};
}

bool JsonValue::has(const char *name) const { return object().contains(name); }

void JsonValue::unknown() const {
    for (const auto &member : object().items())
        if (!asked.contains(member.key()))
            throw Ended(Ending::refused, place + "." + member.key() + ": is unknown here");
}

std::vector<JsonValue> JsonValue::entries() const {
    if (!value->is_array())
        refuse("no list");
    std::vector<JsonValue> found;
    for (size_t k = 0; k < value->size(); ++k)
        found.emplace_back((*value)[k], place + "[" + std::to_string(k) + "]");
    return found;
}

uint64_t JsonValue::number(uint64_t least, uint64_t most) const {
    if (!value->is_number_unsigned())
        refuse("no whole number");
    const auto found = value->get<uint64_t>();
    if (found < least || found > most)
        refuse("not from " + std::to_string(least) + " to " + std::to_string(most));
    return found;
}

std::string JsonValue::text() const {
    if (!value->is_string())
        refuse("no text");
    return value->get<std::string>();
}

bool JsonValue::truth() const {
    if (!value->is_boolean())
        refuse("no truth value");
    return value->get<bool>();
}

} // namespace replay
