#include "spirv.hpp"

#include <map>
#include <optional>
#include <set>
#include <unordered_map>
#include <utility>

namespace spirv {
namespace {

enum Op : uint32_t {
    OpEntryPoint = 15, OpTypeImage = 25, OpTypeArray = 28, OpTypeRuntimeArray = 29, OpTypePointer = 32, OpFunction = 54,
    OpFunctionParameter = 55, OpFunctionEnd = 56, OpFunctionCall = 57, OpVariable = 59, OpImageTexelPointer = 60,
    OpLoad = 61, OpStore = 62, OpCopyMemory = 63, OpCopyMemorySized = 64, OpAccessChain = 65,
    OpInBoundsAccessChain = 66, OpPtrAccessChain = 67, OpArrayLength = 68, OpInBoundsPtrAccessChain = 70,
    OpDecorate = 71, OpMemberDecorate = 72, OpCopyObject = 83, OpSampledImage = 86, OpImageRead = 98,
    OpImageWrite = 99, OpImage = 100, OpAtomicLoad = 227, OpAtomicStore = 228, OpAtomicXor = 242, OpCopyLogical = 400,
};

enum Decoration : uint32_t { NonWritable = 24, NonReadable = 25, Binding = 33, DescriptorSet = 34 };

constexpr uint32_t physical_storage_buffer = 5349;
constexpr uint32_t image_for_storage = 2;
constexpr uint32_t dimension_of_subpass = 6;
constexpr size_t header_words = 5;

struct Instruction {
    uint32_t op;
    std::span<const uint32_t> words;
    uint32_t word(size_t place) const { return place < words.size() ? words[place] : 0; }
};

template <class Visit> void each_instruction(std::span<const uint32_t> module, Visit visit) {
    size_t place = header_words;
    while (place < module.size()) {
        const uint32_t count = module[place] >> 16;
        if (count == 0 || place + count > module.size()) return;
        visit(Instruction{module[place] & 0xffff, module.subspan(place, count)});
        place += count;
    }
}

std::string_view literal_text(std::span<const uint32_t> words) {
    const std::string_view bytes(reinterpret_cast<const char *>(words.data()), words.size_bytes());
    return bytes.substr(0, bytes.find('\0'));
}

bool is_chain(uint32_t op) {
    return op == OpAccessChain || op == OpInBoundsAccessChain || op == OpPtrAccessChain || op == OpInBoundsPtrAccessChain;
}

bool is_atomic(uint32_t op) { return op >= OpAtomicLoad && op <= OpAtomicXor; }

// What a module says of its descriptors and functions.
class Reader {
  public:
    explicit Reader(std::span<const uint32_t> module) {
        each_instruction(module, [&](const Instruction &next) { declare(next); });
        each_instruction(module, [&](const Instruction &next) { follow(next); });
    }

    Uses of(std::string_view name, uint32_t model) const {
        Uses found;
        found.addresses = addresses;
        std::map<std::pair<uint32_t, uint32_t>, Use> merged;
        for (const uint32_t function : reachable(entry(name, model))) {
            const auto touched = functions.find(function);
            if (touched == functions.end()) continue;
            for (const auto &[variable, access] : touched->second.touched) add(merged, variable, access);
        }
        for (const auto &[place, use] : merged) found.of.push_back(use);
        return found;
    }

  private:
    struct Access {
        bool loads = false, stores = false;
    };
    struct Function {
        std::set<uint32_t> calls;
        std::map<uint32_t, Access> touched;
    };
    struct EntryPoint {
        std::string_view name;
        uint32_t model, function;
    };

    void declare(const Instruction &next) {
        const uint32_t target = next.word(1);
        if (next.op == OpEntryPoint) {
            constexpr size_t name_place = 3;
            if (next.words.size() > name_place) entries.push_back({literal_text(next.words.subspan(name_place)), next.word(1), next.word(2)});
        } else if (next.op == OpDecorate && next.word(2) == Binding) {
            bindings[target] = next.word(3);
        } else if (next.op == OpDecorate && next.word(2) == DescriptorSet) {
            sets[target] = next.word(3);
        } else if (next.op == OpDecorate && next.word(2) == NonWritable) {
            non_writable.insert(target);
        } else if (next.op == OpDecorate && next.word(2) == NonReadable) {
            non_readable.insert(target);
        } else {
            declare_type(next);
        }
    }

    void declare_type(const Instruction &next) {
        if (next.op == OpTypePointer) {
            addresses |= next.word(2) == physical_storage_buffer;
            if (storage_images.contains(next.word(3))) storage_images.insert(next.word(1));
        } else if (next.op == OpTypeImage) {
            if (next.word(7) == image_for_storage && next.word(3) != dimension_of_subpass) storage_images.insert(next.word(1));
        } else if (next.op == OpTypeArray || next.op == OpTypeRuntimeArray) {
            if (storage_images.contains(next.word(2))) storage_images.insert(next.word(1));
        } else if (next.op == OpVariable) {
            if (storage_images.contains(next.word(1))) storage_images.insert(next.word(2));
        }
    }

    void follow(const Instruction &next) {
        if (next.op == OpFunction) {
            current = next.word(2);
            functions[current];
        } else if (next.op == OpFunctionEnd) {
            current = 0;
        } else if (current != 0) {
            body(next);
        }
    }

    // The descriptor variable that an identifier leads back to.
    std::optional<uint32_t> variable_of(uint32_t id) const {
        if (bindings.contains(id)) return id;
        const auto found = roots.find(id);
        return found == roots.end() ? std::nullopt : std::optional(found->second);
    }

    void derive(uint32_t result, uint32_t from) {
        if (const auto variable = variable_of(from)) roots[result] = *variable;
    }

    void touch(uint32_t id, bool loads, bool stores) {
        const auto variable = variable_of(id);
        if (!variable) return;
        Access &access = functions[current].touched[*variable];
        access.loads |= loads;
        access.stores |= stores;
    }

    void body(const Instruction &next) {
        if (is_chain(next.op) || next.op == OpCopyObject || next.op == OpSampledImage || next.op == OpImage) {
            derive(next.word(2), next.word(3));
        } else if (next.op == OpLoad) {
            derive(next.word(2), next.word(3));
            load(next.word(3));
        } else if (next.op == OpStore) {
            touch(next.word(1), false, true);
        } else if (next.op == OpCopyMemory || next.op == OpCopyMemorySized) {
            touch(next.word(1), false, true);
            touch(next.word(2), true, false);
        } else if (next.op == OpImageTexelPointer) {
            derive(next.word(2), next.word(3));
            touch(next.word(3), false, false);
        } else if (next.op == OpImageWrite) {
            touch(next.word(1), false, true);
        } else if (next.op == OpImageRead) {
            touch(next.word(3), true, false);
        } else if (next.op == OpArrayLength) {
            touch(next.word(3), false, false);
        } else if (next.op == OpAtomicStore) {
            touch(next.word(1), false, true);
        } else if (is_atomic(next.op)) {
            touch(next.word(3), true, next.op != OpAtomicLoad);
        } else if (next.op == OpFunctionCall) {
            call(next);
        }
    }

    // Loading the handle of a storage image is no access of the image: OpImageRead and
    // OpImageWrite are. Many instructions sample, so other images are loaded where their handle is.
    void load(uint32_t pointer) {
        const auto variable = variable_of(pointer);
        touch(pointer, variable && !storage_images.contains(*variable), false);
    }

    void call(const Instruction &next) {
        functions[current].calls.insert(next.word(3));
        for (size_t argument = 4; argument < next.words.size(); ++argument) {
            touch(next.word(argument), true, true);
        }
    }

    uint32_t entry(std::string_view name, uint32_t model) const {
        for (const EntryPoint &point : entries) {
            if (point.name == name && point.model == model) return point.function;
        }
        return entries.size() == 1 ? entries.front().function : 0;
    }

    std::set<uint32_t> reachable(uint32_t from) const {
        std::set<uint32_t> found;
        std::vector<uint32_t> open{from};
        while (!open.empty()) {
            const uint32_t next = open.back();
            open.pop_back();
            const auto function = functions.find(next);
            if (function == functions.end() || !found.insert(next).second) continue;
            open.insert(open.end(), function->second.calls.begin(), function->second.calls.end());
        }
        return found;
    }

    void add(std::map<std::pair<uint32_t, uint32_t>, Use> &merged, uint32_t variable, Access access) const {
        const auto set = sets.find(variable);
        const uint32_t number = set == sets.end() ? 0 : set->second;
        Use &use = merged[{number, bindings.at(variable)}];
        use.set = number;
        use.binding = bindings.at(variable);
        use.loads |= access.loads && !non_readable.contains(variable);
        use.stores |= access.stores && !non_writable.contains(variable);
    }

    std::vector<EntryPoint> entries;
    std::unordered_map<uint32_t, uint32_t> bindings, sets, roots;
    std::set<uint32_t> non_writable, non_readable;
    // Types and variables of storage images.
    std::set<uint32_t> storage_images;
    std::map<uint32_t, Function> functions;
    uint32_t current = 0;
    bool addresses = false;
};

}  // namespace

Uses uses_of(std::span<const uint32_t> module, std::string_view entry_point, uint32_t execution_model) {
    if (module.size() < header_words) return {};
    return Reader(module).of(entry_point, execution_model);
}

}  // namespace spirv
