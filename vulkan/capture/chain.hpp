#pragma once
#include <vulkan/vulkan.h>

// The structure of a type in a pNext chain, or nullptr.
template <class Wanted> const Wanted *in_chain(const void *chain, VkStructureType type) {
    for (auto *next = static_cast<const VkBaseInStructure *>(chain); next != nullptr; next = next->pNext) {
        if (next->sType == type) return reinterpret_cast<const Wanted *>(next);
    }
    return nullptr;
}
