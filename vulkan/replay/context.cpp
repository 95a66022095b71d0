#include "context.hpp"

namespace replay {

VkSampler Context::nearest() {
    if (sampler.get() == VK_NULL_HANDLE) {
        const auto info = blank<VkSamplerCreateInfo>(VK_STRUCTURE_TYPE_SAMPLER_CREATE_INFO);
        sampler = made<OwnedSampler>(device.get(), vkCreateSampler, info, "vkCreateSampler");
    }
    return sampler.get();
}

} // namespace replay
