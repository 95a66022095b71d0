// Barriers, releases and acquires as calls of vkCmdPipelineBarrier2.
#pragma once

#include "context.hpp"

namespace replay {

class Dependency {
  public:
    // `execution`: a global barrier with the same stages and no accesses stands beside each. The standard does not bind the order that a
    // barrier gives to its resource; a layer may.
    Dependency(const Context &context, bool execution) : context(context), execution(execution) {}

    void add(const Barrier &barrier);
    // One call for all that was added; nothing where nothing was.
    void record(VkCommandBuffer commands);

  private:
    template <typename Vulkan> void fill(Vulkan &made, const Barrier &barrier) const;
    void add_global(const Masks &masks);

    const Context &context;
    bool execution;
    std::vector<VkMemoryBarrier2> globals;
    std::vector<VkBufferMemoryBarrier2> buffers;
    std::vector<VkImageMemoryBarrier2> images;
};

VkImageMemoryBarrier2 transition(const ImageResource &image, Layouts layouts, const Masks &masks);

} // namespace replay
