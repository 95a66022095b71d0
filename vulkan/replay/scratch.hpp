// Resources that the file does not have: the other side of an action's copies, blits and resolves.
#pragma once

#include "resources.hpp"

#include <deque>

namespace replay {

class Scratch {
  public:
    explicit Scratch(const Device &device) : device(device) {}

    VkBuffer buffer(VkDeviceSize size);
    // An image that will be in the layout GENERAL before anything is submitted.
    VkImage image(ImageKind kind);

    const std::deque<ImageResource> &images() const { return made_images; }

  private:
    void keep(const VkMemoryRequirements &needs);

    const Device &device;
    std::deque<OwnedMemory> memories;
    std::deque<OwnedBuffer> made_buffers;
    std::deque<ImageResource> made_images;
};

} // namespace replay
