// What all recording needs, and what has to live until the device is done.
#pragma once

#include "bindings.hpp"

#include <deque>
#include <map>
#include <string>

namespace replay {

struct Context {
    const Device &device;
    const Program &program;
    const Resources &resources;
    Shaders &shaders;
    Resources::Note note;

    // Objects that recorded commands name.
    std::deque<BoundSet> sets{};
    std::deque<OwnedPipeline> pipelines{};
    std::map<std::string, VkPipeline> kept_pipelines{}; // by what they are made of
    std::deque<OwnedRenderPass> passes{};
    std::deque<OwnedFramebuffer> framebuffers{};
    OwnedSampler sampler{};

    VkSampler nearest();
};

} // namespace replay
