// Shaders that touch each descriptor once, loads before stores.
#pragma once

#include "context.hpp"

namespace replay {

// The descriptors of a draw or dispatch, in the order of its uses that have one.
std::vector<Binding> bindings_of(Context &context, const std::vector<Use> &uses);
// The text of one of its shaders. `attributes` are a vertex shader's inputs, `colors` the channels of a fragment shader's outputs.
std::string shader_text(const Context &context, const std::vector<Use> &uses, VkPipelineStageFlags2 stage, size_t attributes,
                        const std::vector<Channel> &colors);
bool has_descriptor(Role role);

} // namespace replay
