// Shaders from texts in GLSL, by the distribution's glslangValidator.
#pragma once

#include "device.hpp"

#include <filesystem>
#include <map>
#include <string>

namespace replay {

class Shaders {
  public:
    // What was compiled is kept in `folder`, where later runs find it.
    Shaders(VkDevice device, std::filesystem::path folder) : device(device), folder(std::move(folder)) {}

    VkShaderModule module(VkShaderStageFlagBits stage, const std::string &text);

  private:
    VkDevice device;
    std::filesystem::path folder;
    std::map<std::pair<VkShaderStageFlagBits, std::string>, OwnedShader> modules;
};

} // namespace replay
