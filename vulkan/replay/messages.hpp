// What the validation layer says, each distinct message once.
#pragma once

#include <vulkan/vulkan.h>

#include <filesystem>
#include <map>
#include <mutex>
#include <string>
#include <utility>

namespace replay {

class Messages {
  public:
    static VkBool32 VKAPI_PTR take(VkDebugUtilsMessageSeverityFlagBitsEXT severity, VkDebugUtilsMessageTypeFlagsEXT types,
                                   const VkDebugUtilsMessengerCallbackDataEXT *data, void *messages);

    bool empty() const { return counts.empty(); }
    // `messages N`, and a line for each: how often it came, its name and its text.
    std::string text() const;

  private:
    void add(const std::string &name, const std::string &text);

    std::mutex lock;
    std::map<std::pair<std::string, std::string>, unsigned> counts;
};

// The settings of the layer, in a file that it finds by the environment and that goes with this object.
class ValidationSettings {
  public:
    explicit ValidationSettings(bool core);
    ~ValidationSettings();
    ValidationSettings(const ValidationSettings &) = delete;
    ValidationSettings &operator=(const ValidationSettings &) = delete;

  private:
    std::filesystem::path file;
};

} // namespace replay
