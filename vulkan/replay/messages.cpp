#include "messages.hpp"

#include "ending.hpp"

#include <cstdlib>
#include <filesystem>
#include <fstream>
#include <regex>

#include <unistd.h>

namespace replay {

namespace {

// Handles differ from run to run, and from object to object.
std::string without_handles(const std::string &text) {
    static const std::regex handle("0x[0-9a-f]+"), spaces("\\s+");
    return std::regex_replace(std::regex_replace(text, handle, "0x"), spaces, " ");
}

// Old layers know the words of `enables` and `disables`, newer ones those of `validate_...` and `syncval_...`.
void write_settings(std::ostream &settings, bool core) {
    settings << "khronos_validation.enables = VK_VALIDATION_FEATURE_ENABLE_SYNCHRONIZATION_VALIDATION_EXT,"
                "VALIDATION_CHECK_ENABLE_SYNCHRONIZATION_VALIDATION_QUEUE_SUBMIT\n";
    if (!core)
        settings << "khronos_validation.disables = VK_VALIDATION_FEATURE_DISABLE_THREAD_SAFETY_EXT,"
                    "VK_VALIDATION_FEATURE_DISABLE_API_PARAMETERS_EXT,VK_VALIDATION_FEATURE_DISABLE_OBJECT_LIFETIMES_EXT,"
                    "VK_VALIDATION_FEATURE_DISABLE_CORE_CHECKS_EXT\n";
    settings << "khronos_validation.validate_sync = true\n"
                "khronos_validation.syncval_submit_time_validation = true\n"
                "khronos_validation.syncval_shader_accesses_heuristic = true\n"
                "khronos_validation.enable_message_limit = false\n"
                "khronos_validation.report_flags = error\n"
                "khronos_validation.debug_action = VK_DBG_LAYER_ACTION_CALLBACK\n";
    for (const char *kind : {"validate_core", "thread_safety", "object_lifetime", "stateless_param"})
        settings << "khronos_validation." << kind << " = " << (core ? "true" : "false") << "\n";
}

} // namespace

VkBool32 Messages::take(VkDebugUtilsMessageSeverityFlagBitsEXT, VkDebugUtilsMessageTypeFlagsEXT,
                        const VkDebugUtilsMessengerCallbackDataEXT *data, void *messages) {
    const char *name = data->pMessageIdName != nullptr ? data->pMessageIdName : "unnamed";
    static_cast<Messages *>(messages)->add(name, data->pMessage != nullptr ? data->pMessage : "");
    return VK_FALSE;
}

void Messages::add(const std::string &name, const std::string &text) {
    const std::lock_guard guard(lock);
    ++counts[{name, without_handles(text)}];
}

std::string Messages::text() const {
    std::string lines = "messages " + std::to_string(counts.size()) + "\n";
    for (const auto &[message, count] : counts)
        lines += "message " + std::to_string(count) + " " + message.first + " " + message.second + "\n";
    return lines;
}

ValidationSettings::ValidationSettings(bool core)
    : file(std::filesystem::temp_directory_path() / ("framec-replay-" + std::to_string(getpid()) + "-vk_layer_settings.txt")) {
    std::ofstream settings(file);
    write_settings(settings, core);
    settings.close();
    if (!settings)
        throw Ended(Ending::write_failed, file.string() + ": cannot be written");
    setenv("VK_LAYER_SETTINGS_PATH", file.c_str(), 1);
}

ValidationSettings::~ValidationSettings() {
    std::error_code left_behind;
    std::filesystem::remove(file, left_behind);
}

} // namespace replay
