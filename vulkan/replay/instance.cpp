#include "device.hpp"

#include <algorithm>
#include <cstdlib>
#include <cstring>

namespace replay {

namespace {

constexpr const char *validation_layer = "VK_LAYER_KHRONOS_validation";
constexpr const char *families_layer = "VK_LAYER_FRAMEC_families";

bool has_layer(const char *name) {
    uint32_t count = 0;
    vkEnumerateInstanceLayerProperties(&count, nullptr);
    std::vector<VkLayerProperties> layers(count);
    vkEnumerateInstanceLayerProperties(&count, layers.data());
    return std::any_of(layers.begin(), layers.end(), [&](const auto &layer) { return std::strcmp(layer.layerName, name) == 0; });
}

bool has_instance_extension(const char *name) {
    uint32_t count = 0;
    vkEnumerateInstanceExtensionProperties(nullptr, &count, nullptr);
    std::vector<VkExtensionProperties> extensions(count);
    vkEnumerateInstanceExtensionProperties(nullptr, &count, extensions.data());
    return std::any_of(extensions.begin(), extensions.end(),
                       [&](const auto &extension) { return std::strcmp(extension.extensionName, name) == 0; });
}

// The first layer is the nearest to this program, so validation sees the families that the other one shows.
std::vector<const char *> layers_of(const Options &options) {
    std::vector<const char *> layers;
    if (options.syncval)
        layers.push_back(validation_layer);
    if (options.families)
        layers.push_back(families_layer);
    for (const char *layer : layers)
        if (!has_layer(layer))
            throw Ended(Ending::vulkan, std::string("there is no layer ") + layer);
    return layers;
}

VkDebugUtilsMessengerCreateInfoEXT messenger_info(Messages &messages) {
    auto info = blank<VkDebugUtilsMessengerCreateInfoEXT>(VK_STRUCTURE_TYPE_DEBUG_UTILS_MESSENGER_CREATE_INFO_EXT);
    info.messageSeverity = VK_DEBUG_UTILS_MESSAGE_SEVERITY_ERROR_BIT_EXT;
    info.messageType = VK_DEBUG_UTILS_MESSAGE_TYPE_VALIDATION_BIT_EXT;
    info.pfnUserCallback = Messages::take;
    info.pUserData = &messages;
    return info;
}

template <typename Function> Function instance_function(VkInstance instance, const char *name) {
    return reinterpret_cast<Function>(vkGetInstanceProcAddr(instance, name));
}

} // namespace

Instance::Instance(const Options &options, Messages &messages) {
    if (options.families)
        setenv("VK_ADD_LAYER_PATH", options.layers.c_str(), 1);
    if (options.syncval)
        settings.emplace(options.core);
    const auto layers = layers_of(options);
    std::vector<const char *> extensions;
    if (options.syncval)
        extensions.push_back(VK_EXT_DEBUG_UTILS_EXTENSION_NAME);
    has_surfaces = has_instance_extension(VK_KHR_SURFACE_EXTENSION_NAME);
    if (has_surfaces)
        extensions.push_back(VK_KHR_SURFACE_EXTENSION_NAME);
    const VkApplicationInfo application{VK_STRUCTURE_TYPE_APPLICATION_INFO, nullptr, "framec-replay", 1, nullptr, 0, VK_API_VERSION_1_3};
    auto info = blank<VkInstanceCreateInfo>(VK_STRUCTURE_TYPE_INSTANCE_CREATE_INFO);
    info.pApplicationInfo = &application;
    info.enabledLayerCount = static_cast<uint32_t>(layers.size());
    info.ppEnabledLayerNames = layers.data();
    info.enabledExtensionCount = static_cast<uint32_t>(extensions.size());
    info.ppEnabledExtensionNames = extensions.data();
    VkInstance made = VK_NULL_HANDLE;
    succeed(vkCreateInstance(&info, nullptr, &made), "vkCreateInstance");
    instance.reset(made);
    if (options.syncval) {
        const auto create = instance_function<PFN_vkCreateDebugUtilsMessengerEXT>(made, "vkCreateDebugUtilsMessengerEXT");
        const auto messenger_description = messenger_info(messages);
        succeed(create(made, &messenger_description, nullptr, &messenger), "vkCreateDebugUtilsMessengerEXT");
    }
}

Instance::~Instance() {
    if (messenger == VK_NULL_HANDLE)
        return;
    const auto destroy = instance_function<PFN_vkDestroyDebugUtilsMessengerEXT>(instance.get(), "vkDestroyDebugUtilsMessengerEXT");
    destroy(instance.get(), messenger, nullptr);
}

} // namespace replay
