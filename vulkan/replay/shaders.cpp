#include "shaders.hpp"

#include <fcntl.h>
#include <spawn.h>
#include <sys/wait.h>
#include <unistd.h>

#include <algorithm>
#include <fstream>
#include <sstream>

extern char **environ;

namespace replay {

namespace {

const char *stage_word(VkShaderStageFlagBits stage) {
    return stage == VK_SHADER_STAGE_VERTEX_BIT ? "vert" : stage == VK_SHADER_STAGE_FRAGMENT_BIT ? "frag" : "comp";
}

// FNV-1a of 64 bits: a name for a text, the same in every run.
std::string name_of(VkShaderStageFlagBits stage, const std::string &text) {
    uint64_t hash = 14695981039346656037U;
    for (const char letter : text)
        hash = (hash ^ static_cast<uint8_t>(letter)) * 1099511628211U;
    std::ostringstream name;
    name << std::hex << hash << "." << stage_word(stage);
    return name.str();
}

std::vector<uint32_t> words_of(const std::filesystem::path &file) {
    std::ifstream stream(file, std::ios::binary);
    const std::string bytes((std::istreambuf_iterator<char>(stream)), {});
    std::vector<uint32_t> words(bytes.size() / sizeof(uint32_t));
    std::copy_n(bytes.begin(), words.size() * sizeof(uint32_t), reinterpret_cast<char *>(words.data()));
    return words;
}

void run_compiler(const char *stage, const std::filesystem::path &source, const std::filesystem::path &target) {
    std::string words[] = {"glslangValidator", "-V", "--quiet", "--target-env", "vulkan1.3", "-S", stage, "-o", target, source};
    std::vector<char *> arguments;
    for (std::string &word : words)
        arguments.push_back(word.data());
    arguments.push_back(nullptr);
    posix_spawn_file_actions_t actions;
    posix_spawn_file_actions_init(&actions);
    // What it says goes to standard error: standard output is the read-backs'.
    posix_spawn_file_actions_adddup2(&actions, STDERR_FILENO, STDOUT_FILENO);
    pid_t child = 0;
    const int failed = posix_spawnp(&child, arguments[0], &actions, nullptr, arguments.data(), environ);
    posix_spawn_file_actions_destroy(&actions);
    int status = 0;
    if (failed != 0 || waitpid(child, &status, 0) < 0 || !WIFEXITED(status) || WEXITSTATUS(status) != 0)
        throw Ended(Ending::vulkan, failed != 0 ? "glslangValidator cannot be started" : "glslangValidator refused " + source.string());
}

void compile(const char *stage, const std::string &text, const std::filesystem::path &target) {
    std::filesystem::create_directories(target.parent_path());
    // Several runs may compile one text at once: each writes files of its own, and the last rename stays.
    const std::string own = target.string() + "." + std::to_string(getpid());
    std::ofstream(own + ".glsl") << text;
    run_compiler(stage, own + ".glsl", own);
    std::filesystem::rename(own, target);
    std::filesystem::remove(own + ".glsl");
}

} // namespace

VkShaderModule Shaders::module(VkShaderStageFlagBits stage, const std::string &text) {
    OwnedShader &shader = modules[{stage, text}];
    if (shader.get() == VK_NULL_HANDLE) {
        const auto file = folder / (name_of(stage, text) + ".spv");
        if (!std::filesystem::exists(file))
            compile(stage_word(stage), text, file);
        const auto words = words_of(file);
        auto info = blank<VkShaderModuleCreateInfo>(VK_STRUCTURE_TYPE_SHADER_MODULE_CREATE_INFO);
        info.codeSize = words.size() * sizeof(uint32_t);
        info.pCode = words.data();
        shader = made<OwnedShader>(device, vkCreateShaderModule, info, "vkCreateShaderModule");
    }
    return shader.get();
}

} // namespace replay
