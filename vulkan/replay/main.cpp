// framec-replay: runs a submission file on a Vulkan device.
#include "read_program.hpp"
#include "submission.hpp"

#include <cstdio>
#include <fstream>
#include <iostream>
#include <iterator>

namespace replay {

namespace {

constexpr size_t bytes_of_a_line = 32;

std::string input(const Options &options) {
    if (options.file.empty())
        return {std::istreambuf_iterator<char>(std::cin), {}};
    std::ifstream file(options.file, std::ios::binary);
    std::string text((std::istreambuf_iterator<char>(file)), {});
    if (!file)
        throw Ended(Ending::read_failed, options.file + ": cannot be read");
    return text;
}

std::string readback_text(PieceNumber number, const std::vector<uint8_t> &bytes) {
    constexpr char digits[] = "0123456789abcdef";
    std::string text = "readback " + std::to_string(number) + " " + std::to_string(bytes.size()) + "\n";
    for (size_t k = 0; k < bytes.size(); ++k) {
        text += {digits[bytes[k] >> 4], digits[bytes[k] & 15]};
        if ((k + 1) % bytes_of_a_line == 0 || k + 1 == bytes.size())
            text += '\n';
    }
    return text;
}

void note(const std::string &text) { std::cerr << text << "\n"; }

std::string readbacks(const Program &program, const Resources &resources) {
    std::string text;
    for (size_t k = 0; k < program.readbacks.size(); ++k)
        text += readback_text(static_cast<PieceNumber>(k), resources.bytes_of(program.readbacks[k]));
    return text;
}

void print(const std::string &text) {
    std::cout << text << std::flush;
    if (!std::cout)
        throw Ended(Ending::write_failed, "standard output: cannot be written");
}

Ending run(const Options &options) {
    if (options.help) {
        print(std::string(usage) + "\n");
        return Ending::replayed;
    }
    const Program program = read_program(input(options));
    const auto runs = drain(program, options.reverse ? Direction::highest_first : Direction::lowest_first);
    Messages messages;
    std::string text;
    {
        const Instance instance(options, messages);
        const Device device(instance, program);
        const Resources resources(device, program, note, options.describe ? note : [](const std::string &) {});
        Shaders shaders(device.get(), options.shaders);
        Context context{device, program, resources, shaders, note};
        Submission(context, options.execution).go(runs);
        text = readbacks(program, resources);
    }
    print(text + (options.syncval ? messages.text() : ""));
    return messages.empty() ? Ending::replayed : Ending::messages;
}

} // namespace

} // namespace replay

int main(int count, char **words) {
    try {
        return static_cast<int>(replay::run(replay::read_options(count, words)));
    } catch (const replay::Ended &ended) {
        std::cerr << ended.what() << "\n";
        return static_cast<int>(ended.ending);
    } catch (const std::exception &error) {
        std::cerr << error.what() << "\n";
        return static_cast<int>(replay::Ending::vulkan);
    }
}
