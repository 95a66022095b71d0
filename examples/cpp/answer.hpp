// A call of the compiler from C++: the text of an answer is a std::string, which frees itself.
#ifndef ANSWER_HPP
#define ANSWER_HPP

#include <framec.h>

#include <cstddef>
#include <cstdint>
#include <string>

// A function of framec.h.
using Call = decltype(framec_check);

struct Answer {
    std::int32_t status = FRAMEC_NO_MEMORY;
    std::string text;

    friend bool operator==(const Answer &one, const Answer &other) { return one.status == other.status && one.text == other.text; }
    friend bool operator!=(const Answer &one, const Answer &other) { return !(one == other); }
};

// The answer to the bytes of a file. Most texts fit into the first room; for a longer one the call is made again.
inline Answer ask(Call &call, const std::string &file)
{
    Answer answer;
    std::uint64_t wanted = 256;
    do {
        answer.text.resize(static_cast<std::size_t>(wanted));
        answer.status = call(reinterpret_cast<const std::uint8_t *>(file.data()), file.size(),
                             reinterpret_cast<std::uint8_t *>(answer.text.data()), answer.text.size(), &wanted);
    } while (wanted > answer.text.size());
    answer.text.resize(static_cast<std::size_t>(wanted));
    return answer;
}

#endif
