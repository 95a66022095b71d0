// ask_at_once SUBMISSION FRAME [THREADS [CALLS]]: checks the submission and compiles the frame, so many times on each of so many threads,
// which all call at once. Prints the first answers. The status is 1 where another one differs from them.
#include "answer.hpp"

#include <atomic>
#include <cstdlib>
#include <fstream>
#include <iostream>
#include <iterator>
#include <string>
#include <thread>
#include <vector>

static std::string bytes_of(const char *name)
{
    std::ifstream file(name, std::ios::binary);
    if (!file) {
        std::cerr << name << " cannot be read\n";
        std::exit(4);
    }
    return {std::istreambuf_iterator<char>(file), std::istreambuf_iterator<char>()};
}

int main(int argc, char **argv)
{
    if (argc < 3 || argc > 5) {
        std::cerr << "ask_at_once SUBMISSION FRAME [THREADS [CALLS]]\n";
        return 3;
    }
    const std::string submission = bytes_of(argv[1]), frame = bytes_of(argv[2]);
    const int count = argc > 3 ? std::atoi(argv[3]) : 8, calls = argc > 4 ? std::atoi(argv[4]) : 100;
    const Answer checked = ask(framec_check, submission), compiled = ask(framec_compile, frame);

    std::atomic<int> others{0};
    std::vector<std::thread> threads;
    for (int number = 0; number < count; ++number)
        threads.emplace_back([&] {
            for (int call = 0; call < calls; ++call)
                if (ask(framec_check, submission) != checked || ask(framec_compile, frame) != compiled)
                    ++others;
        });
    for (std::thread &thread : threads)
        thread.join();

    std::cout << checked.text << compiled.text << count << " threads, " << calls << " calls of each: " << others << " other answers\n";
    return others == 0 ? 0 : 1;
}
