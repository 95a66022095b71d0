#pragma once
#include <cstdint>
#include <map>
#include <string>

// What the file cannot say of what it was asked to say, by kind and number.
class Summary {
  public:
    void count(const std::string &what) { ++counts[what]; }
    const std::map<std::string, uint64_t> &all() const { return counts; }

  private:
    std::map<std::string, uint64_t> counts;
};
