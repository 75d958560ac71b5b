// Chance that is the same for the same seed, for programs that make many cases.
#pragma once

#include <initializer_list>
#include <random>
#include <utility>
#include <vector>

namespace second {

class Random {
 public:
  explicit Random(uint64_t seed) : engine_(seed) {}
  uint32_t below(size_t limit) {  // 0 to limit-1
    return static_cast<uint32_t>(engine_() % limit);
  }
  uint32_t between(size_t least, size_t greatest) {  // both included
    return static_cast<uint32_t>(least) + below(greatest - least + 1);
  }
  bool one_in(uint32_t times) { return below(times) == 0; }
  uint32_t pick(std::initializer_list<uint32_t> values) {
    return values.begin()[below(values.size())];
  }
  template <typename Value>
  const Value &pick(const std::vector<Value> &values) {
    return values[below(values.size())];
  }
  template <typename Value>
  void shuffle(std::vector<Value> &values) {
    for (size_t place = values.size(); place > 1; --place)
      std::swap(values[place - 1], values[below(place)]);
  }

 private:
  std::mt19937_64 engine_;
};

}  // namespace second
