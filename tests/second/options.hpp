// Options of a comparison: each a name and a number behind it.
#pragma once

#include <cstdint>
#include <cstdlib>
#include <map>
#include <string>

namespace second {

// False if a word is none of the names, or if a number is missing.
inline bool read_options(int words, char **arguments,
                         const std::map<std::string, uint64_t *> &named) {
  for (int place = 1; place < words; place += 2) {
    const auto option = named.find(arguments[place]);
    if (option == named.end() || place + 1 == words) return false;
    *option->second = std::strtoull(arguments[place + 1], nullptr, 10);
  }
  return true;
}

}  // namespace second
