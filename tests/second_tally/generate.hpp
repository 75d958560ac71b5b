// Tallies, landings and logs of many kinds, the same for the same seed.
#pragma once

#include "../second/random.hpp"
#include "sides.hpp"

namespace second {

// A tally and a landing, and what was meant by how they were made.
struct Sample {
  std::string tally_kind, landing_kind;
  Tally tally;
  Landing landing;
  size_t meant_count;  // of a landing with right minutes
  uint32_t meant_for_landing, meant_for_table;  // 0 or the refusal
  uint32_t dirt;
};

Sample sample(uint64_t seed);

struct Logs {
  Log log, shuffled;
};

Logs logs(uint64_t seed);

}  // namespace second
