// Stop times in many shapes, the same for the same seed.
#pragma once

#include "../second/random.hpp"
#include "sides.hpp"

namespace second {

// A call before it is written; minutes count from the service day's opening.
struct DraftCall {
  Text trip, stop;
  uint32_t arrival, departure, sequence;
};

// A text before it is written; line 0 is the header, line 1 the first call's.
struct Draft {
  uint32_t service_day = 1;
  std::vector<DraftCall> calls;
  std::vector<std::vector<Text>> lines;  // the fields, once laid out
  std::vector<Text> ends;                // what ends each line
  Places places{};  // where each of the five columns stands first
};

uint32_t last_minute(uint32_t service_day);  // from that day's opening
Text any_id(Random &random, size_t length);
extern const Text BYTE_ORDER_MARK;
size_t fields_needed(const Draft &draft);  // up to the last of the five

// Calls of a few trips, and of a given number of stops, trips and rows.
Draft small_draft(Random &random);
Draft large_draft(Random &random, uint32_t stops, uint32_t trips,
                  uint32_t rows);
// Columns, fields and line ends for the calls.
void lay_out(Random &random, Draft &draft);
Text written(const Draft &draft);

struct Damage {
  const char *name;
  std::optional<uint32_t> meant;  // the refusal, if it is the only damage
  bool after_laying_out;
  // Damages the line, or tells that this cannot be done there.
  bool (*apply)(Random &, Draft &, size_t line);
};
const std::vector<Damage> &damages();

struct Sample {
  std::string kind;
  Request request;
  std::optional<uint32_t> meant;  // 0 for a file
};

Sample sample(uint64_t seed);

}  // namespace second
