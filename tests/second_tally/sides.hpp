// A call of either kind, made on the definitions and on the subject, and all
// that can be seen of it afterwards.
#pragma once

#include <string>

#include "tally.hpp"

namespace second {

// With a landing it counts that landing, without one it makes the table.
struct Request {
  std::optional<Landing> landing;
  Tally tally;
  uint32_t dirt = 0;  // fixes what the lent shares are before the call
};

using Answer = std::array<uint32_t, 6>;

struct Seen {
  Answer answer{};
  Tally tally{};
  Shares shares{};          // lent to a table's call alone
  bool kept_inside = true;  // nothing beside the lent numbers changed
};

bool same(const Seen &one, const Seen &two);
Shares dirty(uint32_t dirt);

Seen by_definitions(const Request &request);

// Built with WITHOUT_SUBJECT there is none to call.
bool subject_is_there();
Seen by_subject(const Request &request);

std::string words_of(const Request &request);
std::string text_of(const Answer &answer);
// Both answers, and the first lent number that is not the same.
std::string difference_between(const Seen &wanted, const Seen &got);

// Does document 01's check accept a file with this table?
bool check_accepts(uint32_t greatest, const Shares &shares);

}  // namespace second
