// One request, answered by the definitions and by the subject, seen whole.
#pragma once

#include "import.hpp"

namespace second {

struct Request {
  Text text;
  uint32_t service_day, room;
  uint32_t dirt = 0;  // fixes the earlier contents of `out`
};

using Answer = std::array<uint32_t, 6>;

struct Seen {
  Answer answer{};
  Bytes out;
  bool kept_inside = true;  // nothing was written beside `out` and the answer
};

bool same(const Seen &one, const Seen &two);
// Earlier contents of `out`.
Bytes dirty(uint32_t room, uint32_t dirt);

Seen by_definitions(const Request &request);

// Built with WITHOUT_SUBJECT there is none, and by_subject is never called.
bool subject_is_there();
Seen by_subject(const Request &request);

// The request without its text.
std::string words_of(const Request &request);
std::string text_of(const Answer &answer);
// What the two saw differently.
std::string difference_between(const Seen &defined, const Seen &got);

}  // namespace second
