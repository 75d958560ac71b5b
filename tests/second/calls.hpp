// One call, answered by the definitions and by the subject, seen whole.
#pragma once

#include <array>
#include <string>

#include "generate.hpp"

namespace second {

using Answer = std::array<uint32_t, 6>;

struct Seen {
  Answer answer{};
  Numbers work, plan;
  bool kept_inside = true;  // nothing was written beside the slices
};

bool same(const Seen &one, const Seen &two);

Query with_gate(const Query &query, uint32_t gate);

Seen by_definitions(const Bytes &file, const Call &call);
Answer house_by_definitions(uint32_t pair, uint32_t minute);

// Built with WITHOUT_SUBJECT there is none, and these two are never called.
bool subject_is_there();
Seen by_subject(const Bytes &file, const Call &call);
Answer house_by_subject(uint32_t pair, uint32_t minute);

// A call as the words that the replay program takes.
std::string words_of(const Call &call);
bool call_from_words(const std::vector<std::string> &words, Call &call);

std::string text_of(const Answer &answer);
// The answer, the first numbers of the slices that changed, and what stayed.
std::string text_of(const Seen &seen, const Call &call);

}  // namespace second
