#include "sides.hpp"

#include <algorithm>

#include "trial_import.h"

namespace second {

bool same(const Seen &one, const Seen &two) {
  return one.kept_inside && two.kept_inside && one.answer == two.answer &&
         one.out == two.out;
}

namespace {

constexpr uint32_t GREATEST_ROOM = 70000, KINDS_OF_DIRT = 251;
constexpr uint32_t WATCHED = 64;  // entries behind what is lent

Bytes much_dirt() {
  Bytes bytes(KINDS_OF_DIRT + GREATEST_ROOM + WATCHED);
  uint32_t number = 1;
  for (uint8_t &byte : bytes) {
    number = number * 1664525u + 1013904223u;
    byte = static_cast<uint8_t>(number >> 24);
  }
  return bytes;
}

Bytes::const_iterator start_of_dirt(uint32_t dirt) {
  static const Bytes much = much_dirt();
  return much.begin() + dirt % KINDS_OF_DIRT;
}

}  // namespace

Bytes dirty(uint32_t room, uint32_t dirt) {
  return Bytes(start_of_dirt(dirt), start_of_dirt(dirt) + room);
}

Seen by_definitions(const Request &request) {
  Seen seen;
  seen.out = dirty(request.room, request.dirt);
  const ImportAnswer got =
      import_call(request.text, request.service_day, seen.out);
  seen.answer = {got.number, got.place,   got.stops,
                 got.rows,   got.classes, got.length};
  return seen;
}

#ifdef WITHOUT_SUBJECT

bool subject_is_there() { return false; }
Seen by_subject(const Request &) { return {}; }

#else

bool subject_is_there() { return true; }

namespace {

// Unused entries must be set to 0 by the call itself.
constexpr uint32_t UNSET = 0xABABABAB;

}  // namespace

Seen by_subject(const Request &request) {
  const Text text = request.text;
  Bytes out = dirty(request.room + WATCHED, request.dirt);
  Seen seen;
  Numbers answer(seen.answer.size() + WATCHED, UNSET);
  trial_import(reinterpret_cast<const uint8_t *>(text.data()), text.size(),
               request.service_day, out.data(), request.room, answer.data(),
               seen.answer.size());
  std::copy_n(answer.begin(), seen.answer.size(), seen.answer.begin());
  seen.kept_inside =
      text == request.text &&
      std::equal(out.begin() + request.room, out.end(),
                 start_of_dirt(request.dirt) + request.room) &&
      std::count(answer.begin() + seen.answer.size(), answer.end(), UNSET) ==
          WATCHED;
  out.resize(request.room);
  seen.out = std::move(out);
  return seen;
}

#endif

std::string words_of(const Request &request) {
  return "day " + std::to_string(request.service_day) + " room " +
         std::to_string(request.room) + " dirt " +
         std::to_string(request.dirt) + ", text of " +
         std::to_string(request.text.size()) + " bytes";
}

std::string text_of(const Answer &answer) {
  std::string text;
  for (uint32_t entry : answer) text += " " + std::to_string(entry);
  return text;
}

std::string difference_between(const Seen &defined, const Seen &got) {
  std::string text = "answer of the definitions:" + text_of(defined.answer) +
                     "\nanswer of the subject:    " + text_of(got.answer);
  if (!got.kept_inside) text += "\nthe subject wrote beside what was lent";
  const auto [its, ours] = std::mismatch(got.out.begin(), got.out.end(),
                                         defined.out.begin());
  if (its == got.out.end()) return text;
  return text + "\nbyte " + std::to_string(its - got.out.begin()) +
         " of out: " + std::to_string(*ours) + " by the definitions, " +
         std::to_string(*its) + " by the subject";
}

}  // namespace second
