#include "sides.hpp"

#include <algorithm>

#include "trial_tally.h"

namespace second {

bool same(const Seen &one, const Seen &two) {
  return one.kept_inside && two.kept_inside && one.answer == two.answer &&
         one.tally == two.tally && one.shares == two.shares;
}

Shares dirty(uint32_t dirt) {
  Shares shares;
  uint32_t number = dirt;
  for (uint32_t &share : shares) {
    number = number * 1664525u + 1013904223u;
    share = number;
  }
  return shares;
}

Seen by_definitions(const Request &request) {
  Seen seen{{}, request.tally, dirty(request.dirt), true};
  if (request.landing) {
    const LandingAnswer got = landing_call(*request.landing, seen.tally);
    seen.answer = {got.number, got.place, 0, 0, 0, 0};
  } else {
    const TableAnswer got = table_call(seen.tally, seen.shares);
    seen.answer = {got.number,   got.place, got.greatest,
                   got.landings, got.apart, 0};
  }
  return seen;
}

#ifdef WITHOUT_SUBJECT

bool subject_is_there() { return false; }
Seen by_subject(const Request &) { return {}; }

#else

bool subject_is_there() { return true; }

namespace {

// A guard is no share, no count within its limit and no entry of an answer.
constexpr uint32_t GUARD = 0xABABABAB;
constexpr size_t GUARDS = 64;  // on each side

template <size_t length>
class Lent {
 public:
  explicit Lent(const std::array<uint32_t, length> &contents) {
    all_.fill(GUARD);
    std::copy(contents.begin(), contents.end(), all_.begin() + GUARDS);
  }
  uint32_t *start() { return all_.data() + GUARDS; }
  std::array<uint32_t, length> contents() const {
    std::array<uint32_t, length> numbers;
    std::copy_n(all_.begin() + GUARDS, length, numbers.begin());
    return numbers;
  }
  bool guards_stand() const {
    return std::count(all_.begin(), all_.begin() + GUARDS, GUARD) == GUARDS &&
           std::count(all_.end() - GUARDS, all_.end(), GUARD) == GUARDS;
  }

 private:
  std::array<uint32_t, GUARDS + length + GUARDS> all_;
};

// The call itself must set all six, those that mean nothing too.
Answer unset_answer() {
  Answer answer;
  answer.fill(GUARD);
  return answer;
}

}  // namespace

Seen by_subject(const Request &request) {
  Lent tally(request.tally);
  Lent shares(dirty(request.dirt));
  Lent answer(unset_answer());
  const size_t answer_len = Answer().size();
  if (request.landing)
    trial_tally(request.landing->planned, request.landing->actual,
                tally.start(), answer.start(), answer_len);
  else
    trial_table(tally.start(), shares.start(), answer.start(), answer_len);
  return {answer.contents(), tally.contents(), shares.contents(),
          tally.guards_stand() && shares.guards_stand() &&
              answer.guards_stand()};
}

#endif

namespace {

template <size_t length>
std::string text_of_numbers(const std::array<uint32_t, length> &numbers) {
  std::string text;
  for (uint32_t number : numbers) text += " " + std::to_string(number);
  return text;
}

template <size_t length>
std::string first_difference(const std::string &name,
                             const std::array<uint32_t, length> &wanted,
                             const std::array<uint32_t, length> &got) {
  for (size_t place = 0; place < length; ++place)
    if (wanted[place] != got[place])
      return "\n" + name + " " + std::to_string(place) + ": wanted " +
             std::to_string(wanted[place]) + ", got " +
             std::to_string(got[place]);
  return "";
}

}  // namespace

std::string words_of(const Request &request) {
  const std::string call =
      request.landing
          ? "landing planned " + std::to_string(request.landing->planned) +
                " actual " + std::to_string(request.landing->actual)
          : "table with dirt " + std::to_string(request.dirt);
  return call + "\ntally" + text_of_numbers(request.tally);
}

std::string text_of(const Answer &answer) { return text_of_numbers(answer); }

std::string difference_between(const Seen &wanted, const Seen &got) {
  return "wanted" + text_of(wanted.answer) + "\ngot   " +
         text_of(got.answer) +
         (got.kept_inside ? "" : "\na number beside the lent ones changed") +
         first_difference("count", wanted.tally, got.tally) +
         first_difference("share", wanted.shares, got.shares);
}

}  // namespace second
