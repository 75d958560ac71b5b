#include "calls.hpp"

#include "trial.h"

namespace second {

bool same(const Seen &one, const Seen &two) {
  return one.kept_inside && two.kept_inside && one.answer == two.answer &&
         one.work == two.work && one.plan == two.plan;
}

Query with_gate(const Query &query, uint32_t gate) {
  Query answer = query;
  answer.gate = gate;
  return answer;
}

namespace {

Answer check_answer(const Bytes &file) {
  const CheckedFile checked = check_file(file);
  if (checked.refusal.number != 0)
    return {checked.refusal.number, checked.refusal.place, 0, 0, 0, 0};
  const Sailings &sailings = checked.sailings;
  return {0, 0, sailings.stops, static_cast<uint32_t>(sailings.rows.size()),
          static_cast<uint32_t>(sailings.classes.size()), 0};
}

}  // namespace

Seen by_definitions(const Bytes &file, const Call &call) {
  Seen seen;
  seen.work = dirty(call.work_length, call.dirt);
  seen.plan = dirty(call.plan_length, ~call.dirt);
  if (call.entry == Entry::check) {
    seen.answer = check_answer(file);
  } else if (call.entry == Entry::plan) {
    const PlanAnswer got = plan_call(file, call.query, seen.work, seen.plan);
    seen.answer = {got.number,   got.place,  got.rides,
                   got.expected, got.latest, got.bound};
  } else {
    const EarliestAnswer got = earliest_call(file, call.query, seen.work);
    seen.answer = {got.number, got.place, got.earliest, 0, 0, 0};
  }
  return seen;
}

Answer house_by_definitions(uint32_t pair, uint32_t minute) {
  const std::optional<uint32_t> share = house_cumulative(pair, minute);
  if (!share) return {6, 0, 0, 0, 0, 0};
  return {0, 0, *share, 0, 0, 0};
}

#ifdef WITHOUT_SUBJECT

bool subject_is_there() { return false; }
Seen by_subject(const Bytes &, const Call &) { return {}; }
Answer house_by_subject(uint32_t, uint32_t) { return {}; }

#else

bool subject_is_there() { return true; }

namespace {

constexpr uint32_t GUARD = 0xFEEDBEEF;
constexpr size_t GUARDS = 8;

// A slice with watched numbers on both sides.
class Lent {
 public:
  explicit Lent(const Numbers &contents) : length_(contents.size()) {
    all_.assign(GUARDS, GUARD);
    all_.insert(all_.end(), contents.begin(), contents.end());
    all_.insert(all_.end(), GUARDS, GUARD);
  }
  uint32_t *start() { return all_.data() + GUARDS; }
  size_t length() const { return length_; }
  Numbers contents() const {
    return Numbers(all_.begin() + GUARDS, all_.end() - GUARDS);
  }
  bool guarded() const {
    for (size_t place = 0; place < GUARDS; ++place)
      if (all_[place] != GUARD || all_[all_.size() - 1 - place] != GUARD)
        return false;
    return true;
  }

 private:
  size_t length_;
  Numbers all_;
};

// Unused entries must be set to 0 by the call itself.
constexpr uint32_t UNSET = 0xABABABAB;

// A query with a gate and no margin is asked with margin 1.
void ask_plan(const uint8_t *bytes, size_t length, const Query &query,
              Lent &work, Lent &plan, Lent &answer) {
  if (query.gate)
    trial_plan_gate(bytes, length, query.source, query.target, query.minute,
                    query.code, query.margin.value_or(1), *query.gate,
                    work.start(), work.length(), plan.start(), plan.length(),
                    answer.start(), answer.length());
  else if (query.margin)
    trial_plan_margin(bytes, length, query.source, query.target, query.minute,
                      query.code, *query.margin, work.start(), work.length(),
                      plan.start(), plan.length(), answer.start(),
                      answer.length());
  else
    trial_plan(bytes, length, query.source, query.target, query.minute,
               query.code, work.start(), work.length(), plan.start(),
               plan.length(), answer.start(), answer.length());
}

void ask_earliest(const uint8_t *bytes, size_t length, const Query &query,
                  Lent &work, Lent &answer) {
  if (query.gate)
    trial_earliest_gate(bytes, length, query.source, query.target,
                        query.minute, *query.gate, work.start(),
                        work.length(), answer.start(), answer.length());
  else
    trial_earliest(bytes, length, query.source, query.target, query.minute,
                   work.start(), work.length(), answer.start(),
                   answer.length());
}

}  // namespace

Seen by_subject(const Bytes &file, const Call &call) {
  Lent work(dirty(call.work_length, call.dirt));
  Lent plan(dirty(call.plan_length, ~call.dirt));
  Lent answer(Numbers(6, UNSET));
  const Bytes before = file;
  const uint8_t nothing = 0;
  const uint8_t *bytes = file.empty() ? &nothing : file.data();
  if (call.entry == Entry::check)
    trial_check(bytes, file.size(), answer.start(), answer.length());
  else if (call.entry == Entry::plan)
    ask_plan(bytes, file.size(), call.query, work, plan, answer);
  else
    ask_earliest(bytes, file.size(), call.query, work, answer);
  Seen seen;
  const Numbers answered = answer.contents();
  std::copy(answered.begin(), answered.end(), seen.answer.begin());
  seen.work = work.contents();
  seen.plan = plan.contents();
  seen.kept_inside = work.guarded() && plan.guarded() && answer.guarded() &&
                     file == before;
  return seen;
}

Answer house_by_subject(uint32_t pair, uint32_t minute) {
  Answer answer;
  answer.fill(UNSET);
  trial_house(pair, minute, answer.data(), answer.size());
  return answer;
}

#endif

namespace {

const char *const ENTRY_NAMES[3] = {"check", "plan", "earliest"};

std::string number(uint32_t value) { return " " + std::to_string(value); }

uint32_t number_of(const std::string &word) {
  return static_cast<uint32_t>(std::stoul(word));
}

bool entry_from_word(const std::string &word, Entry &entry) {
  for (size_t known = 0; known < 3; ++known)
    if (word == ENTRY_NAMES[known]) {
      entry = static_cast<Entry>(known);
      return true;
    }
  return false;
}

}  // namespace

std::string words_of(const Call &call) {
  return ENTRY_NAMES[static_cast<size_t>(call.entry)] +
         number(call.query.source) + number(call.query.target) +
         number(call.query.minute) + number(call.query.code) +
         number(call.work_length) + number(call.plan_length) +
         number(call.dirt) +
         (call.query.margin ? " margin" + number(*call.query.margin) : "") +
         (call.query.gate ? " gate" + number(*call.query.gate) : "");
}

bool call_from_words(const std::vector<std::string> &words, Call &call) {
  constexpr size_t ALWAYS = 8;
  if (words.size() < ALWAYS || words.size() % 2 != 0 ||
      !entry_from_word(words[0], call.entry))
    return false;
  Numbers values;
  for (size_t place = 1; place < ALWAYS; ++place)
    values.push_back(number_of(words[place]));
  call.query = {values[0], values[1], values[2], values[3]};
  call.work_length = values[4];
  call.plan_length = values[5];
  call.dirt = values[6];
  for (size_t place = ALWAYS; place < words.size(); place += 2) {
    if (words[place] != "margin" && words[place] != "gate") return false;
    (words[place] == "gate" ? call.query.gate : call.query.margin) =
        number_of(words[place + 1]);
  }
  return true;
}

std::string text_of(const Answer &answer) {
  std::string text;
  for (uint32_t entry : answer) text += number(entry);
  return text;
}

namespace {

// "[from,to) = .." for what changed; long runs of 0 are only counted.
std::string changes(const Numbers &before, const Numbers &after) {
  std::string text;
  size_t zeros = 0, changed = 0;
  while (zeros < after.size() && after[zeros] == 0 && before[zeros] != 0)
    ++zeros;
  if (zeros > 0) text += " zero [0," + std::to_string(zeros) + ")";
  for (size_t place = zeros; place < after.size(); ++place) {
    if (after[place] == before[place]) continue;
    if (++changed > 60) return text + " ..";
    text += " " + std::to_string(place) + ":" + std::to_string(after[place]);
  }
  return text.empty() ? " unchanged" : text;
}

}  // namespace

std::string text_of(const Seen &seen, const Call &call) {
  return "answer" + text_of(seen.answer) + " | work" +
         changes(dirty(call.work_length, call.dirt), seen.work) + " | plan" +
         changes(dirty(call.plan_length, ~call.dirt), seen.plan) +
         (seen.kept_inside ? "" : " | wrote beside its slices");
}

}  // namespace second
