// The listed cases of document 01, one timetable for each plausible error, and the lines of refusals 6 and 7, run on the planner itself.
// Each line: what is asked, then number, place and values, then the plan's numbers, then how the slices were left.
#include <cstdio>

#include "../second/calls.hpp"

using namespace second;

namespace {

const std::vector<uint32_t> ON_TIME{4096};
const std::vector<uint32_t> UP_TO_TEN{2048, 0, 0, 0, 0, 1024, 0, 0, 0, 0, 1024};

template <typename Rows>
Bytes timetable(const Rows &rows, const std::vector<uint32_t> &late = UP_TO_TEN) {
  Draft draft;
  draft.stops = 3;
  draft.classes = {{0, ON_TIME}, {static_cast<uint32_t>(late.size() - 1), late}};
  draft.rows = rows;
  return written(draft);
}

using Rows = decltype(Draft().rows);

Rows w_rows(uint32_t last_departure = 650) {
  return {{0, 1, 600, 630, 0, 1}, {1, 2, 632, 660, 1, 0}, {1, 2, 636, 700, 2, 0}, {1, 2, last_departure, 690, 3, 0}};
}

// cleared: the work numbers from the front that are 0; kept: whether all others, and the plan slice past the rides, are as they were
void print(const char *asked, const Bytes &file, const Query &query, uint32_t work, uint32_t plan) {
  const uint32_t dirt = 7;
  const Seen seen = by_subject(file, {Entry::plan, query, work, plan, dirt});
  const Numbers before = dirty(work, dirt), slice = dirty(plan, ~dirt);
  size_t cleared = 0;
  while (cleared < work && seen.work[cleared] == 0 && before[cleared] != 0) ++cleared;
  const size_t filled = seen.answer[0] == 0 ? 3 * seen.answer[2] : 0;
  bool kept = seen.kept_inside;
  for (size_t k = cleared; k < work; ++k) kept = kept && seen.work[k] == before[k];
  for (size_t k = filled; k < plan; ++k) kept = kept && seen.plan[k] == slice[k];
  std::printf("%s:", asked);
  for (uint32_t number : seen.answer) std::printf(" %u", number);
  for (size_t k = 0; k < filled; ++k) std::printf("%s%u", k == 0 ? " | " : k % 3 ? " " : ", ", seen.plan[k]);
  std::printf(" | cleared %zu, %s\n", cleared, kept ? "the rest kept" : "THE REST CHANGED");
}

void listed_cases() {
  const Bytes w = timetable(w_rows());
  print("1 W", w, {0, 2, 590, 0}, 2516, 12);
  print("3 row 3 departs at 640", timetable(w_rows(640)), {0, 2, 590, 0}, 2516, 12);
  print("4 row 3 departs at 639", timetable(w_rows(639)), {0, 2, 590, 0}, 2516, 12);
  print("5 q 4", w, {0, 2, 590, 4}, 2516, 12);
  print("6 q 5", w, {0, 2, 590, 5}, 2516, 12);
  print("T 591 and q 5, 714 and three quarters", w, {0, 2, 591, 5}, 2516, 12);
  print("7 T 600", w, {0, 2, 600, 0}, 2516, 12);
  print("8 T 601", w, {0, 2, 601, 0}, 2516, 12);
  Rows twin = w_rows();
  twin.push_back({1, 2, 650, 690, 4, 0});
  print("9 a second row like row 3", timetable(twin), {0, 2, 590, 0}, 2520, 15);
  print("10 one trip", timetable(Rows{{0, 1, 600, 620, 0, 1}, {1, 2, 625, 660, 0, 1}}), {0, 2, 590, 0}, 2508, 6);
  print("11 shares 4,095 and 1", timetable(Rows{{0, 2, 5, 10, 0, 1}}, {4095, 1}), {0, 2, 0, 0}, 2504, 3);
  print("13 n = 0", timetable(Rows{}), {0, 2, 590, 0}, 2500, 0);
  print("13 q 3", w, {0, 2, 590, 3}, 2516, 12);
  print("13 q 17", w, {0, 2, 590, 17}, 2516, 12);
  print("13 length 19", Bytes(19), {0, 2, 590, 0}, 2516, 12);
  print("13 length 27,921", Bytes(27921), {0, 2, 590, 0}, 2516, 12);
}

void plausible_errors() {
  print("equal minute caught", timetable(w_rows(640)), {0, 2, 590, 0}, 2516, 12);
  print("earlier minute missed", timetable(w_rows(639)), {0, 2, 590, 0}, 2516, 12);
  print("E by a + M", timetable(Rows{{0, 2, 10, 20, 0, 1}, {0, 2, 12, 25, 1, 0}}), {0, 2, 0, 4}, 2508, 6);
  print("nothing after a safe ride at a + M", timetable(Rows{{0, 1, 600, 630, 0, 1}, {1, 2, 640, 660, 1, 0}, {1, 2, 650, 690, 2, 0}}),
        {0, 2, 590, 0}, 2512, 9);
  print("the sum rounded once", timetable(Rows{{0, 1, 10, 20, 0, 1}, {1, 2, 20, 31, 1, 1}, {1, 2, 30, 41, 2, 1}}, {4093, 0, 3}),
        {0, 2, 0, 0}, 2512, 9);
  print("a ride caught only at share 0", timetable(Rows{{0, 1, 10, 20, 0, 1}, {1, 2, 20, 31, 1, 0}, {1, 2, 30, 41, 2, 0}}, {0, 0, 4096}),
        {0, 2, 0, 0}, 2512, 9);
}

void lines_of_six_and_seven() {
  const Bytes w = timetable(w_rows());
  print("source 3", w, {3, 2, 590, 0}, 2516, 12);
  print("target 3", w, {0, 3, 590, 0}, 2516, 12);
  print("source 65,536", w, {65536, 2, 590, 0}, 2516, 12);
  print("source equals target", w, {2, 2, 590, 0}, 2516, 12);
  print("T 10,079", w, {0, 2, 10079, 0}, 2516, 12);
  print("T 10,080", w, {0, 2, 10080, 0}, 2516, 12);
  print("q 16", w, {0, 2, 590, 16}, 2516, 12);
  print("q 65,540", w, {0, 2, 590, 65540}, 2516, 12);
  print("work one number short", w, {0, 2, 590, 0}, 2515, 12);
  print("plan one number short", w, {0, 2, 590, 0}, 2516, 11);
  print("6 before 7", w, {0, 2, 590, 3}, 2515, 11);
  print("7 before 8", w, {0, 2, 601, 0}, 2515, 12);
  print("long slices", w, {0, 2, 590, 0}, 4000, 40);
  print("long slices, refusal 8", w, {0, 2, 601, 0}, 4000, 40);
  print("n = 0, work 2,499", timetable(Rows{}), {0, 2, 590, 0}, 2499, 0);
  print("n = 0, work 2,500", timetable(Rows{}), {0, 2, 590, 0}, 2500, 0);
  print("n = 0, longer", timetable(Rows{}), {0, 2, 590, 0}, 2600, 9);
}

}  // namespace

int main() {
  listed_cases();
  plausible_errors();
  lines_of_six_and_seven();
}
