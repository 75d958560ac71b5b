// The printed cases of document 01 and both sides of each line of requests E1
// and E3, run on the definitions and, if there is one, on the subject.
#include <cstdio>
#include <string>

#include "calls.hpp"

using namespace second;

namespace {

int failures = 0, passed = 0;

void expect(bool holds, const char *what) {
  if (holds) {
    ++passed;
    return;
  }
  ++failures;
  std::printf("FAILED: %s\n", what);
}

// "Case W: S 3, K 2. Class 0: M 0. Class 1: M 10, shares 2,048 at 0, 1,024 at
// 5, 1,024 at 10. Rows (..): 0 1 600 630 0 1; 1 2 632 660 1 0; 1 2 636 700 2
// 0; 1 2 650 690 3 0."
Draft case_w() {
  Draft draft;
  draft.stops = 3;
  draft.classes = {{0, {4096}},
                   {10, {2048, 0, 0, 0, 0, 1024, 0, 0, 0, 0, 1024}}};
  draft.rows = {{0, 1, 600, 630, 0, 1},
                {1, 2, 632, 660, 1, 0},
                {1, 2, 636, 700, 2, 0},
                {1, 2, 650, 690, 3, 0}};
  return draft;
}

Seen answered(const Bytes &file, const Call &call) {
  const Seen defined = by_definitions(file, call);
  if (subject_is_there())
    expect(same(defined, by_subject(file, call)),
           ("the subject: " + words_of(call)).c_str());
  return defined;
}

Seen planned(const Bytes &file, const Query &query) {
  return answered(file, {Entry::plan, query, 2600, 30, 5});
}

Seen planned(const Draft &draft, const Query &query) {
  return planned(written(draft), query);
}

const Query W_QUERY{0, 2, 590, 0};
const Numbers W_RIDES{0, 0, 172800, 1, 1, 168960, 3, 3, 176640};

bool refused(const Seen &seen, uint32_t number) {
  return seen.answer == Answer{number, 0, 0, 0, 0, 0};
}

bool holds_rides(const Seen &seen, const Numbers &rides) {
  return seen.answer[2] * 3 == rides.size() &&
         std::equal(rides.begin(), rides.end(), seen.plan.begin());
}

bool slices_as_after_plan(const Seen &seen, size_t rows) {
  const Numbers before = dirty(2600, 5);
  const size_t cleared = 4 * rows + 2500, filled = 3 * seen.answer[2];
  const Numbers slice = dirty(30, ~5u);
  for (size_t place = 0; place < 2600; ++place)
    if (seen.work[place] != (place < cleared ? 0 : before[place])) return false;
  return std::equal(slice.begin() + filled, slice.end(),
                    seen.plan.begin() + filled);
}

void case_w_itself() {
  const Bytes file = written(case_w());
  expect(file.size() == 92, "W: length 92");
  expect(file[84] == 0 && file[88] == 48, "W: row offset 0, table offset 48");
  const CheckedFile checked = check_file(file);
  expect(checked.refusal.number == 0, "W: sound");
  const std::optional<Plan> plan = plan_of(checked.sailings, W_QUERY);
  expect(plan && sheet(checked.sailings, *plan) ==
                     "plan 3 d1 11:15 d1 11:30\n"
                     "0 d1 10:00 1 d1 10:30 d1 11:15\n"
                     "1 d1 10:32 2 d1 11:00 d1 11:00\n"
                     "1 d1 10:50 2 d1 11:30 d1 11:30\n",
         "W: the sheet");
  const Seen seen = planned(file, W_QUERY);
  expect(seen.answer == Answer{0, 0, 3, 172800, 690, 0}, "W: the answer");
  expect(holds_rides(seen, W_RIDES), "1: worths of W's rides");
  expect(slices_as_after_plan(seen, 4), "W: later contents");
  Worths worths(checked.sailings, W_QUERY, std::nullopt);
  expect(worths.worth(2) == 179200u && !worths.chosen(2), "2: third row");
}

void last_row_earlier() {
  Draft draft = case_w();
  draft.rows[3].departure = 640;
  expect(planned(draft, W_QUERY).answer[0] == 0, "3: plan at 640");
  draft.rows[3].departure = 639;
  expect(refused(planned(draft, W_QUERY), 8), "4: refusal 8 at 639");
  expect(slices_as_after_plan(planned(draft, W_QUERY), 4), "4: contents");
}

void bounds_and_minutes() {
  const Draft draft = case_w();
  const Seen bounded = planned(draft, {0, 2, 590, 4});
  expect(bounded.answer == Answer{0, 0, 3, 172800, 690, 690}, "5: q 4");
  expect(holds_rides(bounded, W_RIDES), "5: same plan");
  const Seen earliest =
      answered(written(draft), {Entry::earliest, W_QUERY, 2516, 0, 5});
  expect(earliest.answer == Answer{0, 0, 690, 0, 0, 0}, "5: E 690");
  expect(planned(draft, {0, 2, 590, 5}).answer[5] == 715, "6: bound 715");
  expect(holds_rides(planned(draft, {0, 2, 600, 0}), W_RIDES), "7: T 600");
  expect(refused(planned(draft, {0, 2, 601, 0}), 8), "8: T 601");
}

void twin_and_staying_on() {
  Draft draft = case_w();
  draft.rows.push_back({1, 2, 650, 690, 4, 0});
  expect(holds_rides(planned(draft, W_QUERY),
                     {0, 0, 172800, 1, 1, 168960, 4, 4, 176640}),
         "9: row 4 on the sheet");
  draft.rows = {{0, 1, 600, 620, 0, 1}, {1, 2, 625, 660, 0, 1}};
  expect(holds_rides(planned(draft, W_QUERY), {0, 1, 169920}), "10: one ride");
}

void shares_and_house() {
  expect(worth_at_target({1, {4095, 1}}, 10) == 2561, "11: 2,561 ticks");
  const uint32_t minutes[] = {1, 2, 5, 6, 35};
  const uint32_t shares[] = {303, 682, 2730, 3106, 4096};
  for (int place = 0; place < 5; ++place)
    expect(house_cumulative(1, minutes[place]) == shares[place],
           "12: pair (5,30)");
  uint32_t count = 0;
  for (uint32_t pair = 0; pair < HOUSE_PAIRS; ++pair) {
    count += house_maximum(pair) + 1;
    Draft draft = case_w();
    draft.classes[0] = house_class(pair);
    expect(check_file(written(draft)).refusal.number == 0,
           "a house table is a sound class");
    expect(!house_cumulative(pair, house_maximum(pair) + 1), "minute above M");
  }
  expect(count == 575, "575 cumulative shares");
  expect(!house_cumulative(8, 0), "pair above 7");
}

void edges() {
  Draft draft = case_w();
  draft.rows.clear();
  for (bool tables_first : {false, true}) {
    draft.tables_first = tables_first;
    expect(refused(planned(draft, W_QUERY), 8), "13: n = 0");
  }
  expect(refused(planned(case_w(), {0, 2, 590, 3}), 6), "13: q 3");
  expect(refused(planned(case_w(), {0, 2, 590, 17}), 6), "13: q 17");
  expect(refused(planned(Bytes(19), W_QUERY), 1), "13: length 19");
  expect(refused(planned(Bytes(27921), W_QUERY), 1), "13: length 27,921");
}

Draft full_draft() {
  Draft draft;
  draft.stops = 200;
  for (int number = 0; number < 16; ++number) {
    draft.classes.push_back({120, std::vector<uint32_t>(121, 0)});
    draft.classes.back().shares.back() = 4096;
  }
  for (uint32_t row = 0; row < 2000; ++row)
    draft.rows.push_back({0, 199, 8079 + row, 10079, row, 15});
  return draft;
}

void least_and_greatest() {
  Draft least;
  least.classes = {{0, {4096}}};
  expect(written(least).size() == 20, "least length 20");
  expect(check_file(written(least)).refusal.number == 0, "least file sound");
  Bytes full = written(full_draft());
  expect(full.size() == 27920, "greatest length 27,920");
  expect(check_file(full).refusal.number == 0, "greatest file sound");
  full.insert(full.begin(), 0);
  expect(check_file(full).refusal.number == 1, "27,921 with a sound trailer");
}

// ------------------------------------------------------ request E1: margins

struct Boat {
  uint32_t departure, ticks;
};

// W's first ride, and from its landing stop boats of these worths.
Draft boats(const std::vector<Boat> &from_stop_1) {
  Draft draft = case_w();
  draft.rows.resize(1);
  for (const Boat &boat : from_stop_1)
    add_worth(draft, 1, 2, boat.departure, boat.ticks);
  return draft;
}

// The rows boarded in the plan.
Numbers boarded(const Seen &seen) {
  Numbers rows;
  for (size_t ride = 0; ride < seen.answer[2]; ++ride)
    rows.push_back(seen.plan[3 * ride]);
  return rows;
}

Numbers boarded(const Draft &draft, uint32_t margin) {
  return boarded(planned(draft, {0, 2, 590, 0, margin}));
}

constexpr uint32_t LAST = 256 * 700;  // what the last boat is worth

void gains_the_margin() {
  using N = Numbers;
  expect(boarded(boats({{632, LAST - 10}, {650, LAST}}), 10) == N{0, 1, 2},
         "E1: gains exactly the margin");
  expect(boarded(boats({{632, LAST - 9}, {650, LAST}}), 10) == N{0, 2},
         "E1: one tick less");
  expect(boarded(boats({{650, LAST}}), 2560) == N{0, 1},
         "E1: a stop's first row");
  expect(boarded(boats({{632, LAST - 20}, {636, LAST - 10}, {650, LAST}}),
                 10) == N{0, 1, 2, 3},
         "E1: gains the margin twice");
  expect(boarded(boats({{632, LAST - 19}, {636, LAST - 10}, {650, LAST}}),
                 10) == N{0, 2, 3},
         "E1: compared with the current first, not with a later row");
  expect(boarded(boats({{632, LAST - 10}, {636, LAST - 9}, {650, LAST}}),
                 10) == N{0, 1, 3},
         "E1: compared with a chosen row, not with one left out");
}

void same_minute() {
  using N = Numbers;
  const Boat late{650, LAST + 1000}, first{636, LAST};
  expect(boarded(boats({{636, LAST - 10}, first, late}), 10) == N{0, 1, 3},
         "E1: replaces the row of its minute");
  expect(boarded(boats({{636, LAST - 9}, first, late}), 10) == N{0, 2, 3},
         "E1: one tick less in the same minute");
  expect(boarded(boats({{636, LAST}, first, late}), 1) == N{0, 2, 3},
         "E1: equal in the same minute");
  expect(boarded(boats({{636, LAST - 1}, first, late}), 1) == N{0, 1, 3},
         "E1: a tick better in the same minute, margin 1");
}

void least_and_greatest_margin() {
  expect(holds_rides(planned(case_w(), {0, 2, 590, 0, 1}), W_RIDES),
         "E1: W with margin 1");
  expect(holds_rides(planned(case_w(), {0, 2, 590, 0, 2560}), W_RIDES),
         "E1: W with margin 2,560");
  for (uint32_t margin : {0u, 2561u, 65535u, 65536u, 65537u, 4294967295u}) {
    const Query query{0, 2, 590, 0, margin}, late{0, 2, 601, 0, margin};
    expect(refused(planned(case_w(), query), 6), "E1: margin out of range");
    expect(refused(planned(case_w(), late), 6), "E1: 6 before 8");
    expect(refused(answered(written(case_w()), {Entry::plan, query, 0, 0, 5}),
                   6),
           "E1: 6 before 7");
    expect(refused(planned(Bytes(19), query), 1), "E1: 1 before 6");
  }
}

// The margin leaves out a boat at stop 1 and, since that one is 9 ticks worse
// then, the first ride from the source.
void later_on_every_ride() {
  Draft draft = boats({{632, LAST - 9}, {650, LAST}});
  draft.rows[0].sailing_class = 0;
  add_worth(draft, 0, 2, 620, LAST + 9);
  std::swap(draft.rows[1], draft.rows[3]);  // by departure again
  std::swap(draft.rows[2], draft.rows[3]);
  expect(planned(draft, {0, 2, 590, 0, 1}).answer[3] == LAST - 9,
         "E1: margin 1 over two rides");
  expect(planned(draft, {0, 2, 590, 0, 10}).answer[3] == LAST + 9,
         "E1: later by (margin - 1) x 2");
}

// -------------------------------------------------------- request E3: gates

Seen gated(const Draft &draft, uint32_t minute, uint32_t gate) {
  return planned(draft, with_gate({0, 2, minute, 0}, gate));
}

Seen earliest_gated(const Draft &draft, const Query &query, uint32_t gate) {
  return answered(written(draft),
                  {Entry::earliest, with_gate(query, gate), 2600, 0, 5});
}

void gate_at_source() {
  for (uint32_t gate : {0u, 1u, 2u, 10u}) {
    expect(gated(case_w(), 600 - gate, gate).answer[0] == 0,
           "E3: T + g is the departure");
    expect(refused(gated(case_w(), 601 - gate, gate), 8),
           "E3: T + g is a minute late");
    const Query late{0, 2, 601 - gate, 0};
    expect(refused(earliest_gated(case_w(), late, gate), 8),
           "E3: no E from a shut gate");
  }
}

void gate_after_landing() {
  Draft draft = case_w();
  const Seen caught = gated(draft, 590, 2), missed = gated(draft, 590, 3);
  expect(caught.answer == Answer{0, 0, 3, 172800, 690, 0}, "E3: 630 + 2");
  expect(holds_rides(caught, W_RIDES), "E3: on time, 632 is caught");
  expect(slices_as_after_plan(caught, 4), "E3: later contents");
  expect(missed.answer == Answer{0, 0, 2, 176640, 690, 0}, "E3: 630 + 3");
  expect(holds_rides(missed, {0, 0, 176640, 3, 3, 176640}),
         "E3: on time, 632 is missed and out of the plan");
  draft.rows[2].arrival = 670;
  expect(holds_rides(gated(draft, 590, 1), {0, 0, 171520, 1, 1, 168960, 2, 2,
                                            171520, 3, 3, 176640}),
         "E3: 5 late, 636 is caught");
  expect(holds_rides(gated(draft, 590, 2), {0, 0, 172800, 1, 1, 168960, 2, 2,
                                            171520, 3, 3, 176640}),
         "E3: 5 late, 636 is missed; 1 to 4 late, of share 0, it is not");
  expect(boarded(gated(draft, 590, 6)) == Numbers{0, 2, 3},
         "E3: the first at a + g");
  expect(boarded(gated(draft, 590, 7)) == Numbers{0, 3},
         "E3: none before a + g");
}

void gate_after_latest_landing() {
  Draft draft = case_w();
  expect(gated(draft, 590, 10).answer[0] == 0, "E3: 650 at a + M + g");
  const Seen refusal = gated(draft, 580, 11);
  expect(refused(refusal, 8), "E3: 650 a minute before a + M + g");
  expect(slices_as_after_plan(refusal, 4), "E3: contents after 8");
  expect(earliest_gated(draft, W_QUERY, 10).answer ==
             Answer{0, 0, 690, 0, 0, 0},
         "E3: E 690");
  expect(refused(earliest_gated(draft, {0, 2, 580, 0}, 11), 8), "E3: no E");
  draft.rows.push_back({1, 2, 655, 695, 4, 0});
  expect(boarded(gated(draft, 580, 10)) == Numbers{0, 3},
         "E3: none after the first at a + M + g");
  expect(holds_rides(gated(draft, 580, 11),
                     {0, 0, 176960, 3, 3, 176640, 4, 4, 177920}),
         "E3: up to the first after a + M + g");
}

void no_gate_aboard() {
  Draft draft = case_w();
  draft.rows = {{0, 1, 600, 620, 0, 1}, {1, 2, 625, 660, 0, 1}};
  const Seen seen = gated(draft, 570, 30);
  expect(seen.answer == Answer{0, 0, 1, 169920, 670, 0},
         "E3: no gate in the latest minute and in a worth");
  expect(holds_rides(seen, {0, 1, 169920}), "E3: no gate for who stays aboard");
  expect(refused(gated(draft, 571, 30), 8), "E3: a gate for who boards");
}

void gate_and_bound() {
  expect(planned(case_w(), with_gate({0, 2, 590, 5}, 2)).answer ==
             Answer{0, 0, 3, 172800, 690, 715},
         "E3: the bound counts from T, without g");
  Draft draft;
  draft.classes = {{0, {4096}}, {3, {4095, 0, 0, 1}}};
  draft.rows = {{0, 1, 0, 4, 0, 0}, {0, 1, 1, 2, 1, 1}};
  const Query query{0, 1, 0, 4};
  expect(planned(draft, with_gate(query, 0)).answer ==
             Answer{0, 0, 1, 1024, 4, 4},
         "E3: 1,024 ticks with gate 0");
  expect(planned(draft, with_gate(query, 1)).answer ==
             Answer{0, 0, 1, 513, 5, 5},
         "E3: 513 ticks with gate 1, since E is later");
  for (uint32_t gate : {0u, 1u})
    expect(earliest_gated(draft, query, gate).answer[2] == 4 + gate,
           "E3: E reads the gate");
  expect(refused(earliest_gated(draft, query, 2), 8), "E3: both gates shut");
}

void gate_and_margin() {
  const Draft draft =
      boats({{640, LAST - 19}, {645, LAST - 10}, {650, LAST}});
  expect(boarded(planned(draft, {0, 2, 590, 0, 9, 10})) ==
             Numbers{0, 1, 2, 3},
         "E3: gains the margin");
  expect(boarded(planned(draft, {0, 2, 590, 0, 10, 10})) == Numbers{0, 2, 3},
         "E3: no gate between the boats of a stop");
}

void gate_0_is_today() {
  for (uint32_t minute : {590u, 600u, 601u}) {
    const Query plain{0, 2, minute, 0}, margin{0, 2, minute, 4, 256};
    for (const Query &query : {plain, margin})
      expect(same(planned(case_w(), query),
                  planned(case_w(), with_gate(query, 0))),
             "E3: gate 0 plans as today");
    expect(same(answered(written(case_w()),
                         {Entry::earliest, plain, 2600, 0, 5}),
                earliest_gated(case_w(), plain, 0)),
           "E3: gate 0 has today's E");
  }
}

// One boat to a stop and, 30 minutes behind the landing, one from it.
void greatest_gate() {
  Draft draft = case_w();
  draft.rows = {{0, 1, 600, 630, 0, 0}, {1, 2, 660, 690, 1, 0}};
  expect(boarded(gated(draft, 570, 30)) == Numbers{0, 1}, "E3: gate 30");
  expect(refused(gated(draft, 571, 30), 8), "E3: gate 30, source");
  expect(earliest_gated(draft, {0, 2, 570, 0}, 30).answer[2] == 690,
         "E3: gate 30, E");
  draft.rows[1].departure = 659;
  expect(refused(gated(draft, 570, 30), 8), "E3: gate 30, landing");
  expect(boarded(gated(draft, 570, 29)) == Numbers{0, 1}, "E3: gate 29");
}

void gate_out_of_range() {
  const Query query{0, 2, 500, 0}, late{0, 2, 601, 0};
  for (uint32_t gate : {31u, 32u, 255u, 256u, 286u, 65535u, 65536u, 65566u,
                        4294967295u}) {
    expect(refused(planned(case_w(), with_gate(query, gate)), 6),
           "E3: gate out of range");
    expect(refused(planned(case_w(), with_gate(late, gate)), 6),
           "E3: 6 before 8");
    const Call no_room{Entry::plan, with_gate(query, gate), 0, 0, 5};
    expect(refused(answered(written(case_w()), no_room), 6), "E3: 6 before 7");
    expect(refused(planned(Bytes(19), with_gate(query, gate)), 1),
           "E3: 1 before 6");
    expect(refused(earliest_gated(case_w(), query, gate), 6),
           "E3: gate out of range, E");
  }
}

void ranges_of_margin_and_gate() {
  for (uint32_t margin : {0u, 1u, 2560u, 2561u})
    for (uint32_t gate : {0u, 10u, 31u}) {
      const bool known = margin_is_known(margin) && gate <= 30;
      expect(planned(case_w(), {0, 2, 590, 0, margin, gate}).answer[0] ==
                 (known ? 0 : 6),
             "E3: margin and gate each in its range");
    }
}

}  // namespace

int main() {
  case_w_itself();
  last_row_earlier();
  bounds_and_minutes();
  twin_and_staying_on();
  shares_and_house();
  edges();
  least_and_greatest();
  gains_the_margin();
  same_minute();
  least_and_greatest_margin();
  later_on_every_ride();
  gate_at_source();
  gate_after_landing();
  gate_after_latest_landing();
  no_gate_aboard();
  gate_and_bound();
  gate_and_margin();
  gate_0_is_today();
  greatest_gate();
  gate_out_of_range();
  ranges_of_margin_and_gate();
  std::printf("%d fixed cases hold, %d fail\n", passed, failures);
  return failures == 0 ? 0 : 1;
}
