// Document 01: the plan, whole calls with refusals 1 to 8, and later contents
// of the lent slices. The margin is E1's, the gate E3's.
#include "definitions.hpp"

#include <algorithm>

namespace second {

// "The ride from a chosen row stays aboard while the next row's worth equals
// the boarded row's."
Ride ride_of_chosen(const Sailings &sailings, Worths &worths, size_t row) {
  Ride ride{row, row};
  while (true) {
    const std::optional<size_t> next = next_row_of_trip(sailings, ride.leaves);
    if (!next || worths.worth(*next) != worths.worth(row)) return ride;
    ride.leaves = *next;
  }
}

namespace {

// "for each ride in it not ending at the target, those of the chosen rows at
// its landing stop from a up to and including the first at or after a+M". E3:
// "from a+g to the first at or after a+M+g"
std::vector<size_t> chosen_after(const Sailings &sailings, const Query &query,
                                 Worths &worths, const Ride &ride) {
  std::vector<size_t> answer;
  const uint32_t stop = left_row(sailings, ride).landing;
  const uint32_t first = ready_to_board(query, arrival(sailings, ride));
  const uint32_t safe = ready_to_board(query, safe_arrival(sailings, ride));
  for (size_t row = 0; row < sailings.rows.size(); ++row) {
    const Row &here = sailings.rows[row];
    if (here.boarding != stop || here.departure < first || !worths.chosen(row))
      continue;
    answer.push_back(row);
    if (here.departure >= safe) return answer;
  }
  return answer;
}

// "The plan holds the ride of the first chosen row at the source at or after
// T; and, for each ride in it not ending at the target, those of the chosen
// rows at its landing stop (..). Nothing else."
void hold(const Sailings &sailings, const Query &query, Worths &worths,
          size_t row, std::vector<bool> &held) {
  if (held[row]) return;
  held[row] = true;
  const Ride ride = ride_of_chosen(sailings, worths, row);
  if (left_row(sailings, ride).landing == query.target) return;
  for (size_t next : chosen_after(sailings, query, worths, ride))
    hold(sailings, query, worths, next, held);
}

}  // namespace

std::optional<Plan> plan_of(const Sailings &sailings, const Query &query) {
  const std::optional<uint32_t> earliest =
      earliest_safe_arrival(sailings, query);
  if (!earliest) return std::nullopt;
  Plan plan;
  plan.bound = bound_of(query, *earliest);
  Worths worths(sailings, query, plan.bound);
  const uint32_t ready = ready_to_board(query, query.minute);
  const size_t first = worths.first_chosen(query.source, ready).value();
  std::vector<bool> held(sailings.rows.size());
  hold(sailings, query, worths, first, held);
  for (size_t row = 0; row < held.size(); ++row) {
    if (!held[row]) continue;
    const Ride ride = ride_of_chosen(sailings, worths, row);
    plan.rides.push_back({ride, *worths.worth(row)});
    plan.latest = std::max(plan.latest, safe_arrival(sailings, ride));
  }
  plan.expected = *worths.worth(first);
  return plan;
}

namespace {

// "6 | a stop not below S, source equals target, T above 10,079, q not 0 or 4
// to 16". E1: "a margin outside its range is 6, after q". E3: "g above 30 is 6,
// after E1's margin"
bool query_is_right(const Sailings &sailings, const Query &query) {
  return query.source < sailings.stops && query.target < sailings.stops &&
         query.source != query.target && query.minute <= 10079 &&
         code_is_known(query.code) &&
         (!query.margin || margin_is_known(*query.margin)) &&
         (!query.gate || gate_is_known(*query.gate));
}

size_t work_needed(const Sailings &sailings) {
  return 4 * sailings.rows.size() + 2500;
}

// "the first 4n+2,500 work numbers are 0 and the rest unchanged"
void clear_work(const Sailings &sailings, Numbers &work) {
  std::fill_n(work.begin(), work_needed(sailings), 0u);
}

// "three a ride (boarding row, leaving row, worth), by boarding row rising"
void write_plan(const Plan &plan, Numbers &slice) {
  size_t place = 0;
  for (const PlannedRide &planned : plan.rides) {
    slice.at(place++) = static_cast<uint32_t>(planned.ride.boards);
    slice.at(place++) = static_cast<uint32_t>(planned.ride.leaves);
    slice.at(place++) = planned.worth;
  }
}

PlanAnswer plan_refused(uint32_t number, uint32_t place) {
  return {number, place, 0, 0, 0, 0};
}

// "A plan answer is the ride count, expected ticks, latest minute (the largest
// a+M of its rides) and the bound (0 for none)."
PlanAnswer plan_answer(const Plan &plan) {
  return {0,
          0,
          static_cast<uint32_t>(plan.rides.size()),
          plan.expected,
          plan.latest,
          plan.bound.value_or(0)};
}

}  // namespace

// "then 6, 7, 8" after the check. "7 | work below 4n+2,500 numbers, or plan
// slice below 3n". "Refusals 1 to 7 change no buffer. After a plan, an
// earliest safe arrival, or refusal 8, the first 4n+2,500 work numbers are 0
// and the rest unchanged; the plan slice changes only in its 3 x rides
// numbers, and not at all on 8."
PlanAnswer plan_call(const Bytes &file, const Query &query, Numbers &work,
                     Numbers &slice) {
  const CheckedFile checked = check_file(file);
  const Sailings &sailings = checked.sailings;
  if (checked.refusal.number != 0)
    return plan_refused(checked.refusal.number, checked.refusal.place);
  if (!query_is_right(sailings, query)) return plan_refused(6, 0);
  if (work.size() < work_needed(sailings) ||
      slice.size() < 3 * sailings.rows.size())
    return plan_refused(7, 0);
  const std::optional<Plan> plan = plan_of(sailings, query);
  clear_work(sailings, work);
  if (!plan) return plan_refused(8, 0);
  write_plan(*plan, slice);
  return plan_answer(*plan);
}

// "Earliest safe arrival takes source, target and T without a bound code,
// needs only the work slice (numbers of u32) and answers E."
EarliestAnswer earliest_call(const Bytes &file, const Query &query,
                             Numbers &work) {
  const CheckedFile checked = check_file(file);
  const Sailings &sailings = checked.sailings;
  if (checked.refusal.number != 0)
    return {checked.refusal.number, checked.refusal.place, 0};
  Query unbounded = query;
  unbounded.code = 0;
  unbounded.margin.reset();
  if (!query_is_right(sailings, unbounded)) return {6, 0, 0};
  if (work.size() < work_needed(sailings)) return {7, 0, 0};
  const std::optional<uint32_t> earliest =
      earliest_safe_arrival(sailings, unbounded);
  clear_work(sailings, work);
  if (!earliest) return {8, 0, 0};
  return {0, 0, *earliest};
}

}  // namespace second
