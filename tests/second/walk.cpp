// Demand 3 on small plans: every choice of delays is walked, with E3's gate.
#include "definitions.hpp"

#include <algorithm>
#include <stdexcept>

namespace second {
namespace {

using Large = unsigned __int128;
using Delays = std::vector<uint32_t>;  // one for each ride of the plan

// "boards the plan's first ride leaving that stop no earlier" than one who is
// there at this minute is ready.
std::optional<size_t> first_leaving(const Sailings &sailings,
                                    const Query &query, const Plan &plan,
                                    uint32_t stop, uint32_t minute) {
  const uint32_t ready = ready_to_board(query, minute);
  std::optional<size_t> first;
  for (size_t place = 0; place < plan.rides.size(); ++place) {
    const Row &row = boarded_row(sailings, plan.rides[place].ride);
    if (row.boarding != stop || row.departure < ready) continue;
    if (!first ||
        row.departure <
            boarded_row(sailings, plan.rides[*first].ride).departure)
      first = place;
  }
  return first;
}

struct Walked {
  bool ride_was_there = true;
  uint32_t reached = 0, boarded = 0;
};

// "A passenger boards its first ride and, landing with any whole-minute delay
// up to that ride's maximum, boards the plan's first ride leaving that stop no
// earlier."
Walked walk(const Sailings &sailings, const Query &query, const Plan &plan,
            const Delays &delays, std::vector<bool> &boarded) {
  Walked walked;
  std::optional<size_t> place =
      first_leaving(sailings, query, plan, query.source, query.minute);
  while (place) {
    const Ride &ride = plan.rides[*place].ride;
    boarded[*place] = true;
    ++walked.boarded;
    const uint32_t minute = arrival(sailings, ride) + delays[*place];
    const uint32_t stop = left_row(sailings, ride).landing;
    if (stop == query.target) {
      walked.reached = minute;
      return walked;
    }
    place = first_leaving(sailings, query, plan, stop, minute);
  }
  walked.ride_was_there = false;
  return walked;
}

uint32_t maximum(const Sailings &sailings, const PlannedRide &planned) {
  return class_of(sailings, planned.ride).maximum_delay;
}

// The next choice of delays, or false after the last.
bool next_choice(const Sailings &sailings, const Plan &plan, Delays &delays) {
  for (size_t place = 0; place < delays.size(); ++place) {
    if (delays[place] < maximum(sailings, plan.rides[place])) {
      ++delays[place];
      return true;
    }
    delays[place] = 0;
  }
  return false;
}

// "the weight of that choice is the product of the R shares"
Large weight(const Sailings &sailings, const Plan &plan,
             const Delays &delays) {
  Large product = 1;
  for (size_t place = 0; place < delays.size(); ++place)
    product *=
        class_of(sailings, plan.rides[place].ride).shares[delays[place]];
  return product;
}

void add(std::vector<bool> &to, const std::vector<bool> &more) {
  for (size_t place = 0; place < to.size(); ++place)
    if (more[place]) to[place] = true;
}

// 4,096^R
Large whole(const Plan &plan) {
  Large product = 1;
  for (size_t place = 0; place < plan.rides.size(); ++place) product *= 4096;
  return product;
}

// The most rides from this one of the plan on.
uint32_t longest_from(const Sailings &sailings, const Query &query,
                      const Plan &plan, size_t place,
                      std::vector<uint32_t> &known) {
  if (known[place] != 0) return known[place];
  const Ride &ride = plan.rides[place].ride;
  const uint32_t stop = left_row(sailings, ride).landing;
  uint32_t most = 0;
  for (uint32_t delay = 0;
       stop != query.target && delay <= maximum(sailings, plan.rides[place]);
       ++delay)
    if (const std::optional<size_t> next = first_leaving(
            sailings, query, plan, stop, arrival(sailings, ride) + delay))
      most = std::max(most, longest_from(sailings, query, plan, *next, known));
  return known[place] = 1 + most;
}

}  // namespace

uint32_t longest_way(const Sailings &sailings, const Query &query,
                     const Plan &plan) {
  std::vector<uint32_t> known(plan.rides.size(), 0);
  const std::optional<size_t> first =
      first_leaving(sailings, query, plan, query.source, query.minute);
  return longest_from(sailings, query, plan, first.value(), known);
}

std::optional<uint64_t> choices_of_delays(const Sailings &sailings,
                                          const Plan &plan, uint64_t limit) {
  uint64_t choices = 1;
  for (const PlannedRide &planned : plan.rides) {
    choices *= maximum(sailings, planned) + 1;
    if (choices > limit) return std::nullopt;
  }
  return choices;
}

// "Let A be the sum, over all choices, of weight x 256 x the minute at which
// demand 3's passenger then reaches the target; X the expected ticks; L the
// most rides boarded under any choice, which is the longest way. Then A <=
// 4,096^R x X < A + 4,096^R x L."
WalkCensus census_of_walks(const Sailings &sailings, const Query &query,
                           const Plan &plan) {
  if (plan.rides.size() > 8) throw std::logic_error("plan too long for sums");
  WalkCensus census;
  const std::vector<bool> none(plan.rides.size());
  std::vector<bool> ever_boarded = none, likely_boarded = none;
  Delays delays(plan.rides.size(), 0);
  Large sum = 0;
  do {
    std::vector<bool> boarded = none;
    const Walked walked = walk(sailings, query, plan, delays, boarded);
    const Large its_weight = weight(sailings, plan, delays);
    add(ever_boarded, boarded);
    if (its_weight > 0) add(likely_boarded, boarded);
    ++census.choices;
    census.ride_always_there &= walked.ride_was_there;
    census.reached_by_latest &= walked.reached <= plan.latest;
    census.no_more_rides_than_plan &= walked.boarded <= plan.rides.size();
    census.longest_way = std::max(census.longest_way, walked.boarded);
    sum += its_weight * 256 * walked.reached;
  } while (next_choice(sailings, plan, delays));
  census.every_ride_boarded =
      std::all_of(ever_boarded.begin(), ever_boarded.end(),
                  [](bool boarded) { return boarded; });
  census.some_ride_only_at_share_zero = ever_boarded != likely_boarded;
  const Large given = whole(plan) * plan.expected;
  census.mean_not_later = sum <= given;
  census.mean_within_ticks = given < sum + whole(plan) * census.longest_way;
  return census;
}

}  // namespace second
