// Demand 2 on tiny files: every set of rides is tried. "Demands 2 and 3 read
// g".
#include "definitions.hpp"

namespace second {
namespace {

// The first ride of a set that departs from a stop then or later.
const Ride *first_boarding(const Sailings &sailings,
                           const std::vector<Ride> &rides, uint32_t stop,
                           uint32_t departure) {
  const Ride *first = nullptr;
  for (const Ride &ride : rides) {
    const Row &row = boarded_row(sailings, ride);
    if (row.boarding != stop || row.departure < departure) continue;
    if (!first || row.departure < boarded_row(sailings, *first).departure)
      first = &ride;
  }
  return first;
}

// "no two board at one stop in one minute"
bool no_two_board_together(const Sailings &sailings,
                           const std::vector<Ride> &rides) {
  for (size_t one = 0; one < rides.size(); ++one)
    for (size_t two = one + 1; two < rides.size(); ++two) {
      const Row &first = boarded_row(sailings, rides[one]);
      const Row &second = boarded_row(sailings, rides[two]);
      if (first.boarding == second.boarding &&
          first.departure == second.departure)
        return false;
    }
  return true;
}

// "none boards at the target; .. each has a+M within the bound; .. after each
// ride not ending at the target, one boards at its landing stop at or after
// a+M"
bool ride_is_safe(const Sailings &sailings, const Query &query,
                  const Bound &bound, const std::vector<Ride> &rides,
                  const Ride &ride) {
  const uint32_t landing = left_row(sailings, ride).landing;
  const uint32_t safe = safe_arrival(sailings, ride);
  return boarded_row(sailings, ride).boarding != query.target &&
         within(bound, safe) &&
         (landing == query.target ||
          first_boarding(sailings, rides, landing,
                         ready_to_board(query, safe)));
}

// "one boards at the source at or after T"
const Ride *first_from_source(const Sailings &sailings, const Query &query,
                              const std::vector<Ride> &rides) {
  return first_boarding(sailings, rides, query.source,
                        ready_to_board(query, query.minute));
}

}  // namespace

// "A safe plan is a set of rides: none boards at the target; no two board at
// one stop in one minute; each has a+M within the bound; one boards at the
// source at or after T; after each ride not ending at the target, one boards
// at its landing stop at or after a+M."
bool is_safe_plan(const Sailings &sailings, const Query &query,
                  const Bound &bound, const std::vector<Ride> &rides) {
  if (!first_from_source(sailings, query, rides)) return false;
  for (const Ride &ride : rides)
    if (!ride_is_safe(sailings, query, bound, rides, ride)) return false;
  return no_two_board_together(sailings, rides);
}

// "Any other ride is worth (sum over v of share(v) x worth of the ride caught
// after v)/4,096, rounded up once.", with the rides of this set.
uint32_t SetWorths::worth(const Ride &ride) {
  std::optional<uint32_t> &known = known_[&ride - rides_.data()];
  if (known) return *known;
  const uint32_t a = arrival(sailings_, ride);
  const uint32_t landing = left_row(sailings_, ride).landing;
  const SailingClass &sailing_class = class_of(sailings_, ride);
  if (landing == query_.target)
    return *(known = worth_at_target(sailing_class, a));
  std::vector<uint32_t> after;
  for (uint32_t delay = 0; delay <= sailing_class.maximum_delay; ++delay)
    after.push_back(worth(*first_boarding(
        sailings_, rides_, landing, ready_to_board(query_, a + delay))));
  return *(known = worth_elsewhere(sailing_class, after));
}

// "Its expected arrival is that of its first ride from the source at or after
// T."
uint32_t expected_arrival(const Sailings &sailings, const Query &query,
                          const std::vector<Ride> &rides) {
  return SetWorths(sailings, query, rides)
      .worth(*first_from_source(sailings, query, rides));
}

SafePlanCensus census_of_safe_plans(const Sailings &sailings,
                                    const Query &query, const Bound &bound) {
  const std::vector<Ride> every = all_rides(sailings);
  SafePlanCensus census;
  std::vector<Ride> rides;
  for (uint64_t set = 0; set < uint64_t{1} << every.size(); ++set) {
    rides.clear();
    for (size_t place = 0; place < every.size(); ++place)
      if (set >> place & 1) rides.push_back(every[place]);
    ++census.sets_tried;
    if (!is_safe_plan(sailings, query, bound, rides)) continue;
    const uint32_t expected = expected_arrival(sailings, query, rides);
    if (census.safe_plans++ == 0 || expected < census.least_expected)
      census.least_expected = expected;
  }
  return census;
}

}  // namespace second
