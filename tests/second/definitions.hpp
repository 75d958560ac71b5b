// The rules of document 01 and of requests E1 and E3 of document 02,
// transcribed sentence by sentence.
//
// Every function stands under the sentence that it transcribes. Nothing here
// is meant to be fast: worths and journeys are recursions over the definitions
// that remember what they have already answered.
#pragma once

#include <cstddef>
#include <cstdint>
#include <optional>
#include <string>
#include <vector>

namespace second {

using Bytes = std::vector<uint8_t>;
using Numbers = std::vector<uint32_t>;

// ---------------------------------------------------------------- the file

struct Row {
  uint32_t boarding, landing, departure, arrival, trip, sailing_class;
};

struct SailingClass {
  uint32_t maximum_delay;
  std::vector<uint32_t> shares;
};

struct Sailings {
  uint32_t stops = 0;
  std::vector<Row> rows;
  std::vector<SailingClass> classes;
};

// "Each answer has a place: class for 3, row for 4 and 5, otherwise 0."
// Number 0 means that nothing is refused.
struct Refusal {
  uint32_t number = 0, place = 0;
};

struct CheckedFile {
  Refusal refusal;
  Sailings sailings;  // filled only if nothing is refused
};

CheckedFile check_file(const Bytes &file);

// ------------------------------------------------------------ house tables

constexpr uint32_t HOUSE_PAIRS = 8;

uint32_t house_maximum(uint32_t pair);
// The cumulative share, or nothing where refusal 6 is due.
std::optional<uint32_t> house_cumulative(uint32_t pair, uint32_t minute);
SailingClass house_class(uint32_t pair);

// -------------------------------------------------------- rides, journeys

struct Query {
  uint32_t source, target, minute, code;
  // No value means that document 01's own rule chooses the rows.
  std::optional<uint32_t> margin = std::nullopt;
  // No value means the calls of before E3, whose gates never close early.
  std::optional<uint32_t> gate = std::nullopt;
};

// The first departure whose gate is still open for one who stands at the pier
// at this minute.
uint32_t ready_to_board(const Query &query, uint32_t minute);

struct Ride {
  size_t boards, leaves;  // row numbers
};

// No value means no bound.
using Bound = std::optional<uint32_t>;

const Row &boarded_row(const Sailings &sailings, const Ride &ride);
const Row &left_row(const Sailings &sailings, const Ride &ride);
uint32_t arrival(const Sailings &sailings, const Ride &ride);
const SailingClass &class_of(const Sailings &sailings, const Ride &ride);
uint32_t safe_arrival(const Sailings &sailings, const Ride &ride);  // a+M
std::optional<size_t> next_row_of_trip(const Sailings &sailings, size_t row);
std::vector<Ride> rides_from(const Sailings &sailings, size_t row);
std::vector<Ride> all_rides(const Sailings &sailings);
bool within(const Bound &bound, uint32_t minute);

std::optional<uint32_t> earliest_safe_arrival(const Sailings &sailings,
                                              const Query &query);
// The same, journey by journey and remembering nothing: small files only.
std::optional<uint32_t> earliest_by_listing(const Sailings &sailings,
                                            const Query &query);
bool code_is_known(uint32_t code);
bool margin_is_known(uint32_t margin);
bool gate_is_known(uint32_t gate);
Bound bound_of(const Query &query, uint32_t earliest);

// ------------------------------------------------- worths and chosen rows

uint32_t worth_at_target(const SailingClass &sailing_class, uint32_t arrival);
uint32_t worth_elsewhere(const SailingClass &sailing_class,
                         const std::vector<uint32_t> &worth_after_delay);

class Worths {
 public:
  Worths(const Sailings &sailings, const Query &query, Bound bound);
  std::optional<uint32_t> worth(size_t row);
  bool chosen(size_t row);
  std::optional<size_t> first_chosen(uint32_t stop, uint32_t departure);
  std::optional<uint32_t> getting_off(size_t row);
  std::optional<uint32_t> staying_on(size_t row);

 private:
  bool decide(size_t row);
  void take(size_t row, uint32_t margin);
  enum class Known : uint8_t { no, yes };
  const Sailings &sailings_;
  const Query query_;
  Bound bound_;
  std::vector<Known> worth_known_, chosen_known_;
  std::vector<std::optional<uint32_t>> worth_;
  std::vector<bool> chosen_;
};

// ------------------------------------------------------------------ plan

struct PlannedRide {
  Ride ride;
  uint32_t worth;
};

struct Plan {
  std::vector<PlannedRide> rides;  // by boarding row rising
  uint32_t expected = 0, latest = 0;
  Bound bound;
};

Ride ride_of_chosen(const Sailings &sailings, Worths &worths, size_t row);
// Nothing exactly if there is no safe journey.
std::optional<Plan> plan_of(const Sailings &sailings, const Query &query);

struct PlanAnswer {
  uint32_t number = 0, place = 0;
  uint32_t rides = 0, expected = 0, latest = 0, bound = 0;
};

struct EarliestAnswer {
  uint32_t number = 0, place = 0, earliest = 0;
};

// Whole calls: the answer, and the later contents of the lent slices.
PlanAnswer plan_call(const Bytes &file, const Query &query, Numbers &work,
                     Numbers &slice);
EarliestAnswer earliest_call(const Bytes &file, const Query &query,
                             Numbers &work);

// ------------------------------------------------------------------ sheet

std::string sheet(const Sailings &sailings, const Plan &plan);

// ------------------------------------------------- demand 2: all safe plans

bool is_safe_plan(const Sailings &sailings, const Query &query,
                  const Bound &bound, const std::vector<Ride> &rides);
// Worths of the rides of one safe plan, whatever its rides are.
class SetWorths {
 public:
  SetWorths(const Sailings &sailings, const Query &query,
            const std::vector<Ride> &rides)
      : sailings_(sailings), query_(query), rides_(rides),
        known_(rides.size()) {}
  uint32_t worth(const Ride &ride);  // one of the set's own

 private:
  const Sailings &sailings_;
  const Query query_;
  const std::vector<Ride> &rides_;
  std::vector<std::optional<uint32_t>> known_;
};

uint32_t expected_arrival(const Sailings &sailings, const Query &query,
                          const std::vector<Ride> &rides);

struct SafePlanCensus {
  uint64_t sets_tried = 0, safe_plans = 0;
  uint32_t least_expected = 0;  // if there is a safe plan
};

// Tries every set of rides of the file.
SafePlanCensus census_of_safe_plans(const Sailings &sailings,
                                    const Query &query, const Bound &bound);

// ------------------------------------------------------ demand 3: the walk

struct WalkCensus {
  bool ride_always_there = true, reached_by_latest = true;
  bool no_more_rides_than_plan = true, every_ride_boarded = true;
  bool mean_not_later = true, mean_within_ticks = true;
  uint64_t choices = 0;
  uint32_t longest_way = 0;
  bool some_ride_only_at_share_zero = false;  // for the tally, not a demand
  bool holds() const {
    return ride_always_there && reached_by_latest && no_more_rides_than_plan &&
           every_ride_boarded && mean_not_later && mean_within_ticks;
  }
};

// The number of choices of delays, or nothing if above the limit.
std::optional<uint64_t> choices_of_delays(const Sailings &sailings,
                                          const Plan &plan, uint64_t limit);
// The most rides on a way through the plan, ride by ride: plans of any length.
uint32_t longest_way(const Sailings &sailings, const Query &query,
                     const Plan &plan);
// At most eight rides, so that all sums fit 128 bits.
WalkCensus census_of_walks(const Sailings &sailings, const Query &query,
                           const Plan &plan);

}  // namespace second
