// Document 01, "Rides, safe journeys, plans": rides, journeys and the bound;
// E3's gate.
#include "definitions.hpp"

#include <algorithm>

namespace second {

const Row &boarded_row(const Sailings &sailings, const Ride &ride) {
  return sailings.rows[ride.boards];
}

const Row &left_row(const Sailings &sailings, const Ride &ride) {
  return sailings.rows[ride.leaves];
}

// "Its class and arrival are those of the row where it leaves."
uint32_t arrival(const Sailings &sailings, const Ride &ride) {
  return left_row(sailings, ride).arrival;
}

const SailingClass &class_of(const Sailings &sailings, const Ride &ride) {
  return sailings.classes[left_row(sailings, ride).sailing_class];
}

uint32_t safe_arrival(const Sailings &sailings, const Ride &ride) {
  return arrival(sailings, ride) + class_of(sailings, ride).maximum_delay;
}

std::optional<size_t> next_row_of_trip(const Sailings &sailings, size_t row) {
  for (size_t later = row + 1; later < sailings.rows.size(); ++later)
    if (sailings.rows[later].trip == sailings.rows[row].trip) return later;
  return std::nullopt;
}

// "A ride boards at one row and leaves at the same or a later row of the same
// trip. .. It may pass the target without leaving."
std::vector<Ride> rides_from(const Sailings &sailings, size_t row) {
  std::vector<Ride> answer;
  for (std::optional<size_t> leaves = row; leaves;
       leaves = next_row_of_trip(sailings, *leaves))
    answer.push_back({row, *leaves});
  return answer;
}

std::vector<Ride> all_rides(const Sailings &sailings) {
  std::vector<Ride> answer;
  for (size_t row = 0; row < sailings.rows.size(); ++row)
    for (const Ride &ride : rides_from(sailings, row)) answer.push_back(ride);
  return answer;
}

bool within(const Bound &bound, uint32_t minute) {
  return !bound || minute <= *bound;
}

// E3: "a row is caught only if the landing minute plus g is at most its
// departure. The same holds at the source with T, for "safe" and for the
// plan's rides". Who stays aboard passes no gate.
uint32_t ready_to_board(const Query &query, uint32_t minute) {
  return minute + query.gate.value_or(0);
}

namespace {

using Earliest = std::optional<uint32_t>;

void take_less(Earliest &least, const Earliest &other) {
  if (other && (!least || *other < *least)) least = other;
}

// The safe journeys of one file and query.
class Journeys {
 public:
  Journeys(const Sailings &sailings, const Query &query, bool remembering)
      : sailings_(sailings),
        query_(query),
        remembering_(remembering),
        known_(sailings.rows.size()),
        least_(sailings.rows.size()) {}

  Earliest from_source() {
    return from(query_.source, ready_to_board(query_, query_.minute));
  }

 private:
  // "A safe journey boards first at the source, at or after query minute T;
  // each next ride boards where the last one landed, at or after a+M"
  Earliest from(uint32_t stop, uint32_t departure) {
    Earliest least;
    for (size_t row = 0; row < sailings_.rows.size(); ++row)
      if (sailings_.rows[row].boarding == stop &&
          sailings_.rows[row].departure >= departure)
        take_less(least, boarding_row(row));
    return least;
  }

  // "the last one leaves at the target. The earliest safe arrival E is the
  // least a+M of a last ride."
  Earliest boarding_row(size_t row) {
    if (remembering_ && known_[row]) return least_[row];
    Earliest least;
    for (const Ride &ride : rides_from(sailings_, row)) {
      const uint32_t safe = safe_arrival(sailings_, ride);
      const uint32_t landing = left_row(sailings_, ride).landing;
      if (landing == query_.target) take_less(least, safe);
      take_less(least, from(landing, ready_to_board(query_, safe)));
    }
    known_[row] = true;
    return least_[row] = least;
  }

  const Sailings &sailings_;
  const Query query_;
  bool remembering_;
  std::vector<bool> known_;
  std::vector<Earliest> least_;
};

}  // namespace

std::optional<uint32_t> earliest_safe_arrival(const Sailings &sailings,
                                              const Query &query) {
  return Journeys(sailings, query, true).from_source();
}

std::optional<uint32_t> earliest_by_listing(const Sailings &sailings,
                                            const Query &query) {
  return Journeys(sailings, query, false).from_source();
}

// "Bound code q is 0 (no bound) or 4 to 16 (quarters)."
bool code_is_known(uint32_t code) {
  return code == 0 || (4 <= code && code <= 16);
}

// E1: "a margin of 1 to 2,560 ticks"
bool margin_is_known(uint32_t margin) { return 1 <= margin && margin <= 2560; }

// E3: "a gate time g, 0 to 30"
bool gate_is_known(uint32_t gate) { return gate <= 30; }

// "The bound is T + q(E-T)/4 rounded down."
Bound bound_of(const Query &query, uint32_t earliest) {
  if (query.code == 0) return std::nullopt;
  return query.minute + query.code * (earliest - query.minute) / 4;
}

}  // namespace second
