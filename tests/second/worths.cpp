// Document 01, "Expected arrival in ticks": worths and chosen rows; with a
// margin, E1's rule chooses, and E3's gate decides what is caught.
#include "definitions.hpp"

namespace second {
namespace {

uint64_t divided_rounded_up(uint64_t sum, uint64_t by) {
  return sum / by + (sum % by != 0);
}

}  // namespace

// "A ride ending at the target is worth 256a plus (sum of delay x share)/16,
// rounded up."
uint32_t worth_at_target(const SailingClass &sailing_class, uint32_t arrival) {
  uint64_t sum = 0;
  for (uint64_t delay = 0; delay <= sailing_class.maximum_delay; ++delay)
    sum += delay * sailing_class.shares[delay];
  return static_cast<uint32_t>(256u * arrival + divided_rounded_up(sum, 16));
}

// "Any other ride is worth (sum over v of share(v) x worth of the ride caught
// after v)/4,096, rounded up once."
uint32_t worth_elsewhere(const SailingClass &sailing_class,
                         const std::vector<uint32_t> &worth_after_delay) {
  uint64_t sum = 0;
  for (size_t delay = 0; delay < worth_after_delay.size(); ++delay)
    sum += uint64_t{sailing_class.shares[delay]} * worth_after_delay[delay];
  return static_cast<uint32_t>(divided_rounded_up(sum, 4096));
}

Worths::Worths(const Sailings &sailings, const Query &query, Bound bound)
    : sailings_(sailings),
      query_(query),
      bound_(bound),
      worth_known_(sailings.rows.size()),
      chosen_known_(sailings.rows.size(),
                    query.margin ? Known::yes : Known::no),
      worth_(sailings.rows.size()),
      chosen_(sailings.rows.size()) {
  if (!query.margin) return;
  for (size_t row = sailings.rows.size(); row > 0; --row)
    take(row - 1, *query.margin);
}

// E1: "Rows are taken from last to first; one is chosen only if its worth is at
// most that of the stop's current first chosen row minus the margin, or if the
// stop has none yet; in the same minute it replaces that row."
void Worths::take(size_t row, uint32_t margin) {
  const Row &here = sailings_.rows[row];
  if (here.boarding == query_.target || !worth(row)) return;
  const std::optional<size_t> first =
      first_chosen(here.boarding, here.departure);
  if (first && *worth(row) + margin > *worth(*first)) return;
  if (first && sailings_.rows[*first].departure == here.departure)
    chosen_[*first] = false;
  chosen_[row] = true;
}

// "A row's worth is the least over getting off (..) and staying on to the
// trip's next row. It has no worth if none of these is open."
std::optional<uint32_t> Worths::worth(size_t row) {
  if (worth_known_[row] == Known::yes) return worth_[row];
  const std::optional<uint32_t> off = getting_off(row);
  const std::optional<uint32_t> on = staying_on(row);
  std::optional<uint32_t> least = off;
  if (on && (!least || *on < *least)) least = on;
  worth_known_[row] = Known::yes;
  return worth_[row] = least;
}

// "getting off (at the target only if a+M is within the bound; elsewhere only
// if a chosen row departs at or after a+M)". "After a ride arriving at minute a
// with delay v, a row is caught if a+v <= departure. An equal minute is caught"
std::optional<uint32_t> Worths::getting_off(size_t row) {
  const Ride landing{row, row};
  const uint32_t stop = sailings_.rows[row].landing;
  const uint32_t a = arrival(sailings_, landing);
  const uint32_t safe = safe_arrival(sailings_, landing);
  const SailingClass &sailing_class = class_of(sailings_, landing);
  if (stop == query_.target) {
    if (!within(bound_, safe)) return std::nullopt;
    return worth_at_target(sailing_class, a);
  }
  if (!first_chosen(stop, ready_to_board(query_, safe))) return std::nullopt;
  std::vector<uint32_t> after;
  for (uint32_t delay = 0; delay <= sailing_class.maximum_delay; ++delay)
    after.push_back(
        *worth(*first_chosen(stop, ready_to_board(query_, a + delay))));
  return worth_elsewhere(sailing_class, after);
}

std::optional<uint32_t> Worths::staying_on(size_t row) {
  const std::optional<size_t> next = next_row_of_trip(sailings_, row);
  if (!next) return std::nullopt;
  return worth(*next);
}

bool Worths::chosen(size_t row) {
  if (chosen_known_[row] == Known::no) {
    chosen_[row] = decide(row);
    chosen_known_[row] = Known::yes;
  }
  return chosen_[row];
}

// "A row is chosen if it has a worth below that of every later-minute row at
// its stop, and in its own minute the least worth, the highest row number
// deciding among equals. No row boarding at the target is chosen."
bool Worths::decide(size_t row) {
  const Row &here = sailings_.rows[row];
  if (here.boarding == query_.target) return false;
  const std::optional<uint32_t> own = worth(row);
  if (!own) return false;
  for (size_t other = 0; other < sailings_.rows.size(); ++other) {
    const Row &there = sailings_.rows[other];
    if (other == row || there.boarding != here.boarding) continue;
    if (there.departure < here.departure) continue;
    const std::optional<uint32_t> its = worth(other);
    if (!its) continue;
    const bool same_minute = there.departure == here.departure;
    if (same_minute && (*its < *own || (*its == *own && other > row)))
      return false;
    if (!same_minute && *its <= *own) return false;
  }
  return true;
}

// The first that departs then or later. Departures never fall from row to row,
// so the first row in the file's order is the first in time.
std::optional<size_t> Worths::first_chosen(uint32_t stop, uint32_t departure) {
  for (size_t row = 0; row < sailings_.rows.size(); ++row) {
    const Row &here = sailings_.rows[row];
    if (here.boarding == stop && departure <= here.departure && chosen(row))
      return row;
  }
  return std::nullopt;
}

}  // namespace second
