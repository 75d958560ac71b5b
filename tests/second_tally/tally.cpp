// A landing and the count that it belongs to.
#include "tally.hpp"

namespace second {
namespace {

constexpr uint32_t LAST_MINUTE = 10079, LIMIT = 1000000;

}  // namespace

bool minutes_are_right(const Landing &landing) {
  return landing.planned <= LAST_MINUTE && landing.actual <= LAST_MINUTE;
}

// Below zero for an early landing.
int64_t lateness(const Landing &landing) {
  const int64_t planned = landing.planned, actual = landing.actual;
  return actual - planned;
}

size_t count_for(int64_t minutes_late) {
  if (minutes_late < 0) return 0;
  if (minutes_late > 120) return APART;
  return static_cast<size_t>(minutes_late);
}

// All 122, the one apart like the others.
bool counts_are_right(const Tally &tally) {
  for (size_t place = 0; place < COUNTS; ++place)
    if (tally[place] > LIMIT) return false;
  return true;
}

// 14 goes ahead of 15 by its number; either leaves the tally alone.
LandingAnswer landing_call(const Landing &landing, Tally &tally) {
  if (!minutes_are_right(landing)) return {14, 0};
  if (!counts_are_right(tally)) return {15, 0};
  const size_t place = count_for(lateness(landing));
  if (tally[place] >= LIMIT) return {15, 0};
  tally[place] += 1;
  return {0, 0};
}

}  // namespace second
