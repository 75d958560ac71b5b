// What a whole log comes to, by going through it once for each number wanted.
#include <algorithm>

#include "tally.hpp"

namespace second {
namespace {

template <typename Condition>
uint32_t landings_with(const Log &log, Condition holds) {
  return static_cast<uint32_t>(
      std::count_if(log.begin(), log.end(), [&](const Landing &landing) {
        return minutes_are_right(landing) && holds(landing);
      }));
}

uint32_t landings_within(const Log &log, size_t minutes_late) {
  return landings_with(log, [=](const Landing &landing) {
    return landing.actual <= landing.planned + minutes_late;
  });
}

}  // namespace

Tally recount(const Log &log) {
  Tally tally;
  tally[0] = landings_within(log, 0);
  for (size_t late = 1; late <= MOST_LATE; ++late)
    tally[late] = landings_with(log, [=](const Landing &landing) {
      return landing.actual == landing.planned + late;
    });
  tally[APART] = landings_with(log, [](const Landing &landing) {
    return landing.actual > landing.planned + MOST_LATE;
  });
  return tally;
}

uint32_t cumulative_share(const Log &log, size_t minutes_late) {
  return 4096u * landings_within(log, minutes_late) /
         landings_within(log, MOST_LATE);
}

}  // namespace second
