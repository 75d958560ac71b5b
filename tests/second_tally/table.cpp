// The table of a tally. The count apart has no part in any of its shares.
#include "tally.hpp"

namespace second {

uint64_t landings_at_most(const Tally &tally, size_t minutes_late) {
  uint64_t landings = 0;
  for (size_t late = 0; late <= minutes_late; ++late) landings += tally[late];
  return landings;
}

uint64_t landings_tallied(const Tally &tally) {
  return landings_at_most(tally, MOST_LATE);
}

std::optional<size_t> greatest_lateness(const Tally &tally) {
  std::optional<size_t> greatest;
  for (size_t late = 0; late <= MOST_LATE; ++late)
    if (tally[late] > 0) greatest = late;
  return greatest;
}

// In 4,096ths; whole numbers divide with the rest left out, which rounds down.
uint32_t cumulative_share(const Tally &tally, size_t minutes_late) {
  const uint64_t at_most = landings_at_most(tally, minutes_late);
  return static_cast<uint32_t>(4096 * at_most / landings_tallied(tally));
}

std::vector<uint32_t> table_of(const Tally &tally, size_t greatest) {
  std::vector<uint32_t> shares = {cumulative_share(tally, 0)};
  for (size_t late = 1; late <= greatest; ++late)
    shares.push_back(cumulative_share(tally, late) -
                     cumulative_share(tally, late - 1));
  return shares;
}

// 15 goes ahead of 16 by its number; either leaves all lent numbers alone.
TableAnswer table_call(const Tally &tally, Shares &lent) {
  if (!counts_are_right(tally)) return {15, 0, 0, 0, 0};
  const std::optional<size_t> greatest = greatest_lateness(tally);
  if (!greatest) return {16, 0, 0, 0, 0};
  const std::vector<uint32_t> shares = table_of(tally, *greatest);
  for (size_t late = 0; late <= *greatest; ++late) lent[late] = shares[late];
  return {0, 0, static_cast<uint32_t>(*greatest),
          static_cast<uint32_t>(landings_tallied(tally)), tally[APART]};
}

}  // namespace second
