// The definitions in the place of the subject, to try the comparison on.
#include <algorithm>

#include "tally.hpp"
#include "trial_tally.h"

using namespace second;

extern "C" void trial_tally(uint32_t planned, uint32_t actual, uint32_t *tally,
                            uint32_t *answer, size_t) {
  Tally counts;
  std::copy_n(tally, counts.size(), counts.begin());
  const LandingAnswer got = landing_call({planned, actual}, counts);
  std::copy(counts.begin(), counts.end(), tally);
  const std::array<uint32_t, 6> given = {got.number, got.place, 0, 0, 0, 0};
  std::copy(given.begin(), given.end(), answer);
}

extern "C" void trial_table(const uint32_t *tally, uint32_t *shares,
                            uint32_t *answer, size_t) {
  Tally counts;
  std::copy_n(tally, counts.size(), counts.begin());
  Shares lent;
  std::copy_n(shares, lent.size(), lent.begin());
  const TableAnswer got = table_call(counts, lent);
  std::copy(lent.begin(), lent.end(), shares);
  const std::array<uint32_t, 6> given = {got.number,   got.place, got.greatest,
                                         got.landings, got.apart, 0};
  std::copy(given.begin(), given.end(), answer);
}
