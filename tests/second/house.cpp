// Document 01, "House delay tables".
#include "definitions.hpp"

namespace second {
namespace {

struct HousePair {
  uint32_t change_time, parameter;
};

// "The eight house pairs (m,d) are (2,10), (5,30), (5,60), (10,30), (10,60),
// (10,110), (15,90), (20,100)."
constexpr HousePair HOUSE[HOUSE_PAIRS] = {{2, 10},  {5, 30},   {5, 60},
                                          {10, 30}, {10, 60},  {10, 110},
                                          {15, 90}, {20, 100}};

// "The cumulative share at x is 4,096 times that, rounded down"
uint32_t share_of_fraction(uint64_t above, uint64_t below) {
  return static_cast<uint32_t>(4096 * above / below);
}

}  // namespace

// "Change time m and parameter d give M = m+d."
uint32_t house_maximum(uint32_t pair) {
  return HOUSE[pair].change_time + HOUSE[pair].parameter;
}

// "for 0 < x <= m, is 2x/(6m-3x) (x is the delay); for m < x < M it is
// (31(x-m)+2d)/(30(x-m)+3d). .. at x = M it is 4,096 always, which decides
// when d = 0; at 0, if M > 0, it is 0." "Pair number above 7 or minute above
// M: refusal 6."
std::optional<uint32_t> house_cumulative(uint32_t pair, uint32_t minute) {
  if (pair > 7 || minute > house_maximum(pair)) return std::nullopt;
  const uint64_t x = minute, m = HOUSE[pair].change_time,
                 d = HOUSE[pair].parameter;
  if (x == m + d) return 4096;
  if (x == 0) return 0;
  if (x <= m) return share_of_fraction(2 * x, 6 * m - 3 * x);
  return share_of_fraction(31 * (x - m) + 2 * d, 30 * (x - m) + 3 * d);
}

// "A share is the difference of neighbours."
SailingClass house_class(uint32_t pair) {
  SailingClass answer{house_maximum(pair), {}};
  uint32_t before = 0;
  for (uint32_t minute = 0; minute <= answer.maximum_delay; ++minute) {
    const uint32_t here = *house_cumulative(pair, minute);
    answer.shares.push_back(here - before);
    before = here;
  }
  return answer;
}

}  // namespace second
