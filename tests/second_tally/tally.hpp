// Request E4 of document 02, "Tables from our own records": landings, tallies
// and tables as the request speaks of them. Everything is counted anew
// whenever it is wanted.
#pragma once

#include <array>
#include <cstddef>
#include <cstdint>
#include <optional>
#include <vector>

namespace second {

// ---------------------------------------------------------------- landings

struct Landing {
  uint32_t planned, actual;  // minutes
};

using Log = std::vector<Landing>;

bool minutes_are_right(const Landing &landing);
int64_t lateness(const Landing &landing);

// ----------------------------------------------------------------- tallies

// The counts of 0 to 120 minutes late, and behind them the one apart.
constexpr size_t MOST_LATE = 120, APART = 121, COUNTS = 122;
using Tally = std::array<uint32_t, COUNTS>;

size_t count_for(int64_t minutes_late);  // its place in the tally
bool counts_are_right(const Tally &tally);
// The tally of all landings of a log whose minutes are right, read off the log
// count by count.
Tally recount(const Log &log);

// ------------------------------------------------------------------ tables

using Shares = std::array<uint32_t, MOST_LATE + 1>;

uint64_t landings_at_most(const Tally &tally, size_t minutes_late);
uint64_t landings_tallied(const Tally &tally);
// Nothing where nothing is tallied.
std::optional<size_t> greatest_lateness(const Tally &tally);
uint32_t cumulative_share(const Tally &tally, size_t minutes_late);
// The same of a log's landings, without a tally.
uint32_t cumulative_share(const Log &log, size_t minutes_late);
// One share for each lateness up to the greatest.
std::vector<uint32_t> table_of(const Tally &tally, size_t greatest);

// --------------------------------------------------------- the whole calls

struct LandingAnswer {
  uint32_t number = 0, place = 0;
};

struct TableAnswer {
  uint32_t number = 0, place = 0;
  uint32_t greatest = 0, landings = 0, apart = 0;
};

// The answer, and what the lent numbers are afterwards.
LandingAnswer landing_call(const Landing &landing, Tally &tally);
TableAnswer table_call(const Tally &tally, Shares &lent);

}  // namespace second
