// Document 01, "The sheet": the lines of a plan.
#include "definitions.hpp"

#include <cstdio>

namespace second {
namespace {

// "Times print as day, hours, minutes, the last two in two digits". "Minute 0
// is local midnight opening day 1. Every day has 1,440 minutes."
std::string clock(uint32_t minute) {
  char text[32];
  std::snprintf(text, sizeof text, "d%u %02u:%02u", minute / 1440 + 1,
                minute % 1440 / 60, minute % 60);
  return text;
}

// "an expected arrival is rounded up to a minute"
std::string clock_of_ticks(uint32_t ticks) {
  return clock(ticks / 256 + (ticks % 256 != 0));
}

// "Others: boarding stop and time, landing stop and time, expected."
std::string ride_line(const Sailings &sailings, const PlannedRide &planned) {
  const Row &on = boarded_row(sailings, planned.ride);
  const Row &off = left_row(sailings, planned.ride);
  return std::to_string(on.boarding) + " " + clock(on.departure) + " " +
         std::to_string(off.landing) + " " + clock(off.arrival) + " " +
         clock_of_ticks(planned.worth) + "\n";
}

}  // namespace

// "First line: rides, expected, latest."
std::string sheet(const Sailings &sailings, const Plan &plan) {
  std::string text = "plan " + std::to_string(plan.rides.size()) + " " +
                     clock_of_ticks(plan.expected) + " " + clock(plan.latest) +
                     "\n";
  for (const PlannedRide &planned : plan.rides)
    text += ride_line(sailings, planned);
  return text;
}

}  // namespace second
