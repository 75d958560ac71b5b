// Times of a service day, and stop_sequence. Numbers may have any number of
// digits, so they stay digits until they are known to be small.
#include "import.hpp"

namespace second {
namespace {

bool all_digits(const Text &text) {
  for (char byte : text)
    if (byte < '0' || '9' < byte) return false;
  return !text.empty();
}

Text without_leading_zeros(const Text &digits) {
  const size_t first = digits.find_first_not_of('0');
  return first == Text::npos ? "0" : digits.substr(first);
}

// Nothing if it is not a whole number below the limit.
std::optional<uint32_t> number_below(uint32_t limit, const Text &text) {
  if (!all_digits(text)) return std::nullopt;
  const Text digits = without_leading_zeros(text);
  if (digits.size() > std::to_string(limit).size()) return std::nullopt;
  const unsigned long number = std::stoul(digits);
  if (number >= limit) return std::nullopt;
  return static_cast<uint32_t>(number);
}

constexpr uint32_t MINUTES = 10080, MINUTES_OF_DAY = 1440;

}  // namespace

// "hours have one digit or more. 25:10:00 on day 1 is minute 1,510."
// "12 time not well formed, seconds not 00, minute above 10,079"
std::optional<uint32_t> minute_of(const Text &time, uint32_t service_day) {
  const size_t tail = Text(":mm:ss").size();
  if (time.size() <= tail) return std::nullopt;
  const Text hours = time.substr(0, time.size() - tail);
  const Text rest = time.substr(time.size() - tail);
  if (rest[0] != ':' || rest.substr(3) != ":00") return std::nullopt;
  // no sound time has as many hours as there are minutes
  const std::optional<uint32_t> hour = number_below(MINUTES, hours);
  const std::optional<uint32_t> past = number_below(60, rest.substr(1, 2));
  if (!hour || !past) return std::nullopt;
  const uint32_t minute =
      (service_day - 1) * MINUTES_OF_DAY + 60 * *hour + *past;
  if (minute >= MINUTES) return std::nullopt;
  return minute;
}

// "`stop_sequence` not a whole number below 65,536"
std::optional<uint32_t> sequence_of(const Text &field) {
  return number_below(65536, field);
}

}  // namespace second
