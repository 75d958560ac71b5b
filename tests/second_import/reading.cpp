// The text line by line: "then the first fault by line, in this order: 11 ..;
// 12 ..; 13 ..; 9 .."
#include "import.hpp"

namespace second {
namespace {

constexpr size_t LONGEST_ID = 16;
constexpr size_t MOST_STOPS = 200, MOST_TRIPS = 2000, MOST_ROWS = 2000;

// "missing or empty field, quote mark or id too long"
bool fields_are_right(const Text &line, const std::optional<Fields> &fields) {
  if (has_quote_mark(line) || !fields) return false;
  for (const Text &field : *fields)
    if (field.empty()) return false;
  return (*fields)[TRIP].size() <= LONGEST_ID &&
         (*fields)[STOP].size() <= LONGEST_ID;
}

// "time not well formed, .. or a call's departure before its arrival"
bool times_are_right(const std::optional<uint32_t> &arrival,
                     const std::optional<uint32_t> &departure) {
  return arrival && departure && *arrival <= *departure;
}

// Nothing before the trip's first call.
std::optional<Call> last_call(const StopTimes &so_far, const Text &trip) {
  const auto number = so_far.trips.find(trip);
  if (number == so_far.trips.end()) return std::nullopt;
  return so_far.last_calls.at(number->second);
}

// "not rising within its trip"
bool rises(const std::optional<uint32_t> &sequence,
           const std::optional<Call> &before) {
  return sequence && (!before || before->sequence < *sequence);
}

bool is_full(const std::map<Text, uint32_t> &numbers, size_t most,
             const Text &id) {
  return numbers.count(id) == 0 && numbers.size() == most;
}

// "9 a 201st stop, 2,001st trip or 2,001st row"
bool has_room(const StopTimes &so_far, const Fields &fields,
              const std::optional<Call> &before) {
  return !is_full(so_far.stops, MOST_STOPS, fields[STOP]) &&
         !is_full(so_far.trips, MOST_TRIPS, fields[TRIP]) &&
         !(before && so_far.rows.size() == MOST_ROWS);
}

// "Ids of 1 to 16 bytes are numbered by first appearance."
uint32_t number_of(std::map<Text, uint32_t> &numbers, const Text &id) {
  const uint32_t next = static_cast<uint32_t>(numbers.size());
  return numbers.emplace(id, next).first->second;
}

// "exactly one row for each pair of neighbouring calls: the first's departure,
// the second's arrival"; "class is 0"
Row row_between(const Call &first, const Call &next, uint32_t trip) {
  return {first.stop, next.stop, first.departure, next.arrival, trip, 0};
}

// The line's fault; the call is taken into the stop times if it has none.
uint32_t read_line(const Text &line, const Places &places,
                   uint32_t service_day, StopTimes &so_far) {
  const std::optional<Fields> fields = fields_at(places, line);
  if (!fields_are_right(line, fields)) return 11;
  const auto arrival = minute_of((*fields)[ARRIVAL], service_day);
  const auto departure = minute_of((*fields)[DEPARTURE], service_day);
  if (!times_are_right(arrival, departure)) return 12;
  const std::optional<Call> before = last_call(so_far, (*fields)[TRIP]);
  const auto sequence = sequence_of((*fields)[SEQUENCE]);
  if (!rises(sequence, before)) return 13;
  if (!has_room(so_far, *fields, before)) return 9;

  const uint32_t trip = number_of(so_far.trips, (*fields)[TRIP]);
  const uint32_t stop = number_of(so_far.stops, (*fields)[STOP]);
  const Call call{stop, *arrival, *departure, *sequence};
  if (before) so_far.rows.push_back(row_between(*before, call, trip));
  so_far.last_calls[trip] = call;
  return 0;
}

}  // namespace

ReadStopTimes read_stop_times(const Text &text, uint32_t service_day) {
  ReadStopTimes read;
  const std::vector<Text> lines = lines_of(text);
  if (lines.empty() || has_quote_mark(lines[0])) return {11, {}};
  const std::optional<Places> places = columns_of(lines[0]);
  if (!places) return {11, {}};
  for (size_t line = 1; line < lines.size(); ++line) {
    read.fault = read_line(lines[line], *places, service_day, read.stop_times);
    if (read.fault != 0) return read;
  }
  return read;
}

}  // namespace second
