// What can be wrong with stop times, one damage at a time.
#include <algorithm>

#include "generate.hpp"

namespace second {
namespace {

DraftCall &call_on(Draft &draft, size_t line) { return draft.calls[line - 1]; }

// The trip's call before this line's; none if this is its first.
const DraftCall *call_before(Draft &draft, size_t line) {
  const Text &trip = call_on(draft, line).trip;
  for (size_t back = line - 1; back > 0; --back)
    if (call_on(draft, back).trip == trip) return &call_on(draft, back);
  return nullptr;
}

uint32_t less(uint32_t number, uint32_t by) {
  return number - std::min(number, by);
}

Text join(const std::vector<Text> &parts) {
  Text text;
  for (const Text &part : parts) text += part;
  return text;
}

// 100,000 or more.
Text many_digits(Random &random) {
  Text digits = "1";
  for (uint32_t left = random.between(5, 29); left > 0; --left)
    digits += static_cast<char>('0' + random.below(10));
  return digits;
}

void put_somewhere(Random &random, Text &text, char byte) {
  text.insert(text.begin() + random.below(text.size() + 1), byte);
}

// --------------------------------------------------------------- the calls

bool departs_before_arrival(Random &random, Draft &draft, size_t line) {
  DraftCall &call = call_on(draft, line);
  call.arrival = call.departure + random.pick({1, 1, 2, 30});
  return call.arrival <= last_minute(draft.service_day);
}

bool departs_too_late(Random &random, Draft &draft, size_t line) {
  call_on(draft, line).departure =
      last_minute(draft.service_day) +
      random.pick({1, 1, 1, 2, 60, 1440, 55457, 65536, 1000000});
  return true;
}

bool arrives_too_late(Random &, Draft &draft, size_t line) {
  DraftCall &call = call_on(draft, line);
  call.arrival = call.departure = last_minute(draft.service_day) + 1;
  return true;
}

bool sequence_not_rising(Random &random, Draft &draft, size_t line) {
  const DraftCall *before = call_before(draft, line);
  if (!before) return false;
  call_on(draft, line).sequence =
      less(before->sequence, random.pick({0, 0, 0, 1, 2, 65535}));
  return true;
}

bool sequence_too_great(Random &random, Draft &draft, size_t line) {
  call_on(draft, line).sequence =
      random.pick({65536, 65536, 65537, 99999, 131072, 4294967295u});
  return true;
}

bool calls_at_stop_again(Random &, Draft &draft, size_t line) {
  const DraftCall *before = call_before(draft, line);
  if (!before) return false;
  const Text stop = before->stop;
  call_on(draft, line).stop = stop;
  return std::any_of(draft.calls.begin(), draft.calls.end(),
                     [&](const DraftCall &call) { return call.stop != stop; });
}

bool arrives_before_departure(Random &random, Draft &draft, size_t line) {
  const DraftCall *before = call_before(draft, line);
  if (!before) return false;
  call_on(draft, line).arrival =
      less(before->departure, random.pick({0, 0, 1, 10}));
  return true;
}

// Then two rows of the trip may depart together.
bool no_time_passes(Random &, Draft &draft, size_t line) {
  const DraftCall *before = call_before(draft, line);
  if (!before) return false;
  DraftCall &call = call_on(draft, line);
  call.arrival = call.departure = before->departure;
  return true;
}

// One more trip, anywhere among the others: its third call is earlier than its
// first, so that the row from there comes ahead of the row that leads there.
bool trip_goes_back(Random &random, Draft &draft, size_t) {
  const uint32_t start = random.below(last_minute(draft.service_day) - 150);
  const std::vector<DraftCall> back = {
      {"a way back", "back 1", start + 50, start + 50, 1},
      {"a way back", "back 2", start + 150, start + 150, 2},
      {"a way back", "back 3", start, start + 10, 3},
      {"a way back", "back 4", start + 20, start + 20, 4}};
  size_t place = 0;
  for (const DraftCall &call : back) {
    place = random.between(place, draft.calls.size());
    draft.calls.insert(draft.calls.begin() + place++, call);
  }
  return true;
}

// Few different minutes, so that several rows of the trip depart together.
bool times_in_any_order(Random &random, Draft &draft, size_t line) {
  const Text trip = call_on(draft, line).trip;
  for (DraftCall &call : draft.calls)
    if (call.trip == trip) {
      call.arrival = 10 * random.below(6);
      call.departure = call.arrival + 10 * random.below(2);
    }
  return true;
}

bool no_call(Random &, Draft &draft, size_t) {
  draft.calls.clear();
  return true;
}

bool one_stop_only(Random &, Draft &draft, size_t) {
  for (DraftCall &call : draft.calls) call.stop = draft.calls[0].stop;
  return true;
}

// -------------------------------------------------------------- the header

Text spoiled_name(Random &random, const Text &name) {
  switch (random.below(5)) {
    case 0: return name + "s";
    case 1: return " " + name;
    case 2: return name.substr(0, name.size() - 1);
    case 3: return name + '\0';
    default: return static_cast<char>(name[0] - 'a' + 'A') + name.substr(1);
  }
}

bool column_renamed(Random &random, Draft &draft, size_t) {
  const Text name = COLUMN_NAMES[random.below(COLUMNS)];
  const Text spoiled = spoiled_name(random, name);
  std::replace(draft.lines[0].begin(), draft.lines[0].end(), name, spoiled);
  // a skipped name that is taken for the column if the CR is the line's
  return draft.lines[0].back() != name + "\r";
}

bool byte_order_mark(Random &, Draft &draft, size_t) {
  std::vector<Text> &names = draft.lines[0];
  const bool needed =
      std::count(draft.places.begin(), draft.places.end(), 0u) == 1 &&
      std::count(names.begin(), names.end(), names[0]) == 1 &&
      names.back() != names[0] + "\r";
  names[0] = BYTE_ORDER_MARK + names[0];
  return needed;
}

bool quote_in_header(Random &random, Draft &draft, size_t) {
  std::vector<Text> &names = draft.lines[0];
  put_somewhere(random, names[random.below(names.size())], '"');
  return true;
}

bool header_gone(Random &, Draft &draft, size_t) {
  draft.lines.erase(draft.lines.begin());
  draft.ends.erase(draft.ends.begin());
  return true;
}

bool empty_text(Random &, Draft &draft, size_t) {
  draft.lines.clear();
  return true;
}

// --------------------------------------------------------------- the lines

bool quote_in_line(Random &random, Draft &draft, size_t line) {
  std::vector<Text> &fields = draft.lines[line];
  put_somewhere(random, fields[random.below(fields.size())], '"');
  return true;
}

bool fields_missing(Random &random, Draft &draft, size_t line) {
  draft.lines[line].resize(random.below(fields_needed(draft)));
  // an empty line at the file's end is none
  return !join(draft.lines[line]).empty() || !draft.ends[line].empty();
}

bool field_empty(Random &random, Draft &draft, size_t line) {
  draft.lines[line][draft.places[random.below(COLUMNS)]].clear();
  return true;
}

bool empty_line(Random &random, Draft &draft, size_t line) {
  draft.lines.insert(draft.lines.begin() + line, std::vector<Text>());
  draft.ends.insert(draft.ends.begin() + line,
                    random.one_in(2) ? "\n" : "\r\n");
  return true;
}

bool empty_line_at_end(Random &random, Draft &draft, size_t) {
  if (draft.ends.back().empty()) draft.ends.back() = "\n";
  draft.ends.back() += random.one_in(2) ? "\n" : "\r\n";
  return true;
}

bool id_too_long(Random &random, Draft &draft, size_t line) {
  Text &id = draft.lines[line][draft.places[random.one_in(2) ? TRIP : STOP]];
  if (random.one_in(2)) id.clear();
  id += any_id(random, 17 - std::min<size_t>(id.size(), 16));
  if (random.one_in(3)) id += any_id(random, random.pick({1, 15, 255}));
  return id.back() != '\r';  // that one could be the line's
}

// Spoils a sound time.
Text spoiled_time(Random &random, const Text &time) {
  const size_t colon = time.size() - 6;
  const Text hours = time.substr(0, colon), past = time.substr(colon + 1, 2);
  const std::vector<Text> spoiled = {
      hours + ":60:00",
      hours + ":99:00",
      hours + ":" + past + ":01",
      hours + ":" + past + ":60",
      hours + ":" + past + ":10",
      hours + ":" + past + ":0",
      hours + ":" + past + ":000",
      hours + ":" + past + ":",
      hours + ":" + past,
      hours + ":0" + past + ":00",
      hours + ":" + past.substr(1) + ":00",
      hours + "::00",
      hours + ":a0:00",
      hours + ":+1:00",
      hours + ": 1:00",
      hours + past + ":00",
      hours + past + "00",
      hours + "." + past + ".00",
      hours + ":" + past + ":00:00",
      ":" + past + ":00",
      "-" + hours + ":" + past + ":00",
      "+" + hours + ":" + past + ":00",
      " " + hours + ":" + past + ":00",
      hours + " :" + past + ":00",
      hours + "h:" + past + ":00",
      time + " ",
      time + '\0',
      "x" + time,
      "x",
      ":",
      "::",
      ":00:00",
      ":::::::"};
  return random.pick(spoiled);
}

Text &some_time(Random &random, Draft &draft, size_t line) {
  const Column column = random.one_in(2) ? ARRIVAL : DEPARTURE;
  return draft.lines[line][draft.places[column]];
}

// Another damage may have left less than h:mm:ss.
bool can_be_time(const Text &field) { return field.size() >= 7; }

bool time_not_formed(Random &random, Draft &draft, size_t line) {
  Text &time = some_time(random, draft, line);
  if (!can_be_time(time)) return false;
  time = spoiled_time(random, time);
  return true;
}

// Most of these would be few if they, or 60 times as many, went round at 16,
// 32 or 64 bits.
bool too_many_hours(Random &random, Draft &draft, size_t line) {
  static const std::vector<Text> many = {
      "168",       "256",        "1000",      "1093",       "10080",
      "65536",     "71582789",   "999999999", "4294967296", "4294967297",
      "307445734561825861",      "18446744073709551616",
      "18446744073709551617"};
  Text &time = some_time(random, draft, line);
  if (!can_be_time(time)) return false;
  const Text rest = time.substr(time.size() - 6);
  const Text zeros(random.pick({0, 0, 0, 1, 20}), '0');
  time = zeros +
         (random.one_in(4) ? many_digits(random) : random.pick(many)) + rest;
  return true;
}

bool sequence_not_a_number(Random &random, Draft &draft, size_t line) {
  Text &sequence = draft.lines[line][draft.places[SEQUENCE]];
  const std::vector<Text> spoiled = {
      "-" + sequence,
      "+" + sequence,
      " " + sequence,
      sequence + " ",
      sequence + '\0',
      sequence + ".0",
      sequence + "e0",
      sequence + "x",
      "0x" + sequence,
      "x",
      "-",
      "/",
      ":",
      "\xB2",
      "065536",
      "00000000000000000000065536",
      "4294967296",
      "4294967299",
      "18446744073709551616",
      "18446744073709551619",
      many_digits(random)};
  sequence = random.pick(spoiled);
  return true;
}

bool other_line_end(Random &random, Draft &draft, size_t line) {
  static const std::vector<Text> ends = {"\r", "\r\r\n", "\n\r", "\n\r\n"};
  draft.ends[line] = random.pick(ends);
  return true;
}

bool carriage_return_at_end(Random &, Draft &draft, size_t) {
  draft.ends.back() = "\r";
  return true;
}

}  // namespace

const std::vector<Damage> &damages() {
  static const std::vector<Damage> all = {
      {"departs before its arrival", 12, false, departs_before_arrival},
      {"departs too late", 12, false, departs_too_late},
      {"arrives too late", 12, false, arrives_too_late},
      {"stop_sequence not rising", 13, false, sequence_not_rising},
      {"stop_sequence too great", 13, false, sequence_too_great},
      {"calls at its stop again", 4, false, calls_at_stop_again},
      {"arrives before it departed", 4, false, arrives_before_departure},
      {"no time passes", 4, false, no_time_passes},
      {"goes back in time", 5, false, trip_goes_back},
      {"times in any order", std::nullopt, false, times_in_any_order},
      {"one stop only", 1, false, one_stop_only},
      {"no call", 1, false, no_call},
      {"column renamed", 11, true, column_renamed},
      {"byte order mark at a column", 11, true, byte_order_mark},
      {"quote mark in the header", 11, true, quote_in_header},
      {"header gone", 11, true, header_gone},
      {"empty text", 11, true, empty_text},
      {"quote mark", 11, true, quote_in_line},
      {"fields missing", 11, true, fields_missing},
      {"field empty", 11, true, field_empty},
      {"empty line", 11, true, empty_line},
      {"empty line at the end", 11, true, empty_line_at_end},
      {"id too long", 11, true, id_too_long},
      {"time not well formed", 12, true, time_not_formed},
      {"too many hours", 12, true, too_many_hours},
      {"stop_sequence not a number", 13, true, sequence_not_a_number},
      {"another line end", std::nullopt, true, other_line_end},
      {"carriage return at the end", std::nullopt, true,
       carriage_return_at_end}};
  return all;
}

}  // namespace second
