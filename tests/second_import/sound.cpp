// Sound stop times, and how they are laid out and written.
#include <algorithm>

#include "generate.hpp"

namespace second {

uint32_t last_minute(uint32_t service_day) {
  return 10079 - 1440 * (service_day - 1);
}

// --------------------------------------------------------------------- ids

Text any_id(Random &random, size_t length) {
  Text id;
  while (id.size() < length) {
    const char byte = static_cast<char>(
        random.one_in(3) ? random.below(256) : 'a' + random.below(4));
    if (byte != ',' && byte != '"' && byte != '\n') id += byte;
  }
  return id;
}

namespace {

// Differs in its last or first byte, or by one byte more or less at an end.
Text near_id(Random &random, Text id) {
  switch (random.below(5)) {
    case 0: return id + '\0';
    case 1: return id.substr(0, id.size() - 1);
    case 2: return '\0' + id;
    case 3: id.back() = static_cast<char>(id.back() ^ 1); return id;
    default: id.front() = static_cast<char>(id.front() ^ 128); return id;
  }
}

// A CR at its end could be taken for the line's.
bool can_be_id(const Text &id) {
  return !id.empty() && id.size() <= 16 && id.back() != '\r' &&
         id.find_first_of(",\"\n") == Text::npos;
}

std::vector<Text> different_ids(Random &random, size_t count) {
  std::vector<Text> ids;
  while (ids.size() < count) {
    const Text id =
        ids.empty() || random.one_in(2)
            ? any_id(random, random.pick({1, 1, 2, 3, 8, 15, 15, 16, 16, 16}))
            : near_id(random, random.pick(ids));
    if (can_be_id(id) && std::find(ids.begin(), ids.end(), id) == ids.end())
      ids.push_back(id);
  }
  return ids;
}

std::vector<Text> numbered_ids(Random &random, size_t count) {
  const size_t zeros = random.pick({0, 4, 12});
  std::vector<Text> ids;
  for (size_t number = 0; number < count; ++number)
    ids.push_back(Text(zeros, '0') + std::to_string(number));
  random.shuffle(ids);
  return ids;
}

// ------------------------------------------------------------------- calls

using Trip = std::vector<DraftCall>;

// The calls of all trips as lines: trip after trip, or in any order that keeps
// each trip's own.
std::vector<DraftCall> one_by_one(Random &random,
                                  const std::vector<Trip> &trips) {
  std::vector<size_t> turns;
  for (size_t trip = 0; trip < trips.size(); ++trip)
    turns.insert(turns.end(), trips[trip].size(), trip);
  if (!random.one_in(3)) random.shuffle(turns);
  std::vector<size_t> written(trips.size(), 0);
  std::vector<DraftCall> calls;
  for (size_t trip : turns) calls.push_back(trips[trip][written[trip]++]);
  return calls;
}

// Few different minutes, so that many rows depart together.
Trip small_trip(Random &random, const Text &id, const std::vector<Text> &stops,
                uint32_t first_minute, uint32_t tempo) {
  Trip trip;
  size_t stop = random.below(stops.size());
  uint32_t minute = first_minute + tempo * random.below(4);
  uint32_t sequence = random.below(3);
  for (uint32_t left = random.pick({1, 2, 2, 3, 3, 4, 5, 6}); left > 0;
       --left) {
    const uint32_t departure = minute + tempo * random.pick({0, 0, 0, 1, 2});
    trip.push_back({id, stops[stop], minute, departure, sequence});
    stop = (stop + random.between(1, stops.size() - 1)) % stops.size();
    minute = departure + std::max(1u, tempo * random.pick({1, 1, 2, 3}));
    sequence += random.pick({1, 1, 1, 2, 10, 1000});
  }
  return trip;
}

void end_with_greatest_sequence(Trip &trip) {
  const uint32_t more = 65535 - trip.back().sequence;
  for (DraftCall &call : trip) call.sequence += more;
}

// The latest departure is then the last minute that there is.
void end_with_last_minute(Draft &draft) {
  uint32_t latest = 0;
  for (const DraftCall &call : draft.calls)
    latest = std::max(latest, call.departure);
  const uint32_t more = last_minute(draft.service_day) - latest;
  for (DraftCall &call : draft.calls) {
    call.arrival += more;
    call.departure += more;
  }
}

size_t stops_called_at(const Draft &draft) {
  std::vector<Text> stops;
  for (const DraftCall &call : draft.calls)
    if (std::find(stops.begin(), stops.end(), call.stop) == stops.end())
      stops.push_back(call.stop);
  return stops.size();
}

// 3 tempos ahead of the first call, 2 at each of six, 3 from each to the next.
constexpr uint32_t LONGEST_TEMPO = 15, SMALL_SPAN = 30 * LONGEST_TEMPO;

uint32_t first_minute(Random &random, uint32_t service_day) {
  const uint32_t latest = last_minute(service_day) - SMALL_SPAN;
  return random.one_in(3) ? random.below(latest)
                          : random.pick({0, 0, 420, std::min(1400u, latest)});
}

}  // namespace

Draft small_draft(Random &random) {
  Draft draft;
  draft.service_day = random.between(1, 7);
  const uint32_t start = first_minute(random, draft.service_day);
  const uint32_t tempo = random.pick({0, 1, 5, LONGEST_TEMPO});
  const std::vector<Text> stops = different_ids(random, random.between(2, 6));
  while (stops_called_at(draft) < 2) {
    std::vector<Trip> trips;
    for (const Text &id : different_ids(random, random.between(1, 5))) {
      trips.push_back(small_trip(random, id, stops, start, tempo));
      if (random.one_in(8)) end_with_greatest_sequence(trips.back());
    }
    draft.calls = one_by_one(random, trips);
  }
  if (random.one_in(6)) end_with_last_minute(draft);
  return draft;
}

Draft large_draft(Random &random, uint32_t stops, uint32_t trips,
                  uint32_t rows) {
  Draft draft;
  draft.service_day = random.between(1, 7);
  const std::vector<Text> stop_ids = numbered_ids(random, stops);
  const std::vector<Text> trip_ids = numbered_ids(random, trips);
  std::vector<Trip> all(trips);
  size_t stop = 0;
  for (uint32_t trip = 0; trip < trips; ++trip) {
    uint32_t minute = random.below(100);
    const uint32_t calls = 1 + rows / trips + (trip < rows % trips);
    for (uint32_t call = 0; call < calls; ++call) {
      const uint32_t departure = minute + random.below(2);
      all[trip].push_back({trip_ids[trip], stop_ids[stop++ % stops], minute,
                           departure, call});
      minute = departure + random.between(1, 3);
    }
  }
  draft.calls = one_by_one(random, all);
  return draft;
}

// ------------------------------------------------------------- laying out

const Text BYTE_ORDER_MARK = "\xEF\xBB\xBF";

size_t fields_needed(const Draft &draft) {
  return *std::max_element(draft.places.begin(), draft.places.end()) + 1;
}

namespace {

Text with_zeros(Random &random, const Text &digits) {
  if (!random.one_in(12)) return digits;
  return Text(random.pick({1, 2, 5, 10, 19, 30}), '0') + digits;
}

Text time_text(Random &random, uint32_t minute) {
  const Text hours = std::to_string(minute / 60);
  const uint32_t past = minute % 60;
  const bool two_digits = hours.size() == 1 && random.one_in(2);
  return with_zeros(random, (two_digits ? "0" : "") + hours) +
         (past < 10 ? ":0" : ":") + std::to_string(past) + ":00";
}

Text skipped_name(Random &random) {
  static const std::vector<Text> names = {
      "pickup_type", "stop_headsign", "timepoint", "",
      "Trip_id",     "stop_id ",      " trip_id",  "stop_ids",
      "stop",        "arrival_times", "stop_sequence\r",
      Text("stop_id\0", 8)};
  return random.pick(names);
}

Text skipped_field(Random &random) {
  static const std::vector<Text> fields = {
      "", "", "0", "1", "x", " ", "7:00:00", "99:99:99", "-1", "\r",
      "a long name that is no id", Text("\0", 1)};
  return random.pick(fields);
}

bool is_column(const Text &name) {
  return std::find(COLUMN_NAMES.begin(), COLUMN_NAMES.end(), name) !=
         COLUMN_NAMES.end();
}

std::vector<Text> header_names(Random &random) {
  std::vector<Text> names(COLUMN_NAMES.begin(), COLUMN_NAMES.end());
  if (!random.one_in(4)) random.shuffle(names);
  const uint32_t skipped =
      random.one_in(300) ? 300 : random.pick({0, 0, 1, 2, 3});
  for (uint32_t left = skipped; left > 0; --left) {
    const uint32_t place = random.below(names.size() + 1);
    names.insert(names.begin() + place, skipped_name(random));
  }
  if (random.one_in(4)) {
    const uint32_t first = random.below(names.size());
    const uint32_t second = random.between(first + 1, names.size());
    names.insert(names.begin() + second, Text(names[first]));
  }
  if (random.one_in(4) && !is_column(names[0]))
    names[0] = BYTE_ORDER_MARK + names[0];
  return names;
}

// What is skipped at the line's end may be missing, or be more than the header
// names.
std::vector<Text> call_fields(Random &random, const Draft &draft,
                              const DraftCall &call) {
  std::vector<Text> fields;
  for (size_t place = 0; place < draft.lines[0].size(); ++place)
    fields.push_back(skipped_field(random));
  fields[draft.places[TRIP]] = call.trip;
  fields[draft.places[ARRIVAL]] = time_text(random, call.arrival);
  fields[draft.places[DEPARTURE]] = time_text(random, call.departure);
  fields[draft.places[STOP]] = call.stop;
  fields[draft.places[SEQUENCE]] =
      with_zeros(random, std::to_string(call.sequence));
  if (random.one_in(5))
    fields.resize(random.between(fields_needed(draft), fields.size()));
  else if (random.one_in(8))
    fields.push_back(skipped_field(random));
  return fields;
}

std::vector<Text> line_ends(Random &random, size_t lines) {
  const uint32_t manner = random.below(3);
  std::vector<Text> ends;
  while (ends.size() < lines)
    ends.push_back(manner == 0 || (manner == 1 && random.one_in(2)) ? "\n"
                                                                    : "\r\n");
  if (random.one_in(4)) ends.back() = "";
  return ends;
}

}  // namespace

void lay_out(Random &random, Draft &draft) {
  const std::vector<Text> names = header_names(random);
  draft.lines = {names};
  for (size_t column = 0; column < COLUMNS; ++column)
    draft.places[column] = static_cast<size_t>(
        std::find(names.begin(), names.end(), COLUMN_NAMES[column]) -
        names.begin());
  for (const DraftCall &call : draft.calls)
    draft.lines.push_back(call_fields(random, draft, call));
  draft.ends = line_ends(random, draft.lines.size());
}

Text written(const Draft &draft) {
  Text text;
  for (size_t line = 0; line < draft.lines.size(); ++line) {
    const std::vector<Text> &fields = draft.lines[line];
    for (size_t place = 0; place < fields.size(); ++place)
      text += (place == 0 ? "" : ",") + fields[place];
    text += draft.ends[line];
  }
  return text;
}

}  // namespace second
