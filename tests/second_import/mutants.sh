#!/bin/sh
# Plants one plausible error after another in a copy of the definitions, takes
# the copy as the subject, and expects the comparison to notice each, or else
# the fixed cases. Two mutants are tried at a time.
set -u
here=$(cd "$(dirname "$0")" && pwd)
place=$(mktemp -d)
trap 'rm -rf "$place"' EXIT
build="g++ -std=c++17 -O1 -Werror=return-type"
parts="file_check columns times reading import mirror"
copy=$place/copy/second_import
mkdir -p "$place/true" "$copy" "$place/copy/second" "$place/built" "$place/told"

for part in ../second/file_check columns times reading import sound damage generate sides; do
  $build -c "$here/$part.cpp" -o "$place/true/$(basename $part).o" || exit 2
done
for program in cases compare; do
  $build -c "$here/$program.cpp" -o "$place/$program.o" || exit 2
done
renamed() { sed 's/namespace second/namespace mirrored/' "$1" > "$2"; }
renamed "$here/../second/definitions.hpp" "$place/copy/second/definitions.hpp"
renamed "$here/../second/file_check.cpp" "$copy/file_check.cpp"
sed -i 's|"definitions.hpp"|"../second/definitions.hpp"|' "$copy/file_check.cpp"
for file in import.hpp columns.cpp times.cpp reading.cpp import.cpp mirror.cpp; do
  renamed "$here/$file" "$copy/$file"
done
cp "$here/trial_import.h" "$copy/"
for part in $parts; do
  $build -c "$copy/$part.cpp" -o "$place/built/$part.o" || exit 2
done

run() {  # folder, whose own object files go ahead of those in built; program; its words
  objects=
  for part in $parts; do
    if [ -e "$1/$part.o" ]; then objects="$objects $1/$part.o"
    else objects="$objects $place/built/$part.o"; fi
  done
  $build "$place/$2.o" "$place"/true/*.o $objects -o "$1/$2" || exit 2
  (cd "$1" && timeout 60 "./$2" $3 > said 2>&1)
}
compared() { run "$1" compare "--texts 7000"; }

try() {  # folder, name, part, sed script
  mkdir "$1"
  sed "$4" "$copy/$3.cpp" > "$copy/$(basename "$1")-$3.cpp"
  if cmp -s "$copy/$3.cpp" "$copy/$(basename "$1")-$3.cpp"; then
    echo "NOT PLANTED: $2"
    return
  fi
  $build -c "$copy/$(basename "$1")-$3.cpp" -o "$1/$3.o" || exit 2
  if compared "$1" && run "$1" cases ""; then echo "MISSED:  $2"
  else echo "noticed: $2 ($(head -1 "$1/said"))"; fi
}

count=100
mutant() {
  count=$((count + 1))
  try "$place/$count" "$@" > "$place/told/$count" &
  if [ $((count % 2)) = 0 ]; then wait; fi
}

mkdir "$place/mirror"
if compared "$place/mirror"; then echo "the mirror itself: no difference"
else echo "the mirror itself differs"; cat "$place/mirror/said"; exit 1; fi

# lines and columns
mutant "CR kept" columns '/line.pop_back()/d'
mutant "every CR at a line's end taken off" columns \
  "s/if (!line.empty() && line.back() == '.r')/while (!line.empty() \&\& line.back() == 13)/"
mutant "a CR at the file's end taken off" columns \
  's/^  if (!line.empty()) lines/  if (!line.empty() \&\& line.back() == 13) line.pop_back();\n&/'
mutant "empty lines skipped" columns \
  's/^    lines.push_back(line);/    if (!line.empty()) lines.push_back(line);/'
mutant "nothing behind the last LF is a line" columns \
  's/^  if (!line.empty()) lines/  lines/'
mutant "a last line without LF left out" columns \
  '/^  if (!line.empty()) lines/d'
mutant "of a column that stands twice the last counts" columns \
  's/^    places\[column\] = .*/    places[column] = names.rend() - std::find(names.rbegin(), names.rend(), COLUMN_NAMES[column]) - 1;/; /found - names.begin/d'
mutant "a byte order mark skipped" columns \
  's/= fields_of(header);/= fields_of(header.compare(0, 3, "\\xEF\\xBB\\xBF") == 0 ? header.substr(3) : header);/'
mutant "names in any capitals" columns \
  's/std::find(names.begin(), names.end(), COLUMN_NAMES\[column\])/std::find_if(names.begin(), names.end(), [\&](const Text \&name) { return strcasecmp(name.c_str(), COLUMN_NAMES[column].c_str()) == 0; })/; s/^#include <algorithm>/&\n#include <strings.h>/'
mutant "a field ends at a zero byte" columns \
  's/= all\[places\[column\]\];/= all[places[column]].c_str();/'
mutant "an empty skipped field refused" columns \
  's/^  Fields fields;/  for (const Text \&one : all) if (one.empty()) return std::nullopt;\n&/'
mutant "a quote mark taken in the header" reading \
  's/ || has_quote_mark(lines\[0\])//'
mutant "a quote mark seen in the five columns alone" reading \
  's/if (has_quote_mark(line) || !fields) return false;/if (!fields) return false;\n  for (const Text \&field : *fields) if (has_quote_mark(field)) return false;/'
mutant "an empty field taken" reading 's/if (field.empty()) return false/continue/'
# ids
mutant "an id of 17 bytes taken" reading 's/LONGEST_ID = 16/LONGEST_ID = 17/'
mutant "an id of 16 bytes refused" reading 's/LONGEST_ID = 16/LONGEST_ID = 15/'
mutant "a stop's length not looked at" reading \
  's/^         (\*fields)\[STOP\].size() <= LONGEST_ID/         true/'
mutant "stops compared by 15 bytes" reading \
  's/number_of(so_far.stops, (\*fields)\[STOP\])/number_of(so_far.stops, (*fields)[STOP].substr(0, 15))/'
mutant "stops filled up with zero bytes" reading \
  's/number_of(so_far.stops, (\*fields)\[STOP\])/number_of(so_far.stops, (*fields)[STOP] + Text(16 - (*fields)[STOP].size(), 0))/'
mutant "trips filled up with zero bytes" reading \
  's/^  const std::optional<Call> before = .*/  Text filled = (*fields)[TRIP];\n  filled.resize(16);\n  const std::optional<Call> before = last_call(so_far, filled);/; s/number_of(so_far.trips, (\*fields)\[TRIP\])/number_of(so_far.trips, filled)/'
mutant "ids numbered in their own order" import \
  's/^  const Bytes file = /  for (Row \&row : rows) for (uint32_t *stop : {\&row.boarding, \&row.landing}) { uint32_t number = 0; for (const auto \&[id, its] : read.stop_times.stops) { if (its == *stop) { *stop = number; break; } ++number; } }\n&/; s/const std::vector<Row> rows/std::vector<Row> rows/'
mutant "stops numbered by first appearance in the file" import \
  's/^  const Bytes file = /  std::map<uint32_t, uint32_t> seen;\n  for (Row \&row : rows) for (uint32_t *stop : {\&row.boarding, \&row.landing}) *stop = seen.emplace(*stop, static_cast<uint32_t>(seen.size())).first->second;\n&/; s/const std::vector<Row> rows/std::vector<Row> rows/'
mutant "trips numbered by first appearance in the file" import \
  's/^  const Bytes file = /  std::map<uint32_t, uint32_t> seen;\n  for (Row \&row : rows) row.trip = seen.emplace(row.trip, static_cast<uint32_t>(seen.size())).first->second;\n&/; s/const std::vector<Row> rows/std::vector<Row> rows/'
# times
mutant "minute 10,080 taken" times 's/minute >= MINUTES/minute > MINUTES/'
mutant "minute 10,079 refused" times 's/minute >= MINUTES/minute + 1 >= MINUTES/'
mutant "seconds not looked at" times "s/rest.substr(3) != \":00\"/rest[3] != ':'/"
mutant "minute 60 of an hour taken" times 's/number_below(60,/number_below(61,/'
mutant "hours of two digits alone" times \
  's/^  const Text rest/  if (hours.size() > 2) return std::nullopt;\n&/'
mutant "hours counted in 32 bits" times \
  's/^constexpr uint32_t MINUTES .*/&\nstd::optional<uint32_t> around(const Text \&digits) { uint32_t sum = 0; for (char digit : digits) sum = 10 * sum + (digit - 48); if (!all_digits(digits)) return std::nullopt; return sum; }/; s/number_below(MINUTES, hours)/around(hours)/'
mutant "minutes counted in 16 bits" times \
  's/if (minute >= MINUTES)/if (minute % 65536 >= MINUTES)/'
mutant "leading zeros refused" times 's/= without_leading_zeros(text)/= text/'
mutant "day 1 opens at 1,440" times 's/(service_day - 1) \* MIN/service_day * MIN/'
mutant "a departure before its arrival taken" reading \
  's/ && \*arrival <= \*departure//'
mutant "a departure at its arrival refused" reading \
  's/\*arrival <= \*departure/*arrival < *departure/'
# sequences
mutant "stop_sequence 65,536 taken" times 's/number_below(65536/number_below(65537/'
mutant "stop_sequence 65,535 refused" times 's/number_below(65536/number_below(65535/'
mutant "stop_sequence counted in 16 bits" times \
  's/^  return number_below(65536, field);/  uint16_t sum = 0;\n  for (char digit : field) sum = static_cast<uint16_t>(10 * sum + (digit - 48));\n  if (!all_digits(field)) return std::nullopt;\n  return sum;/'
mutant "an equal stop_sequence taken" reading \
  's/before->sequence < \*sequence/before->sequence <= *sequence/'
mutant "a falling stop_sequence taken" reading \
  's/before->sequence < \*sequence/true/'
# rows
mutant "a row across two trips" reading \
  's/^  so_far.last_calls\[trip\] = call;/  for (auto \&[other, last] : so_far.last_calls) last = {call.stop, call.arrival, call.departure, last.sequence};\n&/'
mutant "rows between neighbouring lines alone" reading \
  's/^constexpr size_t LONGEST_ID.*/&\nuint32_t last_trip = 0;/; s/if (before) so_far/if (before \&\& last_trip == trip) so_far/; s/^  so_far.last_calls\[trip\] = call;/&\n  last_trip = trip;/'
mutant "the first's arrival" reading 's/first.departure, next/first.arrival, next/'
mutant "the second's departure" reading 's/next.arrival, trip/next.departure, trip/'
mutant "sorted by arrival" import \
  '/std::stable_sort/,/^}/s/departure/arrival/g'
mutant "not sorted" import 's/in_file_order(read.stop_times.rows)/read.stop_times.rows/'
mutant "rows of a minute as read" import 's/return one.trip < two.trip/return false/'
mutant "rows of a minute by falling trip" import 's/one.trip < two.trip/one.trip > two.trip/'
mutant "rows of a trip and minute in reverse" import \
  's/^  std::stable_sort/  std::reverse(rows.begin(), rows.end());\n&/'
# limits
mutant "201 stops taken" reading 's/MOST_STOPS = 200/MOST_STOPS = 201/'
mutant "200 stops refused" reading 's/MOST_STOPS = 200/MOST_STOPS = 199/'
mutant "2,001 trips taken" reading 's/MOST_TRIPS = 2000/MOST_TRIPS = 2001/'
mutant "2,000 trips refused" reading 's/MOST_TRIPS = 2000/MOST_TRIPS = 1999/'
mutant "2,001 rows taken" reading 's/MOST_ROWS = 2000/MOST_ROWS = 2001/'
mutant "2,000 rows refused" reading 's/MOST_ROWS = 2000/MOST_ROWS = 1999/'
mutant "a first call counted as a row" reading 's/!(before && so_far.rows/!(so_far.rows/'
# order of refusals
mutant "12 before 11" reading \
  's/^  if (!fields_are_right(line, fields)) return 11;/  if (fields \&\& !(*fields)[ARRIVAL].empty() \&\& !minute_of((*fields)[ARRIVAL], service_day)) return 12;\n&/'
mutant "13 before 12" reading \
  's/^  if (!times_are_right/  if (!sequence_of((*fields)[SEQUENCE])) return 13;\n&/'
mutant "9 before 13" reading \
  's/^  if (!rises/  if (!has_room(so_far, *fields, before)) return 9;\n&/'
mutant "11 of every line before 12 of any" reading \
  's/^  for (size_t line = 1;/  for (size_t line = 1; line < lines.size(); ++line) if (!fields_are_right(lines[line], fields_at(*places, lines[line]))) return {11, {}};\n&/'
mutant "9 behind all lines" reading \
  's/^constexpr size_t LONGEST_ID.*/&\nbool full = false;/; s/^  ReadStopTimes read;/&\n  full = false;/; s/return 9;/full = true;/; s/^  return read;/  if (full) return {9, {}};\n&/'
mutant "7 before 6" import \
  's/^  if (service_day < 1/  if (out.size() < LONGEST_FILE) return refused({7, 0});\n&/'
mutant "7 behind the lines" import \
  '/^  if (out.size() < LONGEST_FILE)/d; s/^  if (read.fault != 0).*/&\n  if (out.size() < LONGEST_FILE) return refused({7, 0});/'
mutant "day 0 taken" import 's/service_day < 1 || //'
mutant "day 8 taken" import 's/7 < service_day/8 < service_day/'
mutant "a day of one byte" import 's/^  if (service_day < 1/  service_day %= 256;\n&/'
mutant "room 27,919 taken" import 's/LONGEST_FILE = 27920/LONGEST_FILE = 27919/'
# what is answered and left
mutant "the finished file not checked" import '/^  if (refusal.number != 0)/d'
mutant "4 and 5 without their row" import 's/return refused(refusal);/return refused({refusal.number, 0});/'
mutant "checked before it is sorted" import \
  's/check_file(file).refusal/check_file(sailing_file(stops, read.stop_times.rows)).refusal/'
mutant "out changed on refusal 5" import \
  's/^  if (refusal.number != 0)/  if (refusal.number == 5) std::copy(file.begin(), file.end(), out.begin());\n&/'
mutant "out changed on refusal 1" import \
  's/^  if (refusal.number != 0)/  if (refusal.number == 1) std::copy(file.begin(), file.end(), out.begin());\n&/'
mutant "out cleared behind the file" import \
  's/^  std::copy(file.begin()/  std::fill(out.begin(), out.end(), 0);\n&/'
mutant "a byte behind out changed" mirror \
  's/^  std::copy(lent.begin()/  if (got.number == 0) ++out[out_len];\n&/'
mutant "answers left as they were on a refusal" mirror \
  's/std::copy(given.begin(), given.end()/std::copy(given.begin(), given.begin() + (got.number == 0 ? 6 : 2)/'
wait
cat "$place"/told/*
noticed=$(cat "$place"/told/* | grep -c '^noticed: ')
missed=$((count - 100 - noticed))
echo "$noticed noticed, $missed missed"
[ "$missed" = 0 ]
