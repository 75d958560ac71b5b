#!/bin/sh
# Plants one plausible error after another in a copy of the definitions, takes
# the copy as the subject, and expects the comparison to notice each. Two
# changes are left out because no answer shows them: choosing rows that board
# at the target (nothing asks for a chosen row there), and the second house
# formula at x = m (both give two thirds).
set -u
here=$(cd "$(dirname "$0")" && pwd)
place=$(mktemp -d)
trap 'rm -rf "$place"' EXIT
build="g++ -std=c++17 -O1 -Werror=return-type"
parts="file_check house rides worths plan"
mkdir "$place/true" "$place/copy" "$place/run"

for part in $parts sheet safe_plans walk generate calls compare; do
  $build -c "$here/$part.cpp" -o "$place/true/$part.o" || exit 2
done
for part in $parts mirror; do
  sed 's/namespace second/namespace mirrored/' "$here/$part.cpp" \
    > "$place/copy/$part.cpp"
done
for header in definitions generate calls; do
  sed 's/namespace second/namespace mirrored/' "$here/$header.hpp" \
    > "$place/copy/$header.hpp"
done
cp "$here/trial.h" "$place/copy/"
for part in $parts mirror; do
  $build -c "$place/copy/$part.cpp" -o "$place/copy/$part.o" || exit 2
done

noticed=0
missed=0

run() {  # the mirror's object files are in $place/copy
  $build "$place"/true/*.o "$place"/copy/*.o -o "$place/run/compare" || exit 2
  (cd "$place/run" && timeout 300 ./compare --files "${FILES:-60000}" --every 1000000 \
    > out 2>&1)
}

mutant() {  # name, part, sed script
  cp "$place/copy/$2.cpp" "$place/kept.cpp"
  cp "$place/copy/$2.o" "$place/kept.o"
  sed "$3" "$place/kept.cpp" > "$place/copy/$2.cpp"
  if cmp -s "$place/kept.cpp" "$place/copy/$2.cpp"; then
    echo "NOT PLANTED: $1"; missed=$((missed + 1))
  else
    $build -c "$place/copy/$2.cpp" -o "$place/copy/$2.o" || exit 2
    if run; then echo "MISSED:  $1"; missed=$((missed + 1))
    else echo "noticed: $1 ($(head -1 "$place/run/out"))"
      noticed=$((noticed + 1)); fi
  fi
  cp "$place/kept.cpp" "$place/copy/$2.cpp"
  cp "$place/kept.o" "$place/copy/$2.o"
}

if run; then echo "the mirror itself: no difference"
else echo "the mirror itself differs"; cat "$place/run/out"; exit 1; fi

mutant "a boat at the landing minute is missed" worths \
  's/departure <= here.departure/departure < here.departure/'
mutant "a boat one minute earlier is caught" worths \
  's/departure <= here.departure/departure <= here.departure + 1/'
mutant "safe journeys miss the boat at a+M" rides \
  's/.departure >= departure/.departure > departure/'
mutant "E by planned arrival" rides \
  's/take_less(least, safe);/take_less(least, arrival(sailings_, ride));/'
mutant "one more ride after a safe one at exactly a+M" plan \
  's/here.departure >= safe/here.departure > safe/'
mutant "each product rounded" worths \
  's/sum += uint64_t{sailing_class.shares\[delay\]} \* worth_after_delay\[delay\]/sum += 4096 * divided_rounded_up(uint64_t{sailing_class.shares[delay]} * worth_after_delay[delay], 4096)/'
mutant "rounded down" worths 's/ + (sum % by != 0)//'
mutant "product summed in 32 bits" worths \
  '/^uint32_t worth_elsewhere/,/^}/s/uint64_t sum/uint32_t sum/'
mutant "a ride caught only at share 0 left out" plan \
  's/    answer.push_back(row);/    if (here.departure < safe \&\& class_of(sailings, ride).shares[here.departure - first] == 0) continue;\n&/'
mutant "lowest row number among equals" worths 's/other > row/other < row/'
mutant "equal worth later does not hinder" worths \
  's/\*its <= \*own) return/*its < *own) return/'
mutant "rows boarding at the target have no worth" worths \
  's/  if (!next) return std::nullopt;/  if (!next || sailings_.rows[*next].boarding == query_.target) return std::nullopt;/'
mutant "leaves at the first equal landing" plan \
  's/if (!next || /if (!next || worths.getting_off(ride.leaves) == worths.worth(row) || /'
mutant "never passes the target" plan \
  's/if (!next || /if (!next || (worths.getting_off(ride.leaves) == worths.worth(row) \&\& worth_at_target(class_of(sailings, ride), arrival(sailings, ride)) == worths.worth(row)) || /'
mutant "rides stay on no further than one row" rides \
  's/answer.push_back({row, \*leaves});/{ answer.push_back({row, *leaves}); if (*leaves != row) break; }/'
mutant "bound rounded up" rides 's|(earliest - query.minute) / 4|(earliest - query.minute) / 4 + (query.code * (earliest - query.minute) % 4 != 0)|'
mutant "bound counted from midnight" rides \
  's|query.minute + query.code \* (earliest - query.minute) / 4|query.code * earliest / 4|'
mutant "bound on planned arrival" worths \
  's/within(bound_, safe)/within(bound_, a)/'
mutant "bound exclusive" rides 's/minute <= \*bound/minute < *bound/'
mutant "a landing's own minute not taken into the plan" plan \
  's/here.departure < first ||/here.departure <= first ||/'
mutant "latest by planned arrival" plan \
  's/plan.latest = std::max(plan.latest, safe_arrival(/plan.latest = std::max(plan.latest, arrival(/'
mutant "shares summed in 16 bits" file_check 's/uint64_t sum = 0/uint16_t sum = 0/'
mutant "last share may be 0" file_check 's/ && shares.back() >= 1//'
mutant "M 121 taken" file_check 's/maximum <= 120/maximum <= 121/'
mutant "trip may go on only after its arrival" file_check \
  's/before.arrival <= row.departure/before.arrival < row.departure/'
mutant "trip compared with its first row" file_check \
  's/size_t back = earlier.size(); back > 0; --back/size_t back = 1; back <= earlier.size(); ++back/'
mutant "departures must rise" file_check \
  's/earlier.back().departure <= row.departure/earlier.back().departure < row.departure/'
mutant "5 before 4" file_check \
  's/if (!row_is_right_alone(row, trailer)) return refused({4, number});/if (!departure_does_not_fall(rows, row)) return refused({5, number});\n&/'
mutant "4 in all rows before 5 in any" file_check \
  's/^  std::vector<Row> &rows = answer.sailings.rows;/&\n  for (uint32_t number = 0; number < trailer.rows; ++number)\n    if (!row_is_right_alone(read_row(file, trailer.row_offset + ROW_LENGTH * number), trailer)) return refused({4, number});/'
mutant "joining before classes" file_check \
  's/  uint64_t place = trailer.table_offset;/  if (trailer.row_offset != 0 \&\& trailer.table_offset != 0) return refused({2, 0});\n&/'
mutant "shares must fit before M is looked at" file_check \
  's/  if (!maximum_in_range(read.maximum_delay)) return {3, number};/  if (place + 2 * (read.maximum_delay + 1) > trailer_start) return {2, 0};\n&/'
mutant "M looked at before it fits" file_check \
  's/  if (place + 2 > trailer_start) return {2, 0};/  if (place + 2 <= file.size() \&\& u16_at(file, place) > 120) return {3, number};\n&/'
mutant "sums looked at after joining" file_check \
  's/^constexpr uint32_t LAST_MINUTE.*/&\nuint32_t wrong_sums = 0, wrong_class = 0;/; s/  if (!shares_are_right(read.shares)) return {3, number};/  if (!shares_are_right(read.shares) \&\& wrong_sums++ == 0) wrong_class = number;/; s/^  std::vector<Row> &rows = answer.sailings.rows;/  if (wrong_sums > 0) return refused({3, wrong_class});\n&/; s/^  if (!length_in_range(file)) return refused({1, 0});/  wrong_sums = 0;\n&/'
mutant "only rows first" file_check \
  's/follow_each_other(trailer.table_offset, table_end, trailer.row_offset,/false \&\& &/'
mutant "end not compared" file_check \
  's/ &&$/ \&\&/; s/second_end == trailer_start/true/'
mutant "table offset in 32 bits" file_check \
  's/if (place + 2 > trailer_start) return/if ((uint32_t)(place + 2) > trailer_start) return/; s/file.at(place/file.at((uint32_t)(place)%file.size()/; s/%file.size() + 1)/+1)%file.size())/'
mutant "refusal 2 with the class as place" file_check \
  's/if (place + 2 > trailer_start) return {2, 0}/if (place + 2 > trailer_start) return {2, number}/'
mutant "arrival 10,080 taken" file_check 's/LAST_MINUTE = 10079/LAST_MINUTE = 10080/'
mutant "trip 2,000 taken" file_check 's/row.trip < 2000/row.trip <= 2000/'
mutant "27,921 bytes taken" file_check 's/<= 27920/<= 27921/'
mutant "19 bytes taken" file_check 's/20 <= file/19 <= file/'
mutant "version not looked at" file_check 's/trailer.version == 1 &&//'
mutant "201 stops taken" file_check 's/<= 200 /<= 201 /'
mutant "17 classes taken" file_check 's/classes <= 16/classes <= 17/'
mutant "T 10,080 taken" plan 's/query.minute <= 10079/query.minute <= 10080/'
mutant "stops cut to 16 bits" plan \
  's/query.source < sailings.stops/(query.source \& 65535) < sailings.stops/'
mutant "codes 1 to 3 taken" rides 's/4 <= code/1 <= code/'
mutant "code 17 taken" rides 's/code <= 16/code <= 17/'
mutant "codes of two bytes" rides \
  's/^  return code == 0 ||/  code \&= 65535; return code == 0 ||/'
mutant "7 before 6" plan \
  's/  if (!query_is_right(sailings, query)) return plan_refused(6, 0);/  if (work.size() < work_needed(sailings)) return plan_refused(7, 0);\n&/'
mutant "work one shorter" plan 's/ + 2500/ + 2499/'
mutant "all work cleared" plan 's/work_needed(sailings), 0u/work.size(), 0u/'
mutant "work left dirty on 8" plan \
  's/  clear_work(sailings, work);/  if (plan) clear_work(sailings, work);/; /^EarliestAnswer/,/^}/s/if (plan) //'
mutant "plan slice may be one shorter" plan \
  's/slice.size() < 3 \* sailings.rows.size()/slice.size() + 1 < 3 * sailings.rows.size()/'
mutant "earliest reads the bound code" plan 's/unbounded.code = 0/unbounded.code = 3/'
# request E1
mutant "must gain more than the margin" worths \
  's/+ margin > \*worth(\*first)/+ margin >= *worth(*first)/'
mutant "compared with the stop's last chosen row" worths \
  '/^void Worths::take/,/^}/s/      first_chosen(here.boarding, here.departure);/      first_chosen(here.boarding, here.departure);\n  size_t last = 0;\n  for (size_t other = row + 1; other < chosen_.size(); ++other) if (chosen_[other] \&\& sailings_.rows[other].boarding == here.boarding) last = other;/; s/> \*worth(\*first)) return;/> *worth(last)) return;/'
mutant "compared with every later row, chosen or not" worths \
  's/^  if (first && \*worth(row) + margin/  for (size_t other = row + 1; other < chosen_.size(); ++other) if (sailings_.rows[other].boarding == here.boarding \&\& worth(other) \&\& *worth(row) + margin > *worth(other)) return;\n&/'
mutant "both rows of a minute stay" worths 's/    chosen_\[\*first\] = false;/    ;/'
mutant "no margin in the same minute" worths \
  's/\*worth(row) + margin >/*worth(row) + (sailings_.rows[*first].departure == here.departure ? 1 : margin) >/'
mutant "the margin ignored" worths 's/take(row - 1, \*query.margin)/take(row - 1, 1)/'
mutant "margin counted in minutes" worths 's/take(row - 1, \*query.margin)/take(row - 1, *query.margin * 256)/'
mutant "margin at the source alone" plan \
  's/^  Worths worths(sailings, query, plan.bound);/  Query without = query;\n  without.margin.reset();\n  Worths with(sailings, query, plan.bound), worths(sailings, without, plan.bound);/; s/= worths.first_chosen(query.source/= with.first_chosen(query.source/'
mutant "margin in E" rides \
  's/^class Journeys {/uint32_t margin = 1;\n&/; s/^        take_less(least, boarding_row(row));/        if (const Earliest its = boarding_row(row); its \&\& (!least || 256 * *its + margin <= 256 * *least)) least = its;/; s/^  return Journeys(sailings, query, true)/  margin = query.margin.value_or(1);\n&/'
mutant "margin in the bound" plan \
  's/bound_of(query, \*earliest)/bound_of(query, *earliest + query.margin.value_or(1) \/ 256)/'
mutant "rides stay aboard within the margin" plan \
  's/^Ride ride_of_chosen/uint32_t margin = 1;\n&/; s/worths.worth(\*next) != worths.worth(row)) return/!worths.worth(*next) || *worths.worth(*next) >= *worths.worth(row) + margin) return/; s/^  Worths worths(sailings, query/  margin = query.margin.value_or(1);\n&/'
mutant "margin 0 taken" rides 's/1 <= margin && //'
mutant "margin 2,561 taken" rides 's/margin <= 2560/margin <= 2561/'
mutant "margin 2,560 refused" rides 's/margin <= 2560/margin < 2560/'
mutant "margins of two bytes" rides \
  's/{ return 1 <= margin/{ margin \&= 65535; return 1 <= margin/'
mutant "margin refused after the slices" plan \
  's/^  if (!query_is_right(sailings, query)) return plan_refused(6, 0);/  Query without = query; without.margin.reset();\n  if (!query_is_right(sailings, without)) return plan_refused(6, 0);/; s/^  const std::optional<Plan> plan = plan_of(sailings, query);/  if (!query_is_right(sailings, query)) return plan_refused(6, 0);\n&/'
# request E3
mutant "no gate at the source" plan 's/ready_to_board(query, query.minute)/query.minute/'
mutant "no gate at the source in E" rides 's/ready_to_board(query_, query_.minute)/query_.minute/'
mutant "no gate behind a landing in E" rides 's/ready_to_board(query_, safe)/safe/'
mutant "no gate in E at all" rides 's/ready_to_board(query_, \([a-z_.]*\))/\1/'
mutant "no gate in safe" worths \
  's/ready_to_board(query_, safe)/safe/; s/\*first_chosen(stop, ready_to_board(query_, a + delay))/first_chosen(stop, ready_to_board(query_, a + delay)).value_or(*first_chosen(stop, safe))/'
mutant "no gate in the worths" worths 's/ready_to_board(query_, a + delay)/a + delay/'
mutant "no gate for the late in the worths" worths \
  's/ready_to_board(query_, a + delay)/delay == 0 ? ready_to_board(query_, a) : a + delay/'
mutant "no gate at the window's start" plan \
  's/ready_to_board(query, arrival(sailings, ride))/arrival(sailings, ride)/'
mutant "no gate at the window's end" plan \
  's/ready_to_board(query, safe_arrival(sailings, ride))/safe_arrival(sailings, ride)/'
mutant "a boat at the gate's very minute is missed" rides \
  's/return minute + query.gate.value_or(0)/& + (query.gate.value_or(0) > 0)/'
mutant "a boat a minute behind the gate is caught" rides \
  's/return minute + query.gate.value_or(0)/& - (query.gate.value_or(0) > 0)/'
mutant "gate added twice" rides 's/return minute + query.gate.value_or(0)/return minute + 2 * query.gate.value_or(0)/'
mutant "gate added twice at the source" plan \
  's/ready_to_board(query, query.minute)/ready_to_board(query, &)/'
mutant "gate in the latest minute" plan \
  's/std::max(plan.latest, safe_arrival(sailings, ride))/std::max(plan.latest, ready_to_board(query, safe_arrival(sailings, ride)))/'
mutant "gate in the worth at the target" worths \
  's/return worth_at_target(sailing_class, a)/return worth_at_target(sailing_class, ready_to_board(query_, a))/'
mutant "gate behind the last landing in E" rides 's/take_less(least, safe);/take_less(least, ready_to_board(query_, safe));/'
mutant "gate added to the bound" rides 's/return query.minute + query.code/return ready_to_board(query, query.minute) + query.code/'
mutant "bound counted from T + g" rides \
  's|return query.minute + query.code \* (earliest - query.minute) / 4|const uint32_t from = ready_to_board(query, query.minute); return from + query.code * (earliest - from) / 4|'
mutant "bound from the E of gate 0" plan \
  's/^  plan.bound = bound_of(query, \*earliest);/  Query open = query;\n  open.gate.reset();\n  plan.bound = bound_of(query, *earliest_safe_arrival(sailings, open));/'
mutant "a + M + g within the bound" worths 's/within(bound_, safe)/within(bound_, ready_to_board(query_, safe))/'
mutant "gate for who stays aboard" worths \
  's/^  if (!next) return std::nullopt;/  if (!next || sailings_.rows[*next].departure < ready_to_board(query_, sailings_.rows[row].arrival)) return std::nullopt;/'
mutant "gate between the boats of a stop" worths \
  's/first_chosen(here.boarding, here.departure)/first_chosen(here.boarding, ready_to_board(query_, here.departure))/'
mutant "gate 31 taken" rides 's/gate <= 30/gate <= 31/'
mutant "gate 30 refused" rides 's/gate <= 30/gate < 30/'
mutant "gates of one byte" rides 's/{ return gate <= 30/{ gate \&= 255; return gate <= 30/'
mutant "gates of two bytes" rides 's/{ return gate <= 30/{ gate \&= 65535; return gate <= 30/'
mutant "gate refused after the slices" plan \
  's/^  if (!query_is_right(sailings, query)) return plan_refused(6, 0);/  Query without = query; without.gate.reset();\n  if (!query_is_right(sailings, without)) return plan_refused(6, 0);/; s/^  const std::optional<Plan> plan = plan_of(sailings, query);/  if (!query_is_right(sailings, query)) return plan_refused(6, 0);\n&/'
mutant "earliest leaves the gate out" plan 's/^  unbounded.code = 0;/&\n  if (query.gate \&\& gate_is_known(*query.gate)) unbounded.gate.reset();/'
mutant "earliest takes gate 31" plan \
  's/^  unbounded.code = 0;/&\n  if (query.gate == 31u) unbounded.gate = 30;/'
mutant "margin and gate exchanged" mirror 's/code, margin, gate}/code, gate, margin}/'
mutant "gate read from the bound code" mirror 's/code, margin, gate}/code, margin, code}/'
mutant "T and gate exchanged" mirror 's/{source, target, minute, 0, std::nullopt, gate}/{source, target, gate, 0, std::nullopt, minute}/'
mutant "house shares rounded up" house 's|4096 \* above / below|(4096 * above + below - 1) / below|'
mutant "house tail rising too slowly" house 's/31 \* (x - m)/30 * (x - m)/'
mutant "house tail counted from 0" house 's/31 \* (x - m) + 2 \* d, 30 \* (x - m)/31 * x + 2 * d, 30 * x/'
mutant "house tail with 2d for 3d" house 's/(x - m) + 3 \* d/(x - m) + 2 * d/'
mutant "house pairs of a byte" house 's/^  if (pair > 7 /  pair \&= 255;\n&/'
mutant "house minutes of a byte" house 's/^  if (pair > 7 /  minute \&= 255;\n&/'
mutant "last house minute refused" house 's/minute > house_maximum/minute >= house_maximum/'
mutant "house minutes past M answered" house 's/^  if (pair > 7 || minute > house_maximum(pair)) return/  if (pair > 7) return/; s/  if (x == m + d)/  if (x >= m + d)/'
echo "$noticed noticed, $missed missed"
[ "$missed" = 0 ]
