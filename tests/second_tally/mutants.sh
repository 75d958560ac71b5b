#!/bin/sh
# Is each plausible error noticed? A copy of the definitions, with one error planted, takes the subject's place, and both the
# comparison and the fixed cases are to tell it from the definitions. An error that neither tells ends this with 1.
set -u
here=$(cd "$(dirname "$0")" && pwd)
place=$(mktemp -d)
trap 'rm -rf "$place"' EXIT
build="g++ -std=c++17 -O1 -Werror=return-type"
parts="tally table mirror"
mkdir "$place/true" "$place/copy" "$place/built"

for part in ../second/file_check tally table log accepted generate sides; do
  $build -c "$here/$part.cpp" -o "$place/true/$(basename $part).o" || exit 2
done
for program in cases compare; do
  $build -c "$here/$program.cpp" -o "$place/$program.o" || exit 2
done
cp "$here/trial_tally.h" "$place/copy/"
for file in tally.hpp tally.cpp table.cpp mirror.cpp; do
  sed 's/namespace second/namespace mirrored/' "$here/$file" > "$place/copy/$file"
done
for part in $parts; do
  $build -c "$place/copy/$part.cpp" -o "$place/built/$part.o" || exit 2
done

differs() {  # program, its words; the subject is what lies in built
  objects=
  for part in $parts; do objects="$objects $place/built/$part.o"; done
  $build "$place/$1.o" "$place"/true/*.o $objects -o "$place/$1" || exit 2
  ! (cd "$place" && timeout 60 "./$1" $2 > "$1.said" 2>&1)
}

if differs compare "--tallies 7000" || differs cases ""; then
  cat "$place"/*.said
  echo "the copy differs without any error"
  exit 1
fi
echo "the copy without an error: no difference"

noticed=0
missed=0
mutant() {  # name, part, sed script
  sed "$3" "$place/copy/$2.cpp" > "$place/copy/planted.cpp"
  if cmp -s "$place/copy/$2.cpp" "$place/copy/planted.cpp"; then
    echo "NOT PLANTED: $1"
    missed=$((missed + 1))
    return
  fi
  mv "$place/built/$2.o" "$place/kept.o"
  $build -c "$place/copy/planted.cpp" -o "$place/built/$2.o" || exit 2
  by=
  if differs compare "--tallies 7000"; then by="$by compare"; fi
  if differs cases ""; then by="$by cases"; fi
  mv "$place/kept.o" "$place/built/$2.o"
  if [ -z "$by" ]; then
    echo "MISSED: $1"
    missed=$((missed + 1))
  else
    echo "noticed: $1 (by$by)"
    noticed=$((noticed + 1))
  fi
}

# lateness and its count
mutant "early landings dropped" tally \
  's/^  tally\[place\] += 1;/  if (lateness(landing) >= 0) tally[place] += 1;/'
mutant "early landings apart" tally 's/< 0) return 0/< 0) return APART/'
mutant "early landings by how early they were" tally \
  's/^  if (minutes_late < 0) return 0;/  if (minutes_late < 0) minutes_late = -minutes_late;/'
mutant "one minute early refused" tally \
  's/^  const size_t place = /  if (lateness(landing) < 0) return {14, 0};\n&/'
mutant "planned minus actual" tally 's/actual - planned/planned - actual/'
mutant "120 apart" tally 's/minutes_late > 120/minutes_late >= 120/'
mutant "121 at 120" tally \
  's/^  if (minutes_late > 120)/  if (minutes_late == 121) return 120;\n&/'
mutant "all over 120 at 120" tally 's/return APART/return MOST_LATE/'
mutant "those over 120 dropped" tally \
  's/^  tally\[place\] += 1;/  if (place != APART) tally[place] += 1;/'
mutant "lateness in one byte" tally \
  's/^  return actual - planned;/  return static_cast<int8_t>(actual - planned);/'
mutant "lateness in one byte without sign" tally \
  's/^  return actual - planned;/  return actual < planned ? 0 : (actual - planned) % 256;/'
mutant "on time as one late" tally \
  's/return static_cast<size_t>(minutes_late)/return minutes_late == 0 ? 1 : minutes_late/'
mutant "counted by two" tally 's/+= 1;/+= 2;/'
mutant "apart landings counted at 120, too" tally \
  's/^  tally\[place\] += 1;/&\n  if (place == APART) tally[MOST_LATE] += 1;/'
# minutes
mutant "minute 10,080 taken" tally 's/LAST_MINUTE = 10079/LAST_MINUTE = 10080/'
mutant "minute 10,079 refused" tally 's/LAST_MINUTE = 10079/LAST_MINUTE = 10078/'
mutant "minutes of four weeks taken" tally 's/LAST_MINUTE = 10079/LAST_MINUTE = 40319/'
mutant "only the planned minute tested" tally 's/ && landing.actual <= LAST_MINUTE//'
mutant "only the actual minute tested" tally 's/landing.planned <= LAST_MINUTE && //'
mutant "refused if both are too great" tally \
  's/landing.planned <= LAST_MINUTE &&/landing.planned <= LAST_MINUTE ||/'
mutant "minutes of two bytes" tally \
  's/landing.planned <= LAST_MINUTE && landing.actual/landing.planned % 65536 <= LAST_MINUTE \&\& landing.actual % 65536/'
mutant "refused by lateness alone" tally \
  's/!minutes_are_right(landing)/lateness(landing) > LAST_MINUTE/'
# limits of a landing's call
mutant "limit 999,999" tally 's/LIMIT = 1000000/LIMIT = 999999/'
mutant "limit 1,000,001" tally 's/LIMIT = 1000000/LIMIT = 1000001/'
mutant "limit 1,048,576" tally 's/LIMIT = 1000000/LIMIT = 1048576/'
mutant "counted at the limit" tally 's/tally\[place\] >= LIMIT/tally[place] > LIMIT/'
mutant "not counted one below the limit" tally \
  's/tally\[place\] >= LIMIT/tally[place] >= LIMIT - 1/'
mutant "a given count at the limit refused" tally \
  's/tally\[place\] > LIMIT/tally[place] >= LIMIT/'
mutant "apart counted at the limit" tally \
  's/if (tally\[place\] >= LIMIT)/if (place != APART \&\& tally[place] >= LIMIT)/'
mutant "0 late counted at the limit" tally \
  's/if (tally\[place\] >= LIMIT)/if (place != 0 \&\& tally[place] >= LIMIT)/'
mutant "a full count stays and is answered 0" tally \
  's/^  if (tally\[place\] >= LIMIT) return {15, 0};/  if (tally[place] >= LIMIT) return {0, 0};/'
mutant "given apart count not tested" tally 's/place < COUNTS/place < APART/'
mutant "given count at 120 not tested" tally \
  's/if (tally\[place\] > LIMIT)/if (place != MOST_LATE \&\& tally[place] > LIMIT)/'
mutant "given count at 0 not tested" tally 's/size_t place = 0; place/size_t place = 1; place/'
mutant "given counts not tested for a landing" tally \
  '/^  if (!counts_are_right/d'
mutant "given counts tested with a sign" tally \
  's/tally\[place\] > LIMIT/static_cast<int32_t>(tally[place]) > static_cast<int32_t>(LIMIT)/'
mutant "all landings together under the limit" tally \
  's/^  const size_t place = /  uint64_t all = 0;\n  for (uint32_t count : tally) all += count;\n  if (all >= LIMIT) return {15, 0};\n&/'
# order and remains of a landing's refusals
mutant "15 for a given count before 14" tally \
  's/^  if (!minutes_are_right/  if (!counts_are_right(tally)) return {15, 0};\n&/'
mutant "15 for its own count before 14" tally \
  's/^  if (!minutes_are_right/  if (counts_are_right(tally) \&\& tally[count_for(lateness(landing))] >= LIMIT) return {15, 0};\n&/'
mutant "14 answered as 6" tally 's/return {14, 0}/return {6, 0}/'
mutant "15 with the count as its place" tally \
  's/>= LIMIT) return {15, 0}/>= LIMIT) return {15, static_cast<uint32_t>(place)}/'
mutant "a count above the limit brought down to it" tally \
  's/^  if (!counts_are_right(tally)) return/  for (uint32_t \&count : tally) if (count > LIMIT) { count = LIMIT; return {15, 0}; }\n&/'
mutant "counted though refused" tally \
  's/>= LIMIT) return {15, 0}/>= LIMIT) { tally[place] += 1; return {15, 0}; }/'
mutant "tally cleared on 14" tally \
  's/(landing)) return {14, 0};/(landing)) { tally.fill(0); return {14, 0}; }/'
# shares
mutant "apart in the landings tallied" table \
  's/^  return landings_at_most(tally, MOST_LATE);/  return landings_at_most(tally, APART);/'
mutant "apart among those at most 120 late" table \
  's/^  return landings;/  return landings + (minutes_late == MOST_LATE ? tally[APART] : 0);/'
mutant "apart in the shares' total alone" table \
  's|4096 \* at_most / landings_tallied(tally)|4096 * at_most / (landings_tallied(tally) + tally[APART])|'
mutant "rounded up" table \
  's|4096 \* at_most / landings_tallied(tally)|(4096 * at_most + landings_tallied(tally) - 1) / landings_tallied(tally)|'
mutant "rounded to the nearest" table \
  's|4096 \* at_most / landings_tallied(tally)|(4096 * at_most + landings_tallied(tally) / 2) / landings_tallied(tally)|'
mutant "divided first" table 's|4096 \* at_most / landings|4096 * (at_most / landings|; s|(tally));$|(tally)));|'
mutant "product in 32 bits" table 's|(4096 \* at_most / |(static_cast<uint32_t>(4096 * at_most) / |'
mutant "shares in short fractions" table 's|(4096 \* at_most / |(4096.0f * at_most / |'
mutant "4,095 as the whole" table 's/(4096 \*/(4095 */'
mutant "less than x late" table 's/late <= minutes_late; ++late/late < minutes_late; ++late/'
mutant "cumulative shares written" table \
  's/cumulative_share(tally, late) -/cumulative_share(tally, late));/; /^ *cumulative_share(tally, late - 1));/d'
mutant "each share rounded alone" table \
  's/^  return shares;/  for (size_t late = 0; late <= greatest; ++late) shares[late] = static_cast<uint32_t>(uint64_t{4096} * tally[late] \/ landings_tallied(tally));\n&/'
mutant "each share rounded alone, the rest in the last" table \
  's/^  return shares;/  uint32_t rest = 4096;\n  for (size_t late = 0; late < greatest; ++late) rest -= shares[late] = static_cast<uint32_t>(uint64_t{4096} * tally[late] \/ landings_tallied(tally));\n  shares[greatest] = rest;\n&/'
mutant "the rest of each share carried to the first" table \
  's/^  return shares;/  for (size_t late = 1; late <= greatest; ++late) if (tally[late] > 0 \&\& shares[late] == 0) { shares[late] = 1; shares[0] -= 1; }\n&/'
mutant "first share 0" table 's/shares = {cumulative_share(tally, 0)}/shares = {0}/'
mutant "counts written" table 's/^  return shares;/  shares.assign(tally.begin(), tally.begin() + greatest + 1);\n&/'
# M
mutant "M always 120" table \
  's/^  return greatest;/  if (greatest) greatest = MOST_LATE;\n&/'
mutant "M 120 if any is apart" table \
  's/^  return greatest;/  if (greatest \&\& tally[APART] > 0) greatest = MOST_LATE;\n&/'
mutant "M the least lateness" table \
  's/if (tally\[late\] > 0) greatest/if (tally[late] > 0 \&\& !greatest) greatest/'
mutant "M the most frequent lateness" table \
  's/if (tally\[late\] > 0) greatest/if (tally[late] > (greatest ? tally[*greatest] : 0)) greatest/'
mutant "M of counts above 1" table 's/tally\[late\] > 0/tally[late] > 1/'
mutant "lateness 120 not looked at" table \
  '/greatest_lateness/,/^}/s/late <= MOST_LATE/late < MOST_LATE/'
mutant "M at the first gap" table \
  's/^    if (tally\[late\] > 0) greatest = late;/    if (tally[late] > 0) greatest = late; else if (greatest) break;/'
mutant "M one more" table 's/static_cast<uint32_t>(\*greatest),/static_cast<uint32_t>(*greatest + 1),/'
# refusals of a table's call
mutant "16 before 15" table \
  's/^  if (!counts_are_right/  if (!greatest_lateness(tally)) return {16, 0, 0, 0, 0};\n&/'
mutant "given counts not tested for a table" table '/^  if (!counts_are_right/d'
mutant "given apart count not tested for a table" table \
  's/^  if (!counts_are_right(tally))/  Tally others = tally;\n  others[APART] = 0;\n  if (!counts_are_right(others))/'
mutant "given count at 120 not tested for a table" table \
  's/^  if (!counts_are_right(tally))/  Tally first = tally;\n  first[MOST_LATE] = 0;\n  if (!counts_are_right(first))/'
mutant "count 1,000,000 refused for a table" table \
  's/^  if (!counts_are_right/  for (uint32_t count : tally) if (count >= 1000000) return {15, 0, 0, 0, 0};\n&/'
mutant "count 1,000,001 taken for a table" table \
  's/^  if (!counts_are_right(tally))/  Tally lower = tally;\n  for (uint32_t \&count : lower) if (count == 1000001) count = 1;\n  if (!counts_are_right(lower))/'
mutant "all landings together under the limit for a table" table \
  's/^  const std::optional<size_t> greatest = greatest_lateness/  if (landings_tallied(tally) > 1000000) return {15, 0, 0, 0, 0};\n&/'
mutant "a table of nothing" table \
  's/^  if (!greatest) return .*/  if (!greatest) { lent[0] = 4096; return {0, 0, 0, 0, tally[APART]}; }/'
mutant "a table of landings apart alone" table \
  's/^  if (!greatest) return/  if (!greatest \&\& tally[APART] > 0) { lent.fill(0); lent[MOST_LATE] = 4096; return {0, 0, MOST_LATE, 0, tally[APART]}; }\n&/'
mutant "16 with the landings apart" table 's/{16, 0, 0, 0, 0}/{16, 0, 0, 0, tally[APART]}/'
mutant "16 where any is apart" table \
  's/^  if (!greatest) return/  if (tally[APART] > 0) return {16, 0, 0, 0, 0};\n&/'
mutant "16 below 100 landings" table \
  's/^  if (!greatest) return/  if (landings_tallied(tally) < 100) return {16, 0, 0, 0, 0};\n&/'
mutant "shares cleared on 16" table \
  's/^  if (!greatest) return {16/  if (!greatest) lent.fill(0);\n&/'
mutant "first share changed on 15" table \
  's/^  if (!counts_are_right/  if (!counts_are_right(tally)) lent[0] = 0;\n&/'
# what a table's call answers and leaves
mutant "shares behind M cleared" table \
  's/^  for (size_t late = 0; late <= \*greatest; ++late) lent/  lent.fill(0);\n&/'
mutant "one share behind M cleared" table \
  's/^  for (size_t late = 0; late <= \*greatest; ++late) lent/  if (*greatest < MOST_LATE) lent[*greatest + 1] = 0;\n&/'
mutant "last share not written" table 's/late <= \*greatest; ++late) lent/late < *greatest; ++late) lent/'
mutant "shares added to what was there" table 's/lent\[late\] = /lent[late] += /'
mutant "shares of 0 not written" table \
  's/++late) lent\[late\]/++late) if (shares[late] > 0) lent[late]/'
mutant "apart answered as 0" table 's/, tally\[APART\]};/, 0};/'
mutant "landings answered with those apart" table \
  's/(landings_tallied(tally)), tally/(landings_tallied(tally) + tally[APART]), tally/'
mutant "landings answered up to the limit" table \
  's/static_cast<uint32_t>(landings_tallied(tally))/static_cast<uint32_t>(landings_tallied(tally) > 1000000 ? 1000000 : landings_tallied(tally))/'
mutant "tally emptied once its table is made" mirror \
  's/^  std::copy(lent.begin()/  if (got.number == 0) std::fill_n(const_cast<uint32_t *>(tally), COUNTS, 0);\n&/'
mutant "number behind the shares changed" mirror \
  's/^  std::copy(lent.begin()/  if (got.number == 0) ++shares[lent.size()];\n&/'
mutant "number ahead of the shares changed" mirror \
  's/^  std::copy(lent.begin()/  if (got.number == 0) --shares[-1];\n&/'
mutant "number behind the tally changed" mirror \
  's/^  std::copy(counts.begin()/  if (got.number == 0) tally[COUNTS] = 0;\n&/'
mutant "number ahead of the tally changed" mirror \
  's/^  std::copy(counts.begin()/  if (got.number == 0) tally[-1] = 0;\n&/'
mutant "a seventh number answered" mirror \
  's/^  std::copy(given.begin(), given.end(), answer);/&\n  answer[6] = 0;/'
mutant "answers left as they were on a refusal" mirror \
  's/std::copy(given.begin(), given.end()/std::copy(given.begin(), given.begin() + (got.number == 0 ? 6 : 2)/'
mutant "a landing answered with its count" mirror \
  's/{got.number, got.place, 0, 0, 0, 0}/{got.number, got.place, counts[count_for(lateness({planned, actual}))], 0, 0, 0}/'
echo "$noticed noticed, $missed missed"
[ "$missed" = 0 ]
