#include "generate.hpp"

namespace second {
namespace {

constexpr uint32_t LIMIT = 1000000, LAST_MINUTE = 10079;
constexpr uint32_t GREATEST_NUMBER = 4294967295u;

// ---------------------------------------------------------------- landings

struct MadeLanding {
  const char *kind;
  Landing landing;
  size_t meant_count;
};

uint32_t any_minute(Random &random, uint32_t greatest) {
  if (random.one_in(8)) return 0;
  return random.one_in(8) ? greatest : random.between(0, greatest);
}

Landing late_by(Random &random, uint32_t late) {
  const uint32_t planned = any_minute(random, LAST_MINUTE - late);
  return {planned, planned + late};
}

MadeLanding early(Random &random) {
  const uint32_t minutes =
      random.one_in(2) ? random.pick<uint32_t>({1, 2, 119, 120, 121, 122, 256})
                       : random.between(1, LAST_MINUTE);
  const Landing turned = late_by(random, minutes);
  return {"landing early", {turned.actual, turned.planned}, 0};
}

MadeLanding late(Random &random) {
  const uint32_t minutes =
      random.one_in(3) ? random.pick<uint32_t>({1, 2, 118, 119, 120, 120})
                       : random.between(1, 120);
  return {"landing late", late_by(random, minutes), minutes};
}

MadeLanding apart(Random &random) {
  const uint32_t minutes =
      random.one_in(2)
          ? random.pick<uint32_t>({121, 121, 122, 240, 255, 256, 257, 376})
          : random.between(121, LAST_MINUTE);
  return {"landing apart", late_by(random, minutes), APART};
}

MadeLanding right_landing(Random &random) {
  const uint32_t ticket = random.below(100);
  if (ticket < 15) return {"landing on time", late_by(random, 0), 0};
  if (ticket < 35) return early(random);
  return ticket < 80 ? late(random) : apart(random);
}

uint32_t minute_too_great(Random &random) {
  if (random.one_in(3)) return LAST_MINUTE + 1;
  if (random.one_in(3)) return random.between(LAST_MINUTE + 1, 65535);
  // minutes that are right once their upper half is cut off
  if (random.one_in(2)) return 65536 + random.between(0, LAST_MINUTE);
  return random.one_in(2)
             ? GREATEST_NUMBER
             : random.between(LAST_MINUTE + 1, GREATEST_NUMBER);
}

MadeLanding damaged_landing(Random &random) {
  Landing landing = right_landing(random).landing;
  const uint32_t which = random.below(3);
  if (which != 0) landing.planned = minute_too_great(random);
  if (which != 1) landing.actual = minute_too_great(random);
  if (which == 2 && random.one_in(3)) landing.actual = landing.planned;
  const char *const kinds[] = {"landing's actual minute too great",
                               "landing's planned minute too great",
                               "both minutes of a landing too great"};
  return {kinds[which], landing, 0};
}

// ----------------------------------------------------------------- tallies

uint32_t any_lateness(Random &random) {
  return random.one_in(4) ? random.pick<uint32_t>({0, 1, 119, 120})
                          : random.between(0, MOST_LATE);
}

uint32_t any_apart(Random &random) {
  if (random.one_in(3)) return 0;
  return random.one_in(3) ? LIMIT - random.below(2) : random.below(200);
}

Tally sparse(Random &random) {
  Tally tally{};
  for (uint32_t left = random.between(1, 6); left > 0; --left)
    tally[any_lateness(random)] = random.between(1, 50);
  tally[APART] = any_apart(random);
  return tally;
}

// Some of the counts below the greatest lateness stay 0.
Tally dense(Random &random) {
  Tally tally{};
  const uint32_t greatest = any_lateness(random);
  const uint32_t most = random.pick<uint32_t>({3, 40, 3000, LIMIT});
  for (uint32_t late = 0; late < greatest; ++late)
    tally[late] = random.below(most + 1);
  tally[greatest] = random.between(1, most);
  tally[APART] = any_apart(random);
  return tally;
}

Tally single(Random &random) {
  Tally tally{};
  tally[any_lateness(random)] =
      random.one_in(2) ? random.pick<uint32_t>({1, 2, LIMIT - 1, LIMIT})
                       : random.between(1, LIMIT);
  if (random.one_in(2)) tally[APART] = any_apart(random);
  return tally;
}

// Single landings among so many others that their shares come to 0.
Tally rare(Random &random) {
  Tally tally{};
  for (uint32_t left = random.between(1, 3); left > 0; --left)
    tally[any_lateness(random)] = random.between(4000, LIMIT);
  for (uint32_t left = random.between(1, 20); left > 0; --left)
    tally[any_lateness(random)] = random.between(1, 3);
  tally[APART] = any_apart(random);
  return tally;
}

// Shares without a rest: 64 equal lots.
Tally exact(Random &random) {
  Tally tally{};
  const uint32_t lot = random.pick<uint32_t>({1, 3, 64, 1000, LIMIT / 64});
  for (uint32_t left = 64; left > 0; --left) tally[any_lateness(random)] += lot;
  tally[APART] = any_apart(random);
  return tally;
}

Tally heavy(Random &random) {
  Tally tally;
  for (uint32_t &count : tally) count = LIMIT - random.below(4) / 2;
  for (uint32_t left = random.pick<uint32_t>({0, 0, 1, 60}); left > 0; --left)
    tally[random.below(COUNTS)] = random.below(LIMIT + 1);
  if (random.one_in(4)) tally[MOST_LATE] = random.between(0, 1);
  return tally;
}

Tally nothing(Random &random) {
  Tally tally{};
  if (!random.one_in(4)) tally[APART] = any_apart(random);
  return tally;
}

Tally damaged(Random &random) {
  const std::vector<Tally (*)(Random &)> kinds = {sparse, dense, single, rare,
                                                  heavy,  heavy, nothing};
  Tally tally = random.pick(kinds)(random);
  for (uint32_t left = random.pick<uint32_t>({1, 1, 1, 2, 5}); left > 0;
       --left) {
    const size_t place = random.one_in(4) ? APART : any_lateness(random);
    tally[place] = random.one_in(2)
                       ? LIMIT + 1
                       : random.pick<uint32_t>(
                             {LIMIT + 2, 2 * LIMIT, 2147483648u,
                              GREATEST_NUMBER,
                              random.between(LIMIT + 1, GREATEST_NUMBER)});
  }
  return tally;
}

struct TallyKind {
  const char *name;
  Tally (*make)(Random &);
  uint32_t tickets;  // of a hundred
  uint32_t meant_for_table;
};

constexpr TallyKind KINDS[] = {{"tally sparse", sparse, 20, 0},
                               {"tally dense", dense, 20, 0},
                               {"tally single", single, 8, 0},
                               {"tally with rare ones", rare, 10, 0},
                               {"tally of equal lots", exact, 6, 0},
                               {"tally heavy", heavy, 14, 0},
                               {"nothing tallied", nothing, 8, 16},
                               {"tally damaged", damaged, 14, 15}};

const TallyKind &any_kind(Random &random) {
  uint32_t ticket = random.below(100);
  const TallyKind *kind = KINDS;
  for (; ticket >= kind->tickets; ++kind) ticket -= kind->tickets;
  return *kind;
}

}  // namespace

Sample sample(uint64_t seed) {
  Random random(seed);
  const bool minutes_damaged = random.one_in(8);
  const auto [kind, landing, count] =
      minutes_damaged ? damaged_landing(random) : right_landing(random);
  const TallyKind &its = any_kind(random);
  Tally tally = its.make(random);
  if (its.meant_for_table == 0 && random.one_in(6))
    tally[count] = LIMIT - random.below(2);
  const bool refused = its.meant_for_table == 15 || tally[count] == LIMIT;
  const uint32_t meant = minutes_damaged ? 14 : refused ? 15 : 0;
  return {its.name, kind,  tally, landing,
          count,    meant, its.meant_for_table, random.below(1000)};
}

// -------------------------------------------------------------------- logs

Logs logs(uint64_t seed) {
  Random random(~seed);
  const uint32_t length = random.one_in(10) ? random.below(4)
                                            : random.between(100, 400);
  const bool usual = random.one_in(2);  // hardly anyone far off the plan
  Log log;
  while (log.size() < length) {
    if (random.one_in(50))
      log.push_back(damaged_landing(random).landing);
    else if (usual && !random.one_in(4))
      log.push_back(late_by(random, random.below(12)));
    else
      log.push_back(right_landing(random).landing);
  }
  Log shuffled = log;
  random.shuffle(shuffled);
  return {log, shuffled};
}

}  // namespace second
