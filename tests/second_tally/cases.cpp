// Both sides of each line of request E4, on the definitions and, if there is
// one, on the subject.
#include <algorithm>
#include <cstdio>
#include <utility>

#include "sides.hpp"

using namespace second;

namespace {

int failures = 0, passed = 0;

void expect_side(const char *side, const std::string &what,
                 const Seen &wanted, const Seen &got) {
  if (same(wanted, got)) {
    ++passed;
    return;
  }
  ++failures;
  std::printf("FAILED, %s: %s\n%s\n", side, what.c_str(),
              difference_between(wanted, got).c_str());
}

void expect(const std::string &what, const Request &request,
            const Seen &wanted) {
  expect_side("definitions", what, wanted, by_definitions(request));
  if (subject_is_there())
    expect_side("subject", what, wanted, by_subject(request));
}

using Counts = std::vector<std::pair<size_t, uint32_t>>;

Tally tally_of(const Counts &counts) {
  Tally tally{};
  for (const auto &[place, count] : counts) tally[place] = count;
  return tally;
}

// A different count at each place.
Tally all_different() {
  Tally tally;
  for (size_t place = 0; place < COUNTS; ++place)
    tally[place] = static_cast<uint32_t>(7000 + 13 * place);
  return tally;
}

Tally all_alike(uint32_t count) {
  Tally tally;
  tally.fill(count);
  return tally;
}

// ---------------------------------------------------- what a call must do

// The count at this place grows by one, all others stay.
void counted(const std::string &what, const Landing &landing,
             const Tally &tally, size_t place) {
  Tally later = tally;
  later[place] += 1;
  expect(what, {landing, tally}, {{0, 0, 0, 0, 0, 0}, later, dirty(0), true});
}

void not_counted(const std::string &what, const Landing &landing,
                 const Tally &tally, uint32_t number) {
  expect(what, {landing, tally},
         {{number, 0, 0, 0, 0, 0}, tally, dirty(0), true});
}

struct Table {
  uint32_t greatest, landings, apart;
  std::vector<uint32_t> shares;
};

void made(const std::string &what, const Tally &tally, const Table &table) {
  for (uint32_t dirt : {0, 1}) {
    Shares later = dirty(dirt);
    std::copy(table.shares.begin(), table.shares.end(), later.begin());
    expect(what, {std::nullopt, tally, dirt},
           {{0, 0, table.greatest, table.landings, table.apart, 0},
            tally, later, true});
    if (check_accepts(table.greatest, later)) continue;
    ++failures;
    std::printf("FAILED: %s is no table for the check\n", what.c_str());
  }
}

void not_made(const std::string &what, const Tally &tally, uint32_t number) {
  expect(what, {std::nullopt, tally},
         {{number, 0, 0, 0, 0, 0}, tally, dirty(0), true});
}

// The first share and the last, with none between.
std::vector<uint32_t> ends(uint32_t first, size_t greatest, uint32_t last) {
  std::vector<uint32_t> shares(greatest + 1, 0);
  shares.front() = first;
  shares.back() = last;
  return shares;
}

// --------------------------------------------------------------- lateness

void landing_at(uint32_t planned, uint32_t actual, size_t place) {
  const std::string what = "planned " + std::to_string(planned) + " actual " +
                           std::to_string(actual);
  counted(what, {planned, actual}, tally_of({}), place);
  counted(what + ", others there", {planned, actual}, all_different(), place);
}

void latenesses() {
  landing_at(600, 600, 0);
  landing_at(600, 601, 1);
  landing_at(600, 602, 2);
  landing_at(600, 660, 60);
  landing_at(600, 719, 119);
  landing_at(600, 720, 120);
  landing_at(600, 721, 121);
  landing_at(600, 722, 121);
  landing_at(600, 855, 121);
  landing_at(600, 856, 121);
  landing_at(600, 857, 121);
  landing_at(600, 1112, 121);
  for (uint32_t late = 0; late <= 120; ++late)
    landing_at(1440, 1440 + late, late);
}

void early_landings() {
  landing_at(600, 599, 0);
  landing_at(600, 598, 0);
  landing_at(600, 480, 0);
  landing_at(600, 479, 0);
  landing_at(600, 344, 0);
  landing_at(600, 0, 0);
  landing_at(1, 0, 0);
  landing_at(10079, 10078, 0);
  landing_at(10079, 0, 0);
}

void first_and_last_minutes() {
  landing_at(0, 0, 0);
  landing_at(0, 1, 1);
  landing_at(0, 119, 119);
  landing_at(0, 120, 120);
  landing_at(0, 121, 121);
  landing_at(0, 10078, 121);
  landing_at(0, 10079, 121);
  landing_at(10079, 10079, 0);
  landing_at(10078, 10079, 1);
  landing_at(9960, 10079, 119);
  landing_at(9959, 10079, 120);
  landing_at(9958, 10079, 121);
}

// ---------------------------------------------------------------- minutes

void minutes_too_great() {
  const Landing landings[] = {
      {10080, 10079}, {10079, 10080}, {10080, 10080}, {10080, 0},
      {0, 10080},     {10080, 10200}, {10000, 10100}, {10081, 600},
      {600, 10081},   {40319, 40319}, {600, 40319},   {65535, 65535},
      {65536, 0},     {0, 65536},     {66136, 66136}, {66136, 600},
      {600, 66137},   {2147483648u, 2147483648u},     {2147483648u, 600},
      {600, 2147483648u},             {4294967295u, 4294967295u},
      {4294967295u, 0},               {0, 4294967295u},
      {4294967295u, 10079},           {10079, 4294967295u},
      {4294967295u, 2147483647u},     {2147483647u, 4294967295u}};
  for (const auto &[planned, actual] : landings) {
    const std::string what = "planned " + std::to_string(planned) +
                             " actual " + std::to_string(actual);
    not_counted(what, {planned, actual}, tally_of({}), 14);
    not_counted(what + ", others there", {planned, actual}, all_different(),
                14);
    not_counted(what + ", 14 before a count above its limit",
                {planned, actual}, tally_of({{60, 1000001}}), 14);
    not_counted(what + ", 14 before counts at their limit", {planned, actual},
                all_alike(1000000), 14);
    not_counted(what + ", 14 before every count above its limit",
                {planned, actual}, all_alike(4294967295u), 14);
  }
}

// ------------------------------------------------------ the counts' limits

const struct {
  size_t place;
  Landing landing;
} OWN[] = {{0, {600, 600}},   {0, {600, 599}},   {1, {600, 601}},
           {60, {600, 660}},  {119, {600, 719}}, {120, {600, 720}},
           {121, {600, 721}}, {121, {0, 10079}}};

void own_count() {
  for (const auto &[place, landing] : OWN) {
    const std::string own = "its own count " + std::to_string(place);
    counted(own + " at 999,998", landing, tally_of({{place, 999998}}), place);
    counted(own + " at 999,999", landing, tally_of({{place, 999999}}), place);
    for (uint32_t count : {1000000u, 1000001u, 1000002u, 4294967295u})
      not_counted(own + " at " + std::to_string(count), landing,
                  tally_of({{place, count}}), 15);
    Tally others = all_alike(1000000);
    not_counted(own + ", all at 1,000,000", landing, others, 15);
    others[place] = 999999;
    counted(own + " alone at 999,999", landing, others, place);
    others[place] = 0;
    counted(own + " alone at 0", landing, others, place);
  }
}

void another_count() {
  for (const auto &[own, landing] : OWN)
    for (size_t place = 0; place < COUNTS; ++place) {
      if (place == own) continue;
      const std::string what = "landing of count " + std::to_string(own) +
                               ", count " + std::to_string(place) + " at ";
      for (uint32_t count : {999999u, 1000000u})
        counted(what + std::to_string(count), landing,
                tally_of({{place, count}}), own);
      for (uint32_t count : {1000001u, 4294967295u})
        not_counted(what + std::to_string(count), landing,
                    tally_of({{place, count}}), 15);
    }
  not_counted("one above its limit, its own at it", {600, 601},
              tally_of({{1, 1000000}, {121, 1000001}}), 15);
}

void counts_of_a_table() {
  for (uint32_t place = 0; place <= 120; ++place) {
    const std::string what = "table, count " + std::to_string(place) + " at ";
    for (uint32_t count : {1u, 999999u, 1000000u})
      made(what + std::to_string(count), tally_of({{place, count}}),
           {place, count, 0, ends(0, place, 4096)});
    for (uint32_t count : {1000001u, 1000002u, 4294967295u}) {
      not_made(what + std::to_string(count), tally_of({{place, count}}), 15);
      not_made(what + std::to_string(count) + ", others there",
               tally_of({{place == 0 ? 1 : 0, 5}, {place, count}}), 15);
    }
  }
  for (uint32_t apart : {1u, 999999u, 1000000u})
    made("table, apart " + std::to_string(apart),
         tally_of({{3, 2}, {121, apart}}), {3, 2, apart, {0, 0, 0, 4096}});
  for (uint32_t apart : {1000001u, 1000002u, 4294967295u})
    not_made("table, apart " + std::to_string(apart),
             tally_of({{3, 2}, {121, apart}}), 15);
}

// ----------------------------------------------------------------- nothing

void nothing_tallied() {
  not_made("no landing at all", tally_of({}), 16);
  for (uint32_t apart : {1u, 2u, 999999u, 1000000u})
    not_made("none but apart", tally_of({{121, apart}}), 16);
  for (uint32_t apart : {1000001u, 4294967295u})
    not_made("15 before 16", tally_of({{121, apart}}), 15);
  made("one and none apart", tally_of({{0, 1}}), {0, 1, 0, {4096}});
  made("one, and one apart", tally_of({{0, 1}, {121, 1}}), {0, 1, 1, {4096}});
}

// ------------------------------------------------------------------ shares

void small_tables() {
  made("one, 5 late", tally_of({{5, 1}}), {5, 1, 0, {0, 0, 0, 0, 0, 4096}});
  made("one each at 0 and 1", tally_of({{0, 1}, {1, 1}}),
       {1, 2, 0, {2048, 2048}});
  made("one each at 0, 1 and 2", tally_of({{0, 1}, {1, 1}, {2, 1}}),
       {2, 3, 0, {1365, 1365, 1366}});
  made("a million each at 0, 1 and 2",
       tally_of({{0, 1000000}, {1, 1000000}, {2, 1000000}}),
       {2, 3000000, 0, {1365, 1365, 1366}});
  made("seven with gaps",
       tally_of({{1, 1}, {3, 1}, {4, 1}, {5, 1}, {6, 1}, {7, 1}, {9, 1}}),
       {9, 7, 0, {0, 585, 0, 585, 585, 585, 585, 585, 0, 586}});
  made("apart in neither number", tally_of({{0, 1}, {1, 3}, {121, 1000000}}),
       {1, 4, 1000000, {1024, 3072}});
  made("apart in neither number, with 120",
       tally_of({{0, 3}, {120, 1}, {121, 4}}),
       {120, 4, 4, ends(3072, 120, 1024)});
}

void rounding() {
  made("1 of 5,000 at 0", tally_of({{0, 1}, {3, 4999}}),
       {3, 5000, 0, {0, 0, 0, 4096}});
  made("1 of 5,000 in the middle", tally_of({{0, 2500}, {2, 1}, {4, 2499}}),
       {4, 5000, 0, {2048, 0, 0, 0, 2048}});
  made("1 of 5,000 at the end", tally_of({{0, 4999}, {7, 1}}),
       {7, 5000, 0, {4095, 0, 0, 0, 0, 0, 0, 1}});
  made("two rare ones, one of them seen",
       tally_of({{2, 5000}, {3, 1}, {5, 1}, {8, 5000}}),
       {8, 10002, 0, {0, 0, 2047, 1, 0, 0, 0, 0, 2048}});
  made("1 of 4,096", tally_of({{0, 1}, {1, 4095}}), {1, 4096, 0, {1, 4095}});
  made("1 of 4,097", tally_of({{0, 1}, {1, 4096}}), {1, 4097, 0, {0, 4096}});
  made("4,095 of 4,096", tally_of({{0, 4095}, {1, 1}}),
       {1, 4096, 0, {4095, 1}});
  made("4,096 of 4,097", tally_of({{0, 4096}, {1, 1}}),
       {1, 4097, 0, {4095, 1}});
  made("just below half", tally_of({{0, 999999}, {1, 1000000}}),
       {1, 1999999, 0, {2047, 2049}});
  made("1,048,576 landings", tally_of({{0, 1000000}, {1, 48576}}),
       {1, 1048576, 0, {3906, 190}});
  made("1,048,577 landings", tally_of({{0, 1000000}, {1, 48576}, {2, 1}}),
       {2, 1048577, 0, {3906, 189, 1}});
}

// 34 in every place, but for those named.
std::vector<uint32_t> shares_but(uint32_t other,
                                 const std::vector<size_t> &places) {
  std::vector<uint32_t> shares(121, 34);
  for (size_t place : places) shares[place] = other;
  return shares;
}

void full_tallies() {
  const std::vector<uint32_t> alike =
      shares_but(33, {0,  6,  13, 20, 26, 33, 40,  47,  53,
                      60, 67, 73, 80, 87, 94, 100, 107, 114});
  made("one of each", all_alike(1), {120, 121, 1, alike});
  made("a million of each", all_alike(1000000),
       {120, 121000000, 1000000, alike});
  Tally but_one = all_alike(1000000);
  but_one[120] = 1;
  std::vector<uint32_t> shares =
      shares_but(35, {7,  15, 22, 30, 37, 45,  52,  60,
                      67, 75, 82, 90, 97, 105, 112});
  shares[120] = 1;
  made("a million of each but one at 120", but_one,
       {120, 120000001, 1000000, shares});
  for (size_t place = 0; place < COUNTS; ++place) {
    Tally too_many = all_alike(1000000);
    too_many[place] = 1000001;
    not_made("a million of each, one more at " + std::to_string(place),
             too_many, 15);
  }
  not_made("each above its limit", all_alike(1000001), 15);
  not_made("each at the greatest number", all_alike(4294967295u), 15);
}

}  // namespace

int main() {
  latenesses();
  early_landings();
  first_and_last_minutes();
  minutes_too_great();
  own_count();
  another_count();
  counts_of_a_table();
  nothing_tallied();
  small_tables();
  rounding();
  full_tallies();
  std::printf("%d cases passed, %d failed\n", passed, failures);
  return failures == 0 ? 0 : 1;
}
