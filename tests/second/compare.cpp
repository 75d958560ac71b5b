// Compares the subject with the definitions on many small files, and the
// definitions with demands 2 and 3 on tiny ones.
//
//   compare [--self] [--files N] [--seed S] [--every E]
//
// --self needs no subject. Of the tiny files every E-th is enumerated.
#include <unistd.h>

#include <csignal>
#include <cstdio>
#include <cstdlib>
#include <cstring>
#include <ctime>
#include <fstream>
#include <map>
#include <string>

#include "calls.hpp"

using namespace second;

namespace {

// ----------------------------------------------------------------- tallies

std::map<std::string, uint64_t> tally;

void count(const std::string &kind, uint64_t times = 1) {
  tally[kind] += times;
}

std::string two_digits(uint32_t number) {
  return (number < 10 ? "0" : "") + std::to_string(number);
}

const char *const ENTRIES[3] = {"check", "plan", "earliest"};

void count_answer(const Call &call, const Answer &answer) {
  const std::string entry = ENTRIES[static_cast<size_t>(call.entry)] +
                            std::string(call.query.margin ? ", margin" : "") +
                            (call.query.gate ? ", gate" : "");
  count(entry + (answer[0] == 0 ? ": answered"
                                : ": refused " + std::to_string(answer[0])));
  if (call.entry != Entry::plan || answer[0] != 0) return;
  count("plans with bound code " + two_digits(call.query.code));
  count("plans of rides " + (answer[2] > 9 ? "10 and more"
                                           : two_digits(answer[2])));
}

void print_tally() {
  for (const auto &[kind, times] : tally)
    std::printf("%10llu  %s\n", static_cast<unsigned long long>(times),
                kind.c_str());
}

// -------------------------------------------------------------- complaints

void save(const Bytes &file, const std::string &text) {
  std::ofstream("difference.sailings", std::ios::binary)
      .write(reinterpret_cast<const char *>(file.data()),
             static_cast<std::streamsize>(file.size()));
  std::ofstream("difference.txt") << text;
}

[[noreturn]] void complain(uint64_t seed, const Bytes &file, const Call &call,
                           const std::string &what) {
  const std::string text = "seed " + std::to_string(seed) + ": " + what +
                           "\nreplay difference.sailings " + words_of(call) +
                           "\n";
  save(file, text);
  std::printf("%sfile of %zu bytes saved in difference.sailings\n",
              text.c_str(), file.size());
  std::exit(1);
}

// A subject that dies or hangs is a difference, too.
struct Watched {
  uint64_t seed;
  const Bytes *file;
  const Call *call;
} watched;

constexpr unsigned LONGEST_CALL_SECONDS = 60;

void subject_died(int signal_number) {
  std::signal(signal_number, SIG_DFL);
  if (!watched.file) std::exit(1);
  complain(watched.seed, *watched.file, *watched.call,
           "the call ended with signal " + std::to_string(signal_number));
}

void watch_signals() {
  for (int number : {SIGABRT, SIGSEGV, SIGFPE, SIGILL, SIGBUS, SIGALRM})
    std::signal(number, subject_died);
}

// --------------------------------------------------------- the definitions

std::vector<Ride> rides_of(const Plan &plan) {
  std::vector<Ride> rides;
  for (const PlannedRide &planned : plan.rides) rides.push_back(planned.ride);
  return rides;
}

// The plan is one of the safe plans, and its worths are those of its rides.
bool plan_is_itself_safe(const Sailings &sailings, const Query &query,
                         const Plan &plan) {
  const std::vector<Ride> rides = rides_of(plan);
  if (!is_safe_plan(sailings, query, plan.bound, rides)) return false;
  SetWorths worths(sailings, query, rides);
  for (size_t place = 0; place < rides.size(); ++place)
    if (worths.worth(rides[place]) != plan.rides[place].worth) return false;
  return expected_arrival(sailings, query, rides) == plan.expected;
}

bool passes(const Sailings &sailings, const Ride &ride, uint32_t stop) {
  for (const Ride &shorter : rides_from(sailings, ride.boards))
    if (shorter.leaves < ride.leaves &&
        left_row(sailings, shorter).landing == stop)
      return true;
  return false;
}

bool decided_by_row_number(const Sailings &sailings, Worths &worths,
                           size_t row) {
  for (size_t other = 0; other < row; ++other)
    if (sailings.rows[other].boarding == sailings.rows[row].boarding &&
        sailings.rows[other].departure == sailings.rows[row].departure &&
        worths.worth(other) == worths.worth(row))
      return true;
  return false;
}

void count_if(bool seen, const char *feature) {
  if (seen) count(std::string("looked into: ") + feature);
}

void count_features(const Sailings &sailings, const Query &query,
                    const Plan &plan) {
  Worths worths(sailings, query, plan.bound);
  Query unbounded = query;
  unbounded.code = 0;
  count_if(plan_of(sailings, unbounded)->expected != plan.expected,
           "plans that the bound makes worse");
  for (const PlannedRide &planned : plan.rides) {
    const Ride &ride = planned.ride;
    count_if(ride.leaves != ride.boards, "rides over several rows");
    count_if(passes(sailings, ride, query.target), "rides past the target");
    count_if(passes(sailings, ride, query.source), "rides past the source");
    count_if(decided_by_row_number(sailings, worths, ride.boards),
             "rides chosen by row number among equals");
    count_if(left_row(sailings, ride).landing == query.target &&
                 class_of(sailings, ride).maximum_delay > 0,
             "last rides with M above 0");
  }
}

// ---------------------------------------------------------- demands 2 and 3

constexpr size_t MOST_RIDES_FOR_SETS = 13;
constexpr uint64_t MOST_CHOICES = 4096;

bool closes_early(const Query &query) { return query.gate.value_or(0) > 0; }

std::string demand_2(const Sailings &sailings, const Query &query,
                     const std::optional<Plan> &plan) {
  const SafePlanCensus census = census_of_safe_plans(
      sailings, query, plan ? plan->bound : std::nullopt);
  count("demand 2: files and queries enumerated");
  count("demand 2: of these with a gate above 0", closes_early(query));
  count("demand 2: sets of rides tried", census.sets_tried);
  count("demand 2: safe plans found", census.safe_plans);
  if (earliest_by_listing(sailings, query) !=
      earliest_safe_arrival(sailings, query))
    return "E by listing all safe journeys differs";
  if (plan.has_value() != (census.safe_plans > 0))
    return "a safe plan exists and no safe journey, or the reverse";
  if (plan && census.least_expected != plan->expected)
    return "demand 2: least expected arrival of a safe plan is " +
           std::to_string(census.least_expected) + ", the plan's is " +
           std::to_string(plan->expected);
  return "";
}

std::string demand_3(const Sailings &sailings, const Query &query,
                     const Plan &plan) {
  const WalkCensus census = census_of_walks(sailings, query, plan);
  count("demand 3: plans walked under all delays");
  count("demand 3: of these with a gate above 0", closes_early(query));
  count("demand 3: choices of delays walked", census.choices);
  if (census.some_ride_only_at_share_zero)
    count("demand 3: plans with a ride caught only at share 0");
  if (census.longest_way < plan.rides.size())
    count("demand 3: plans longer than their longest way");
  if (census.longest_way != longest_way(sailings, query, plan))
    return "demand 3: the longest way, ride by ride, is another";
  if (census.holds()) return "";
  return std::string("demand 3:") +
         (census.ride_always_there ? "" : " no ride there") +
         (census.reached_by_latest ? "" : " after the latest minute") +
         (census.no_more_rides_than_plan ? "" : " more rides than the plan") +
         (census.every_ride_boarded ? "" : " a ride never boarded") +
         (census.mean_not_later ? "" : " mean later than expected") +
         (census.mean_within_ticks ? "" : " mean too early");
}

// ------------------------------------------------------ request E1: margins

const char *const ABOVE_1 = "margin above 1: plans";
const char *const OTHER_RIDES = "margin above 1: other rides than margin 1";
const char *const LATER = "margin above 1: expected later than margin 1";
const char *const BY_ALL = "margin above 1: later by (margin - 1) x L";
const char *const BY_ALL_LONG =
    "margin above 1: later by (margin - 1) x L, L above 1";

// "one is chosen only if its worth is at most that of the stop's current first
// chosen row minus the margin"
bool earlier_rides_gain(const Sailings &sailings, const Plan &plan,
                        uint32_t margin) {
  for (size_t later = 0; later < plan.rides.size(); ++later)
    for (size_t earlier = 0; earlier < later; ++earlier)
      if (boarded_row(sailings, plan.rides[earlier].ride).boarding ==
              boarded_row(sailings, plan.rides[later].ride).boarding &&
          plan.rides[earlier].worth + margin > plan.rides[later].worth)
        return false;
  return true;
}

// "Margin 1 is today's rule": every row's worth, and whether it is chosen.
bool margin_1_is_todays_rule(const Sailings &sailings, const Query &without,
                             const Query &with, const Bound &bound) {
  Worths today(sailings, without, bound), one(sailings, with, bound);
  for (size_t row = 0; row < sailings.rows.size(); ++row)
    if (today.worth(row) != one.worth(row) ||
        today.chosen(row) != one.chosen(row))
      return false;
  return true;
}

bool same_rides(const Plan &one, const Plan &two) {
  return std::equal(one.rides.begin(), one.rides.end(), two.rides.begin(),
                    two.rides.end(),
                    [](const PlannedRide &here, const PlannedRide &there) {
                      return here.ride.boards == there.ride.boards &&
                             here.ride.leaves == there.ride.leaves;
                    });
}

// "For others the expected arrival exceeds margin 1's by at most margin times
// the most rides along a way through margin 1's plan." Here the margin less 1:
// what gains the whole margin is not left out.
std::string later_by_too_much(const Sailings &sailings, const Query &query,
                              const Plan &plan, const Plan &least) {
  const uint32_t way = longest_way(sailings, query, least);
  const uint64_t most = least.expected + uint64_t{*query.margin - 1} * way;
  if (plan.expected < least.expected) return "E1: earlier than margin 1's";
  if (plan.expected > most)
    return "E1: later than margin 1's by more than (margin - 1) x " +
           std::to_string(way);
  const bool by_all = plan.expected == most;
  count(ABOVE_1);
  count(OTHER_RIDES, !same_rides(plan, least));
  count(LATER, plan.expected > least.expected);
  count(BY_ALL, by_all);
  count(BY_ALL_LONG, by_all && way > 1);
  return "";
}

std::string beside_margin_1(const Sailings &sailings, const Query &query,
                            const std::optional<Plan> &plan) {
  Query without = query;
  without.margin.reset();
  const std::optional<Plan> least = plan_of(sailings, without);
  if (plan.has_value() != least.has_value())
    return "E1: the margin decides whether there is a plan";
  if (!plan) return "";
  if (plan->bound != least->bound) return "E1: the margin moves the bound";
  if (*query.margin > 1)
    return later_by_too_much(sailings, query, *plan, *least);
  return margin_1_is_todays_rule(sailings, without, query, plan->bound)
             ? ""
             : "E1: margin 1 is not today's rule";
}

// -------------------------------------------------------- request E3: gates

const char *const ABOVE_0 = "gate above 0: plans";
const char *const SHUT_OUT = "gate above 0: no plan, with gate 0 there is one";
const char *const OTHER_PLAN = "gate above 0: another plan than gate 0";
const char *const OTHER_BOUND = "gate above 0: another bound than gate 0";
const char *const EARLIER_PLAN =
    "gate above 0: expected earlier than gate 0, by a greater bound";
const char *const A_MINUTE_MORE =
    "gate above 0: another plan or none if it closes a minute earlier";

Numbers worths_of(const Plan &plan) {
  Numbers worths;
  for (const PlannedRide &planned : plan.rides)
    worths.push_back(planned.worth);
  return worths;
}

bool same_plans(const std::optional<Plan> &one,
                const std::optional<Plan> &two) {
  if (!one || !two) return one.has_value() == two.has_value();
  return same_rides(*one, *two) && worths_of(*one) == worths_of(*two) &&
         one->expected == two->expected && one->latest == two->latest &&
         one->bound == two->bound;
}

// For one who boards, a gate is a boat that leaves so much earlier, and the
// minute at which it leaves plays no other part. Not asked where a boat would
// leave before minute 0; departures never fall, so the first row tells.
bool is_as_leaving_earlier(Sailings sailings, const Query &query,
                           const std::optional<Plan> &plan) {
  if (!sailings.rows.empty() && sailings.rows[0].departure < *query.gate)
    return true;
  for (Row &row : sailings.rows) row.departure -= *query.gate;
  return same_plans(plan, plan_of(sailings, with_gate(query, 0)));
}

// A gate that closes earlier takes choice away. With a bound the plan may yet
// be better, since the bound reads E.
std::string beside_gate_0(const Sailings &sailings, const Query &query,
                          const std::optional<Plan> &plan) {
  if (!is_as_leaving_earlier(sailings, query, plan))
    return "E3: not as if all boats left the gate's minutes earlier";
  const Query open = with_gate(query, 0);
  const std::optional<Plan> most = plan_of(sailings, open);
  if (plan && !most) return "E3: the gate makes a plan";
  count(SHUT_OUT, most && !plan);
  if (!plan) return "";
  if (earliest_safe_arrival(sailings, query) <
      earliest_safe_arrival(sailings, open))
    return "E3: the gate makes E earlier";
  const bool earlier = plan->expected < most->expected;
  if (earlier && query.code == 0 && !query.margin)
    return "E3: the gate makes the expected arrival earlier";
  count(ABOVE_0);
  count(OTHER_PLAN, !same_plans(plan, most));
  count(OTHER_BOUND, plan->bound != most->bound);
  count(EARLIER_PLAN, earlier && query.code != 0);
  count(A_MINUTE_MORE,
        !same_plans(plan,
                    plan_of(sailings, with_gate(query, *query.gate + 1))));
  return "";
}

// A run in which no margin or no gate made a difference shows nothing.
bool requests_were_tried() {
  bool tried = true;
  for (const char *kind :
       {ABOVE_1, OTHER_RIDES, LATER, BY_ALL, BY_ALL_LONG, ABOVE_0, SHUT_OUT,
        OTHER_PLAN, OTHER_BOUND, EARLIER_PLAN, A_MINUTE_MORE})
    if (tally[kind] == 0) {
      std::printf("never tried: %s\n", kind);
      tried = false;
    }
  return tried;
}

// What the definitions themselves must keep; empty if they do.
std::string doubts(const Bytes &file, const Call &call, bool enumerate) {
  const Sailings sailings = check_file(file).sailings;
  const std::optional<Plan> plan = plan_of(sailings, call.query);
  if (plan && !plan_is_itself_safe(sailings, call.query, *plan))
    return "the plan is not a safe plan with these worths";
  if (plan &&
      !earlier_rides_gain(sailings, *plan, call.query.margin.value_or(1)))
    return "an earlier ride of a stop gains less than the margin";
  if (plan && !call.query.margin)
    count_features(sailings, call.query, *plan);
  std::string doubt;
  if (call.query.margin)
    doubt = beside_margin_1(sailings, call.query, plan);
  else if (enumerate && all_rides(sailings).size() <= MOST_RIDES_FOR_SETS)
    doubt = demand_2(sailings, call.query, plan);
  if (doubt.empty() && closes_early(call.query))
    doubt = beside_gate_0(sailings, call.query, plan);
  const bool walk = enumerate || call.query.margin || call.query.gate;
  if (!doubt.empty() || !plan || !walk || plan->rides.size() > 8 ||
      !choices_of_delays(sailings, *plan, MOST_CHOICES))
    return doubt;
  return demand_3(sailings, call.query, *plan);
}

// ---------------------------------------------------------------- the runs

struct Options {
  bool self = false;
  uint64_t files = 100000, seed = 1, every = 5;
};

bool is_meant_sound(const Sample &made) {
  return made.shape != Shape::damaged && made.shape != Shape::edge &&
         made.shape != Shape::noise;
}

// A network has too many rides for demand 2 but often a short plan for 3.
bool is_tiny(const Sample &made) {
  return made.shape == Shape::tiny || made.shape == Shape::relay ||
         made.shape == Shape::passing || made.shape == Shape::network ||
         made.shape == Shape::close || made.shape == Shape::gated;
}

void try_call(const Options &options, uint64_t seed, const Sample &made,
              const Call &call, bool enumerate) {
  const Seen defined = by_definitions(made.file, call);
  count_answer(call, defined.answer);
  if (!options.self) {
    watched = {seed, &made.file, &call};
    alarm(LONGEST_CALL_SECONDS);
    const Seen got = by_subject(made.file, call);
    alarm(0);
    if (!same(defined, got))
      complain(seed, made.file, call,
               "difference\ndefinitions: " + text_of(defined, call) +
                   "\nsubject:     " + text_of(got, call));
  }
  const bool decided = defined.answer[0] == 0 || defined.answer[0] == 8;
  if (call.entry != Entry::plan || !decided) return;
  if (!options.self && !enumerate && !call.query.margin && !call.query.gate)
    return;
  const std::string doubt = doubts(made.file, call, enumerate);
  if (!doubt.empty()) complain(seed, made.file, call, doubt);
}

void try_files(const Options &options) {
  uint64_t tiny = 0;
  for (uint64_t seed = options.seed; seed < options.seed + options.files;
       ++seed) {
    const Sample made = sample(seed);
    count(std::string("files: ") + name_of(made.shape));
    if (is_meant_sound(made) && check_file(made.file).refusal.number != 0)
      complain(seed, made.file, made.calls[0], "meant sound and refused");
    const bool enumerate = is_tiny(made) && tiny++ % options.every == 0;
    for (const Call &call : made.calls)
      try_call(options, seed, made, call, enumerate);
  }
}

void try_house_share(const Options &options, uint32_t pair, uint32_t minute) {
  const Answer defined = house_by_definitions(pair, minute);
  count(defined[0] == 0 ? "house: shares" : "house: refused 6");
  if (options.self) return;
  const Answer got = house_by_subject(pair, minute);
  if (defined == got) return;
  std::printf("house %u %u: definitions%s, subject%s\n", pair, minute,
              text_of(defined).c_str(), text_of(got).c_str());
  std::exit(1);
}

// All 575 shares, and more than 100,000 pairs and minutes that no table has,
// among them those that a byte would take for others.
void try_house(const Options &options) {
  for (uint32_t pair = 0; pair < 320; ++pair)
    for (uint32_t minute = 0; minute < 320; ++minute)
      try_house_share(options, pair, minute);
  const uint32_t far[] = {255, 256, 257, 65535, 65536, 65537, 4294967295u};
  for (uint32_t number : far)
    for (uint32_t small = 0; small < 10; ++small) {
      try_house_share(options, small, number);
      try_house_share(options, number, small);
    }
  for (uint32_t number : far) try_house_share(options, number, number);
}

bool read_options(int words, char **arguments, Options &options) {
  for (int place = 1; place < words; ++place) {
    const char *word = arguments[place];
    if (std::strcmp(word, "--self") == 0) {
      options.self = true;
      continue;
    }
    uint64_t *value = std::strcmp(word, "--files") == 0   ? &options.files
                      : std::strcmp(word, "--seed") == 0  ? &options.seed
                      : std::strcmp(word, "--every") == 0 ? &options.every
                                                          : nullptr;
    if (!value || place + 1 == words) return false;
    *value = std::strtoull(arguments[++place], nullptr, 10);
  }
  return options.every > 0;
}

}  // namespace

int main(int words, char **arguments) {
  Options options;
  if (!read_options(words, arguments, options)) {
    std::fprintf(stderr,
                 "compare [--self] [--files N] [--seed S] [--every E]\n");
    return 2;
  }
  if (!options.self && !subject_is_there()) {
    std::fprintf(stderr, "built without a subject: only --self\n");
    return 2;
  }
  watch_signals();
  try_house(options);
  try_files(options);
  print_tally();
  if (!requests_were_tried()) return 1;
  std::printf("%llu files from seed %llu, %s: no difference, %.1f s\n",
              static_cast<unsigned long long>(options.files),
              static_cast<unsigned long long>(options.seed),
              options.self ? "definitions alone" : "with the subject",
              static_cast<double>(std::clock()) / CLOCKS_PER_SEC);
  return 0;
}
