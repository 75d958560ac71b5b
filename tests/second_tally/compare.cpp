// Compares the subject with the definitions on many tallies and some logs.
//
//   compare [--tallies N] [--seed S]
//
// Without a subject the definitions are compared with what each sample was
// made for.
#include <unistd.h>

#include <csignal>
#include <cstdio>
#include <cstdlib>
#include <ctime>
#include <fstream>
#include <map>

#include "../second/options.hpp"
#include "generate.hpp"

using namespace second;

namespace {

// ----------------------------------------------------------- how often what

std::map<std::string, uint64_t> by_kind;
std::map<uint32_t, uint64_t> landings_by_number, tables_by_number;

void print_line(uint64_t times, const std::string &what) {
  std::printf("%10llu  %s\n", static_cast<unsigned long long>(times),
              what.c_str());
}

void print_numbers(const std::map<uint32_t, uint64_t> &by_number,
                   const std::string &call, const std::string &done) {
  for (const auto &[number, times] : by_number)
    print_line(times, call + (number == 0 ? done : "refused " +
                                                       std::to_string(number)));
}

// Of an answer that never came the run tells nothing.
bool all_came(std::map<uint32_t, uint64_t> &by_number, const char *call,
              const std::vector<uint32_t> &numbers) {
  bool all = true;
  for (uint32_t number : numbers)
    if (by_number[number] == 0) {
      std::printf("never occurred: %s %u\n", call, number);
      all = false;
    }
  return all;
}

// -------------------------------------------------------------- complaints

struct Watched {
  uint64_t seed = 0;
  std::string kind;
  Request request;
} watched;

[[noreturn]] void complain(const std::string &what) {
  const std::string words = "seed " + std::to_string(watched.seed) + ", " +
                            watched.kind + ": " + words_of(watched.request) +
                            "\n" + what + "\n";
  std::ofstream("difference.txt") << words;
  std::printf("%sthis is in difference.txt, too\n", words.c_str());
  std::exit(1);
}

constexpr unsigned LONGEST_SECONDS = 60;  // for all calls of a seed

// To die or to hang is a difference, too.
void subject_died(int signal_number) {
  std::signal(signal_number, SIG_DFL);
  complain("the call ended with signal " + std::to_string(signal_number));
}

void watch_signals() {
  for (int number : {SIGABRT, SIGSEGV, SIGFPE, SIGILL, SIGBUS, SIGALRM})
    std::signal(number, subject_died);
}

// --------------------------------------------------------------- one call

Seen compared(const std::string &kind, const Request &request) {
  watched.kind = kind;
  watched.request = request;
  const Seen defined = by_definitions(request);
  const uint32_t number = defined.answer[0];
  ++(request.landing ? landings_by_number : tables_by_number)[number];
  if (subject_is_there()) {
    const Seen got = by_subject(request);
    if (!same(defined, got)) complain(difference_between(defined, got));
  }
  if (!request.landing && number == 0 &&
      !check_accepts(defined.answer[2], defined.shares))
    complain("the check does not accept the table");
  return defined;
}

void expect_meant(uint32_t meant, const Seen &seen) {
  if (seen.answer[0] != meant)
    complain("meant as " + std::to_string(meant) + ", answered" +
             text_of(seen.answer));
}

// --------------------------------------------------------- tallies and logs

void try_tally(uint64_t seed) {
  const Sample made = sample(seed);
  ++by_kind[made.tally_kind];
  ++by_kind[made.landing_kind];
  const std::string kind = made.tally_kind + ", " + made.landing_kind;
  const Seen counted = compared(kind, {made.landing, made.tally, made.dirt});
  expect_meant(made.meant_for_landing, counted);
  Tally meant = made.tally;
  if (made.meant_for_landing == 0) ++meant[made.meant_count];
  if (counted.tally != meant) complain("meant for another count");
  expect_meant(made.meant_for_table,
               compared(kind, {std::nullopt, made.tally, made.dirt}));
}

// Landing by landing, from an empty tally.
Tally tallied(const std::string &kind, const Log &log) {
  Tally tally{};
  for (const Landing &landing : log)
    tally = compared(kind, {landing, tally}).tally;
  return tally;
}

void expect_shares(const Log &log, const Seen &table) {
  uint32_t cumulative = 0;
  for (size_t late = 0; late <= table.answer[2]; ++late) {
    cumulative += table.shares[late];
    if (cumulative != cumulative_share(log, late))
      complain("not the log's share at " + std::to_string(late));
  }
}

void try_log(uint64_t seed) {
  const auto [log, shuffled] = logs(seed);
  ++by_kind["log"];
  const Tally tally = tallied("log", log);
  if (tally != recount(log)) complain("not the recount of the log");
  if (tally != tallied("shuffled log", shuffled))
    complain("not the tally of the log before it was shuffled");
  const Seen table = compared("table of a log", {std::nullopt, tally});
  if (table.answer[0] == 0) expect_shares(log, table);
}

constexpr uint64_t TALLIES_FOR_A_LOG = 100;

void try_seed(uint64_t seed) {
  watched.seed = seed;
  alarm(LONGEST_SECONDS);
  try_tally(seed);
  if (seed % TALLIES_FOR_A_LOG == 0) try_log(seed);
  alarm(0);
}

// --------------------------------------------------------------- the run

struct Options {
  uint64_t tallies = 100000, seed = 1;
};

}  // namespace

int main(int words, char **arguments) {
  Options options;
  if (!read_options(words, arguments,
                    {{"--tallies", &options.tallies}, {"--seed", &options.seed}})) {
    std::fprintf(stderr, "compare [--tallies N] [--seed S]\n");
    return 2;
  }
  watch_signals();
  for (uint64_t tally = 0; tally < options.tallies; ++tally)
    try_seed(options.seed + tally);
  for (const auto &[kind, times] : by_kind) print_line(times, kind);
  print_numbers(landings_by_number, "landing ", "counted");
  print_numbers(tables_by_number, "table ", "made");
  const bool landings = all_came(landings_by_number, "landing", {0, 14, 15});
  const bool tables = all_came(tables_by_number, "table", {0, 15, 16});
  if (!landings || !tables) return 1;
  std::printf("%llu tallies from seed %llu, %s: no difference, %.1f s\n",
              static_cast<unsigned long long>(options.tallies),
              static_cast<unsigned long long>(options.seed),
              subject_is_there() ? "with the subject" : "definitions alone",
              static_cast<double>(std::clock()) / CLOCKS_PER_SEC);
  return 0;
}
