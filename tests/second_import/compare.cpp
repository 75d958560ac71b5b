// Compares the subject with the definitions on many texts.
//
//   compare [--texts N] [--seed S]
//
// Built without a subject it compares the definitions with what the generator
// meant, alone.
#include <unistd.h>

#include <csignal>
#include <cstdio>
#include <cstdlib>
#include <ctime>
#include <fstream>

#include "../second/options.hpp"
#include "generate.hpp"

using namespace second;

namespace {

// ----------------------------------------------------------------- tallies

std::map<uint32_t, uint64_t> by_number;
std::map<std::string, uint64_t> by_kind;

void print_line(uint64_t times, const std::string &what) {
  std::printf("%10llu  %s\n", static_cast<unsigned long long>(times),
              what.c_str());
}

void print_tallies() {
  for (const auto &[kind, times] : by_kind) print_line(times, kind);
  for (const auto &[number, times] : by_number)
    print_line(times, number == 0 ? "written"
                                  : "refused " + std::to_string(number));
}

// A run that never led to one of the answers shows nothing about it.
bool every_answer_occurred() {
  bool all = true;
  for (uint32_t number : {0, 1, 4, 5, 6, 7, 9, 11, 12, 13})
    if (by_number[number] == 0) {
      std::printf("never occurred: %u\n", number);
      all = false;
    }
  return all;
}

// -------------------------------------------------------------- complaints

[[noreturn]] void complain(uint64_t seed, const Sample &made,
                           const std::string &what) {
  const Text &text = made.request.text;
  std::ofstream("difference.stop_times", std::ios::binary) << text;
  const std::string words = "seed " + std::to_string(seed) + ", " + made.kind +
                            ": " + words_of(made.request) + "\n" + what + "\n";
  std::ofstream("difference.txt") << words;
  std::printf("%sthe text is in difference.stop_times\n", words.c_str());
  std::exit(1);
}

// A subject that dies or hangs is a difference, too.
struct Watched {
  uint64_t seed;
  const Sample *made;
} watched;

constexpr unsigned LONGEST_CALL_SECONDS = 60;

void subject_died(int signal_number) {
  std::signal(signal_number, SIG_DFL);
  complain(watched.seed, *watched.made,
           "the call ended with signal " + std::to_string(signal_number));
}

void watch_signals() {
  for (int number : {SIGABRT, SIGSEGV, SIGFPE, SIGILL, SIGBUS, SIGALRM})
    std::signal(number, subject_died);
}

// ---------------------------------------------------------------- the runs

struct Options {
  uint64_t texts = 100000, seed = 1;
};

void try_text(uint64_t seed) {
  const Sample made = sample(seed);
  watched = {seed, &made};
  const Seen defined = by_definitions(made.request);
  ++by_kind[made.kind];
  ++by_number[defined.answer[0]];
  if (made.meant && *made.meant != defined.answer[0])
    complain(seed, made, "meant as " + std::to_string(*made.meant) +
                             ", the definitions answer" +
                             text_of(defined.answer));
  if (!subject_is_there()) return;
  alarm(LONGEST_CALL_SECONDS);
  const Seen got = by_subject(made.request);
  alarm(0);
  if (!same(defined, got))
    complain(seed, made, difference_between(defined, got));
}

}  // namespace

int main(int words, char **arguments) {
  Options options;
  if (!read_options(words, arguments,
                    {{"--texts", &options.texts}, {"--seed", &options.seed}})) {
    std::fprintf(stderr, "compare [--texts N] [--seed S]\n");
    return 2;
  }
  watch_signals();
  for (uint64_t text = 0; text < options.texts; ++text)
    try_text(options.seed + text);
  print_tallies();
  if (!every_answer_occurred()) return 1;
  std::printf("%llu texts from seed %llu, %s: no difference, %.1f s\n",
              static_cast<unsigned long long>(options.texts),
              static_cast<unsigned long long>(options.seed),
              subject_is_there() ? "with the subject" : "definitions alone",
              static_cast<double>(std::clock()) / CLOCKS_PER_SEC);
  return 0;
}
