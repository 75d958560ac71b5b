// Replays one call: replay FILE WORDS.., with the words as compare prints them.
#include <cstdio>
#include <fstream>
#include <iterator>

#include "calls.hpp"

using namespace second;

namespace {

Bytes read_file(const char *name) {
  std::ifstream input(name, std::ios::binary);
  return Bytes(std::istreambuf_iterator<char>(input),
               std::istreambuf_iterator<char>());
}

void print_rows(const CheckedFile &checked) {
  for (const SailingClass &table : checked.sailings.classes) {
    std::printf("class M %u:", table.maximum_delay);
    for (uint32_t share : table.shares) std::printf(" %u", share);
    std::printf("\n");
  }
  for (const Row &row : checked.sailings.rows)
    std::printf("row %u %u %u %u %u %u\n", row.boarding, row.landing,
                row.departure, row.arrival, row.trip, row.sailing_class);
}

}  // namespace

int main(int count, char **arguments) {
  Call call;
  if (count < 3 || !call_from_words({arguments + 2, arguments + count}, call)) {
    std::fprintf(stderr,
                 "replay FILE plan|earliest|check SOURCE TARGET MINUTE CODE "
                 "WORK-LENGTH PLAN-LENGTH DIRT [margin MARGIN] [gate GATE]\n");
    return 2;
  }
  const Bytes file = read_file(arguments[1]);
  print_rows(check_file(file));
  const Seen defined = by_definitions(file, call);
  std::printf("definitions: %s\n", text_of(defined, call).c_str());
  if (!subject_is_there()) return 0;
  const Seen got = by_subject(file, call);
  std::printf("subject:     %s\n", text_of(got, call).c_str());
  return same(defined, got) ? 0 : 1;
}
