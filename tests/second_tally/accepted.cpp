// A made table in the smallest sailing file that can hold it.
#include "../second/definitions.hpp"
#include "sides.hpp"

namespace second {
namespace {

void put_u16(Bytes &file, uint32_t number) {
  file.push_back(static_cast<uint8_t>(number % 256));
  file.push_back(static_cast<uint8_t>(number / 256 % 256));
}

// Two stops, no rows, one class; both sections start at 0.
Bytes file_with(const Numbers &shares) {
  Bytes file;
  put_u16(file, static_cast<uint32_t>(shares.size() - 1));
  for (uint32_t share : shares) put_u16(file, share);
  const uint32_t version = 1, stops = 2, rows = 0, classes = 1;
  for (uint32_t number : {version, stops, rows, classes}) put_u16(file, number);
  file.insert(file.end(), 8, 0);
  return file;
}

}  // namespace

bool check_accepts(uint32_t greatest, const Shares &shares) {
  if (greatest >= shares.size()) return false;
  const Numbers table(shares.begin(), shares.begin() + greatest + 1);
  const CheckedFile checked = check_file(file_with(table));
  // a share too great for its two bytes would be read back as another
  return checked.refusal.number == 0 &&
         checked.sailings.classes.at(0).shares == table;
}

}  // namespace second
