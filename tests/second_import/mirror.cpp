// The definitions themselves as a subject, to try the comparison on.
#include <algorithm>

#include "import.hpp"
#include "trial_import.h"

using namespace second;

extern "C" void trial_import(const uint8_t *text, size_t text_len,
                             uint32_t day, uint8_t *out, size_t out_len,
                             uint32_t *answer, size_t) {
  Bytes lent(out, out + out_len);
  const ImportAnswer got = import_call(Text(text, text + text_len), day, lent);
  std::copy(lent.begin(), lent.end(), out);
  const std::array<uint32_t, 6> given = {got.number, got.place,   got.stops,
                                         got.rows,   got.classes, got.length};
  std::copy(given.begin(), given.end(), answer);
}
