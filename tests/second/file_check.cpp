// Document 01, "The sailing file" and refusals 1 to 5.
#include "definitions.hpp"

namespace second {
namespace {

constexpr uint64_t TRAILER_LENGTH = 16;
constexpr uint64_t ROW_LENGTH = 12;
constexpr uint32_t LAST_MINUTE = 10079;

// "Numbers are little-endian."
uint32_t u16_at(const Bytes &file, uint64_t place) {
  return file.at(place) + 256u * file.at(place + 1);
}

uint32_t u32_at(const Bytes &file, uint64_t place) {
  return u16_at(file, place) + 65536u * u16_at(file, place + 2);
}

struct Trailer {
  uint32_t version, stops, rows, classes;
  uint64_t row_offset, table_offset;
};

// "The last 16 bytes are a trailer that points back: version (u16, 1), stops S
// (u16), rows n (u16), classes K (u16), row offset (u32), table offset (u32)."
Trailer read_trailer(const Bytes &file) {
  const uint64_t start = file.size() - TRAILER_LENGTH;
  return {u16_at(file, start),     u16_at(file, start + 2),
          u16_at(file, start + 4), u16_at(file, start + 6),
          u32_at(file, start + 8), u32_at(file, start + 12)};
}

// "file length | 20 to 27,920 bytes"
bool length_in_range(const Bytes &file) {
  return 20 <= file.size() && file.size() <= 27920;
}

// "S | 2 to 200", "n | 0 to 2,000", "K | 1 to 16", version 1.
bool trailer_in_range(const Trailer &trailer) {
  return trailer.version == 1 &&
         2 <= trailer.stops && trailer.stops <= 200 &&
         trailer.rows <= 2000 &&
         1 <= trailer.classes && trailer.classes <= 16;
}

// "maximum delay of a class | 0 to 120"
bool maximum_in_range(uint32_t maximum) { return maximum <= 120; }

// "Shares sum to 4,096. The last is at least 1; others may be 0."
bool shares_are_right(const std::vector<uint32_t> &shares) {
  uint64_t sum = 0;
  for (uint32_t share : shares) sum += share;
  return sum == 4096 && shares.back() >= 1;
}

// "class by class (M's two bytes fit, else 2; M, else 3; shares fit, else 2;
// sum and last share, else 3)". The block starts at `place`, which moves on to
// the block's end.
Refusal read_class(const Bytes &file, uint64_t trailer_start, uint32_t number,
                   uint64_t &place, SailingClass &read) {
  if (place + 2 > trailer_start) return {2, 0};
  read.maximum_delay = u16_at(file, place);
  place += 2;
  if (!maximum_in_range(read.maximum_delay)) return {3, number};
  if (place + 2 * (read.maximum_delay + 1) > trailer_start) return {2, 0};
  for (uint32_t delay = 0; delay <= read.maximum_delay; ++delay) {
    read.shares.push_back(u16_at(file, place));
    place += 2;
  }
  if (!shares_are_right(read.shares)) return {3, number};
  return {};
}

// "one starts at 0, the other starts where that one ends, and the second ends
// where the trailer starts."
bool follow_each_other(uint64_t first_start, uint64_t first_end,
                       uint64_t second_start, uint64_t second_end,
                       uint64_t trailer_start) {
  return first_start == 0 && second_start == first_end &&
         second_end == trailer_start;
}

// "Ahead of it stand two sections in either order"
bool sections_join(const Trailer &trailer, uint64_t table_end,
                   uint64_t trailer_start) {
  const uint64_t row_end = trailer.row_offset + ROW_LENGTH * trailer.rows;
  return follow_each_other(trailer.row_offset, row_end, trailer.table_offset,
                           table_end, trailer_start) ||
         follow_each_other(trailer.table_offset, table_end, trailer.row_offset,
                           row_end, trailer_start);
}

// "A row has six u16: boarding stop, landing stop, departure, arrival, trip,
// class."
Row read_row(const Bytes &file, uint64_t place) {
  return {u16_at(file, place),     u16_at(file, place + 2),
          u16_at(file, place + 4), u16_at(file, place + 6),
          u16_at(file, place + 8), u16_at(file, place + 10)};
}

// "Stops are below S and differ; departure is less than arrival; trip is below
// 2,000; class is below K." "minutes in rows and query | 0 to 10,079"
bool row_is_right_alone(const Row &row, const Trailer &trailer) {
  return row.boarding < trailer.stops && row.landing < trailer.stops &&
         row.boarding != row.landing && row.departure < row.arrival &&
         row.departure <= LAST_MINUTE && row.arrival <= LAST_MINUTE &&
         row.trip < 2000 && row.sailing_class < trailer.classes;
}

// "Departures never fall from row to row."
bool departure_does_not_fall(const std::vector<Row> &earlier, const Row &row) {
  return earlier.empty() || earlier.back().departure <= row.departure;
}

// "The nearest earlier row of the same trip, found by looking back and
// stopping at the first, must land at this row's boarding stop, no later than
// its departure."
bool trip_goes_on(const std::vector<Row> &earlier, const Row &row) {
  for (size_t back = earlier.size(); back > 0; --back) {
    const Row &before = earlier[back - 1];
    if (before.trip == row.trip)
      return before.landing == row.boarding && before.arrival <= row.departure;
  }
  return true;
}

CheckedFile refused(Refusal refusal) { return {refusal, {}}; }

}  // namespace

// "Order: 1; then class by class (..); then joining (2); then row by row, 4
// before 5"
CheckedFile check_file(const Bytes &file) {
  if (!length_in_range(file)) return refused({1, 0});
  const Trailer trailer = read_trailer(file);
  if (!trailer_in_range(trailer)) return refused({1, 0});

  const uint64_t trailer_start = file.size() - TRAILER_LENGTH;
  CheckedFile answer;
  answer.sailings.stops = trailer.stops;
  uint64_t place = trailer.table_offset;
  for (uint32_t number = 0; number < trailer.classes; ++number) {
    SailingClass read;
    const Refusal refusal =
        read_class(file, trailer_start, number, place, read);
    if (refusal.number != 0) return refused(refusal);
    answer.sailings.classes.push_back(read);
  }
  if (!sections_join(trailer, place, trailer_start)) return refused({2, 0});

  std::vector<Row> &rows = answer.sailings.rows;
  for (uint32_t number = 0; number < trailer.rows; ++number) {
    const Row row = read_row(file, trailer.row_offset + ROW_LENGTH * number);
    if (!row_is_right_alone(row, trailer)) return refused({4, number});
    if (!departure_does_not_fall(rows, row) || !trip_goes_on(rows, row))
      return refused({5, number});
    rows.push_back(row);
  }
  return answer;
}

}  // namespace second
