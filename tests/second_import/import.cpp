// The sailing file, and the whole call.
#include "import.hpp"

#include <algorithm>

namespace second {

// "Rows come out by departure, then by trip number, then as read"
std::vector<Row> in_file_order(std::vector<Row> rows) {
  std::stable_sort(rows.begin(), rows.end(),
                   [](const Row &one, const Row &two) {
                     if (one.departure != two.departure)
                       return one.departure < two.departure;
                     return one.trip < two.trip;
                   });
  return rows;
}

namespace {

void put_u16(Bytes &file, uint32_t number) {
  file.push_back(number % 256);
  file.push_back(number / 256 % 256);
}

void put_u32(Bytes &file, uint32_t number) {
  put_u16(file, number % 65536);
  put_u16(file, number / 65536);
}

constexpr uint32_t CLASSES = 1;
constexpr size_t LONGEST_FILE = 27920;

ImportAnswer refused(const Refusal &refusal) {
  return {refusal.number, refusal.place, 0, 0, 0, 0};
}

}  // namespace

// "Write a sailing file, rows first"; "with one table of maximum 0"
Bytes sailing_file(uint32_t stops, const std::vector<Row> &rows) {
  Bytes file;
  for (const Row &row : rows)
    for (uint32_t number : {row.boarding, row.landing, row.departure,
                            row.arrival, row.trip, row.sailing_class})
      put_u16(file, number);
  const uint32_t table_offset = static_cast<uint32_t>(file.size());
  put_u16(file, 0);
  put_u16(file, 4096);
  const uint32_t version = 1, row_offset = 0;
  put_u16(file, version);
  put_u16(file, stops);
  put_u16(file, static_cast<uint32_t>(rows.size()));
  put_u16(file, CLASSES);
  put_u32(file, row_offset);
  put_u32(file, table_offset);
  return file;
}

// "Refusals: 6 service day not 1 to 7; 7 room below 27,920 bytes; then the
// first fault by line ..; then document 01's own, in order, over the finished
// file." A refusal changes no buffer.
ImportAnswer import_call(const Text &text, uint32_t service_day, Bytes &out) {
  if (service_day < 1 || 7 < service_day) return refused({6, 0});
  if (out.size() < LONGEST_FILE) return refused({7, 0});
  const ReadStopTimes read = read_stop_times(text, service_day);
  if (read.fault != 0) return refused({read.fault, 0});
  const uint32_t stops = static_cast<uint32_t>(read.stop_times.stops.size());
  const std::vector<Row> rows = in_file_order(read.stop_times.rows);
  const Bytes file = sailing_file(stops, rows);
  const Refusal refusal = check_file(file).refusal;
  if (refusal.number != 0) return refused(refusal);
  std::copy(file.begin(), file.end(), out.begin());
  return {0, 0, stops, static_cast<uint32_t>(rows.size()), CLASSES,
          static_cast<uint32_t>(file.size())};
}

}  // namespace second
