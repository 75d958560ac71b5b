// Request E2 of document 02, "The bus partner's stop times", transcribed
// sentence by sentence. Nothing here is meant to be fast.
#pragma once

#include <array>
#include <map>
#include <optional>
#include <string>
#include <vector>

#include "../second/definitions.hpp"

namespace second {

// ------------------------------------------------------ lines and columns

// Bytes, not letters; a zero byte is one like any other.
using Text = std::string;

std::vector<Text> lines_of(const Text &text);
bool has_quote_mark(const Text &line);
std::vector<Text> fields_of(const Text &line);

enum Column { TRIP, ARRIVAL, DEPARTURE, STOP, SEQUENCE };
constexpr size_t COLUMNS = 5;
extern const std::array<Text, COLUMNS> COLUMN_NAMES;

using Places = std::array<size_t, COLUMNS>;  // where each column stands
// Nothing where a column is missing.
std::optional<Places> columns_of(const Text &header);
using Fields = std::array<Text, COLUMNS>;
// Nothing where one of the five is missing.
std::optional<Fields> fields_at(const Places &places, const Text &line);

// --------------------------------------------------- times and sequences

// The minute from the opening of day 1, or nothing where refusal 12 is due.
std::optional<uint32_t> minute_of(const Text &time, uint32_t service_day);
// Nothing if it is not a whole number below 65,536.
std::optional<uint32_t> sequence_of(const Text &field);

// --------------------------------------------------------------- the calls

struct Call {
  uint32_t stop, arrival, departure, sequence;
};

struct StopTimes {
  std::map<Text, uint32_t> stops, trips;  // the number of each id
  std::map<uint32_t, Call> last_calls;    // by trip number
  std::vector<Row> rows;                  // as read
};

struct ReadStopTimes {
  uint32_t fault = 0;  // 9, 11, 12, 13, or 0
  StopTimes stop_times;
};

ReadStopTimes read_stop_times(const Text &text, uint32_t service_day);

// ---------------------------------------------------------------- the file

std::vector<Row> in_file_order(std::vector<Row> rows);
Bytes sailing_file(uint32_t stops, const std::vector<Row> &rows);

// ------------------------------------------------------------------ import

struct ImportAnswer {
  uint32_t number = 0, place = 0;
  uint32_t stops = 0, rows = 0, classes = 0, length = 0;
};

// The whole call: the answer, and the later contents of `out`.
ImportAnswer import_call(const Text &text, uint32_t service_day, Bytes &out);

}  // namespace second
