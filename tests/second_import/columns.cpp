// Lines, fields and the five columns.
#include <algorithm>

#include "import.hpp"

namespace second {

// "Lines end in LF, CR LF or the file's end". Nothing behind the last LF is no
// line; a CR at the file's end belongs to its line.
std::vector<Text> lines_of(const Text &text) {
  std::vector<Text> lines;
  Text line;
  for (char byte : text) {
    if (byte != '\n') {
      line += byte;
      continue;
    }
    if (!line.empty() && line.back() == '\r') line.pop_back();
    lines.push_back(line);
    line.clear();
  }
  if (!line.empty()) lines.push_back(line);
  return lines;
}

bool has_quote_mark(const Text &line) {
  return line.find('"') != Text::npos;
}

std::vector<Text> fields_of(const Text &line) {
  std::vector<Text> fields(1);
  for (char byte : line)
    if (byte == ',')
      fields.emplace_back();
    else
      fields.back() += byte;
  return fields;
}

const std::array<Text, COLUMNS> COLUMN_NAMES = {
    "trip_id", "arrival_time", "departure_time", "stop_id", "stop_sequence"};

// "Columns .. may stand in any order and others are skipped." Of a column that
// stands twice the first counts.
std::optional<Places> columns_of(const Text &header) {
  const std::vector<Text> names = fields_of(header);
  Places places{};
  for (size_t column = 0; column < COLUMNS; ++column) {
    const auto found =
        std::find(names.begin(), names.end(), COLUMN_NAMES[column]);
    if (found == names.end()) return std::nullopt;
    places[column] = static_cast<size_t>(found - names.begin());
  }
  return places;
}

std::optional<Fields> fields_at(const Places &places, const Text &line) {
  const std::vector<Text> all = fields_of(line);
  Fields fields;
  for (size_t column = 0; column < COLUMNS; ++column) {
    if (places[column] >= all.size()) return std::nullopt;
    fields[column] = all[places[column]];
  }
  return fields;
}

}  // namespace second
