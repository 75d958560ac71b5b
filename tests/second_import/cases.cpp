// Both sides of each line of request E2, run on the definitions and, if there
// is one, on the subject.
#include <algorithm>
#include <cstdio>

#include "sides.hpp"

using namespace second;

namespace {

int failures = 0, passed = 0;

constexpr uint32_t ROOM = 27920;

void expect_side(const char *side, const std::string &what,
                 const Request &request, const Seen &seen,
                 const Answer &answer, const Bytes &file) {
  Bytes out = dirty(request.room, request.dirt);
  std::copy(file.begin(), file.end(), out.begin());
  if (same(seen, {answer, out, true})) {
    ++passed;
    return;
  }
  ++failures;
  std::printf("FAILED, %s: %s\n%s", side, what.c_str(),
              (difference_between({answer, out, true}, seen) + "\n").c_str());
}

void expect(const std::string &what, const Request &request,
            const Answer &answer, const Bytes &file) {
  expect_side("definitions", what, request, by_definitions(request), answer,
              file);
  if (subject_is_there())
    expect_side("subject", what, request, by_subject(request), answer, file);
}

void refused(const std::string &what, const Text &text, uint32_t number,
             uint32_t place = 0, uint32_t day = 1, uint32_t room = ROOM) {
  expect(what, {text, day, room}, {number, place, 0, 0, 0, 0}, {});
}

void written_as(const std::string &what, const Text &text, uint32_t stops,
                const std::vector<Row> &rows, uint32_t day = 1,
                uint32_t room = ROOM) {
  const uint32_t n = static_cast<uint32_t>(rows.size());
  expect(what, {text, day, room}, {0, 0, stops, n, 1, 12 * n + 20},
         sailing_file(stops, rows));
}

const Text HEADER =
    "trip_id,arrival_time,departure_time,stop_id,stop_sequence\n";
const Text ONE = "t,7:00:00,7:00:00,a,1\n", TWO = "t,8:00:00,8:05:00,b,2\n";
const std::vector<Row> ONE_TO_TWO = {{0, 1, 420, 480, 0, 0}};

Text zero_byte() { return Text(1, '\0'); }

// -------------------------------------------------------- the file's bytes

void bytes() {
  const Text text = HEADER + "t,0:00:00,25:10:00,a,1\nt,26:00:00,26:00:00,b,2";
  const Bytes file = {0,    0, 1, 0, 0xE6, 5, 0x18, 6, 0, 0, 0, 0,  // 1,510
                      0,    0, 0, 16,                               // table
                      1,    0, 2, 0, 1,    0, 1,    0,              // trailer
                      0,    0, 0, 0, 12,   0, 0,    0};
  expect("25:10:00 on day 1 is minute 1,510", {text, 1, ROOM},
         {0, 0, 2, 1, 1, 32}, file);
  written_as("on day 2 it is a day later", text, 2, {{0, 1, 2950, 3000, 0, 0}},
             2);
  written_as("a byte more room", text, 2, {{0, 1, 1510, 1560, 0, 0}}, 1, 27921);
  written_as("no trip has two calls",
             HEADER + "t,1:00:00,1:00:00,a,1\nu,1:00:00,1:00:00,b,1\n", 2, {});
}

// ------------------------------------------------------- lines and columns

void line_ends() {
  const Text header = HEADER.substr(0, HEADER.size() - 1);
  const Text one = ONE.substr(0, ONE.size() - 1);
  const Text two = TWO.substr(0, TWO.size() - 1);
  const Text crlf = "\r\n";
  written_as("LF", HEADER + ONE + TWO, 2, ONE_TO_TWO);
  written_as("CR LF", header + crlf + one + crlf + two + crlf, 2, ONE_TO_TWO);
  written_as("both", header + crlf + ONE + two + crlf, 2, ONE_TO_TWO);
  written_as("the file's end", HEADER + ONE + two, 2, ONE_TO_TWO);
  refused("CR at the file's end, behind stop_sequence",
          HEADER + ONE + two + "\r", 13);
  written_as("CR at the file's end, in a skipped field",
             HEADER + ONE + two + ",\r", 2, ONE_TO_TWO);
  refused("CR CR LF, behind stop_sequence", HEADER + one + "\r\r\n" + TWO, 13);
  refused("CR alone ends no line", HEADER + one + "\r" + two, 13);
  refused("CR at the header's end", header + "\r", 11);
  refused("CR CR LF at the header's end", header + "\r\r\n" + ONE + TWO, 11);
  refused("an empty line", HEADER + ONE + "\n" + TWO, 11);
  refused("an empty line that ends in CR LF", HEADER + ONE + crlf + TWO, 11);
  refused("an empty line at the end", HEADER + ONE + TWO + "\n", 11);
  refused("an empty line ahead of the header", "\n" + HEADER + ONE + TWO, 11);
  refused("a CR at the end, alone on its line", HEADER + ONE + TWO + "\r", 11);
}

void stop_ids_at_line_ends() {
  const Text header =
      "trip_id,arrival_time,departure_time,stop_sequence,stop_id\n";
  const Text one = "t,7:00:00,7:00:00,1,a", two = "t,8:00:00,8:05:00,2,a";
  written_as("a CR at the file's end belongs to the id",
             header + one + "\r\n" + two + "\r", 2, ONE_TO_TWO);
  written_as("of CR CR LF the first CR belongs to the id",
             header + one + "\r\r\n" + two + "\r\n", 2, ONE_TO_TWO);
  refused("the CR of CR LF belongs to no id",
          header + one + "\r\n" + two + "\n", 1);
}

void no_calls() {
  refused("empty text", "", 11);
  refused("LF alone", "\n", 11);
  refused("CR LF alone", "\r\n", 11);
  refused("CR alone", "\r", 11);
  refused("header alone", HEADER, 1);
  refused("header alone, without LF", HEADER.substr(0, HEADER.size() - 1), 1);
  refused("one stop", HEADER + ONE, 1);
  refused("two calls at one stop",
          HEADER + ONE + "t,8:00:00,8:00:00,a,2\n", 1);
}

void header() {
  const Text bom = "\xEF\xBB\xBF";
  const Text lines = "x,a,1,7:00:00,t,7:00:00\nx,b,2,8:05:00,t,8:00:00\n";
  const Text rest =
      ",stop_id,stop_sequence,departure_time,trip_id,arrival_time";
  written_as("any order, another one skipped", "pickup_type" + rest + "\n" +
             lines, 2, ONE_TO_TWO);
  written_as("a name may be empty", rest + "\n" + lines, 2, ONE_TO_TWO);
  written_as("of a column that stands twice the first counts",
             "pickup_type" + rest + ",stop_id,trip_id\n" +
                 "x,a,1,7:00:00,t,7:00:00,,u\n" +
                 "x,b,2,8:05:00,t,8:00:00,a,v\n",
             2, ONE_TO_TWO);
  written_as("a byte order mark at a skipped column",
             bom + "pickup_type" + rest + "\n" + lines, 2, ONE_TO_TWO);
  refused("a byte order mark at a column", bom + HEADER + ONE + TWO, 11);
  refused("a quote mark at a skipped name", "\"x" + rest + "\n" + lines, 11);
  refused("a quote mark at a column", "x,\"" + rest.substr(1) + "\n" + lines,
          11);
  refused("a quote mark in a header alone", "\"x" + rest, 11);
  refused("no header", ONE + TWO, 11);
  refused("spaces around a name", "x, " + rest.substr(1) + "\n" + lines, 11);
}

void wide_header() {
  for (size_t skipped : {255, 256, 65535, 65536}) {
    const Text commas(skipped, ',');
    written_as("a column far to the right", commas + HEADER + commas + ONE +
               commas + TWO, 2, ONE_TO_TWO);
    refused("far to the right, and missing", commas + HEADER + commas + ONE +
            "x," + TWO, 11);
  }
}

void missing_columns() {
  for (const Text &name : COLUMN_NAMES) {
    Text header = HEADER;
    header.insert(header.find(name), "x");
    refused("no " + name, header + ONE + TWO, 11);
  }
}

void fields() {
  const Text more = HEADER.substr(0, HEADER.size() - 1) + ",headsign,kind\n";
  written_as("skipped fields empty, missing or too many",
             more + "t,7:00:00,7:00:00,a,1,\nt,8:00:00,8:05:00,b,2,x,y,z\n", 2,
             ONE_TO_TWO);
  refused("a quote mark in a skipped field",
          more + "t,7:00:00,7:00:00,a,1,\"\n" + TWO, 11);
  refused("a quote mark in a field without a name", HEADER +
          "t,7:00:00,7:00:00,a,1,\"\n" + TWO, 11);
  refused("a quote mark in an id", HEADER + "\"t\",7:00:00,7:00:00,a,1\n", 11);
  refused("a field missing", HEADER + ONE + "t,8:00:00,8:05:00,b\n", 11);
  refused("all but one missing", HEADER + ONE + "t", 11);
  for (const char *line :
       {",8:00:00,8:05:00,b,2", "t,,8:05:00,b,2", "t,8:00:00,,b,2",
        "t,8:00:00,8:05:00,,2", "t,8:00:00,8:05:00,b,"})
    refused(Text("a field empty: ") + line, HEADER + ONE + line, 11);
}

// --------------------------------------------------------------------- ids

Text call(const Text &trip, const Text &time, const Text &stop,
          const Text &sequence) {
  return trip + "," + time + "," + time + "," + stop + "," + sequence + "\n";
}

void two_stops(const char *what, const Text &one, const Text &other) {
  written_as(what,
             HEADER + call("t", "7:00:00", one, "1") +
                 call("t", "8:00:00", other, "2"),
             2, ONE_TO_TWO);
}

void two_trips(const char *what, const Text &one, const Text &other) {
  written_as(what,
             HEADER + call(one, "7:00:00", "a", "1") +
                 call(other, "8:00:00", "b", "2") +
                 call(other, "9:00:00", "a", "3"),
             2, {{1, 0, 480, 540, 1, 0}});
}

void ids() {
  for (size_t length : {1, 2, 15, 16}) {
    const Text alike(length - 1, 'x');
    two_stops("stops that differ in the last byte", alike + "a", alike + "b");
    two_stops("stops that differ in the first byte", "a" + alike, "b" + alike);
    two_trips("trips that differ in the last byte", alike + "a", alike + "b");
  }
  const Text fifteen(15, 'x'), sixteen(16, 'x');
  two_stops("15 and 16 bytes", fifteen, sixteen);
  two_stops("a zero byte more", fifteen, fifteen + zero_byte());
  two_stops("a zero byte more at 1", "a", "a" + zero_byte());
  two_trips("a trip's zero byte more", "t", "t" + zero_byte());
  two_stops("behind a zero byte", zero_byte() + "a", zero_byte() + "b");
  two_stops("zero bytes alone", zero_byte(), zero_byte() + zero_byte());
  two_stops("a space behind", "a", "a ");
  two_stops("a space ahead", "a", " a");
  two_stops("capitals", "a", "A");
  two_stops("bytes above 127", "\x80", "\xFF");
  two_stops("a stop named like a time", "7:00:00", "1");
  for (size_t length : {17, 18, 32, 256, 257, 272, 65537, 65552}) {
    const Text long_id(length, 'x');
    refused("a trip too long",
            HEADER + call(long_id, "7:00:00", "a", "1") + TWO, 11);
    refused("a stop too long",
            HEADER + call("t", "7:00:00", long_id, "1") + TWO, 11);
  }
}

// ------------------------------------------------------------------- times

void time_taken(const Text &time, uint32_t minute) {
  written_as("time " + time,
             HEADER + call("t", time, "a", "1") + call("t", "99:00:00", "b",
                                                       "2"),
             2, {{0, 1, minute, 5940, 0, 0}});
}

void times() {
  time_taken("0:00:00", 0);
  time_taken("00:00:00", 0);
  time_taken("7:09:00", 429);
  time_taken("07:59:00", 479);
  time_taken("24:00:00", 1440);
  time_taken("98:59:00", 5939);
  time_taken(Text(29, '0') + "7:00:00", 420);
  time_taken(Text(70000, '0') + "7:00:00", 420);
  for (const char *time :
       {"7:60:00", "7:99:00", "7:00:01", "7:00:60", "7:0:00", "7:00:0",
        "7:00", "700:00", "7:000:00", "7:00:000", ":00:00", "::", "x",
        "-7:00:00", "+7:00:00", " 7:00:00", "7:00:00 ", "7 :00:00", "7:+1:00",
        "7: 1:00", "7:00:-0", "7.00.00", "7:00:00:00", "7a:00:00", "7:0a:00",
        "/:00:00", ";:00:00", "1000:00:00", "65536:00:00",
        "4294967296:00:00", "71582789:00:00", "18446744073709551616:00:00",
        "100000000000000000000000000000:00:00"})
    refused(Text("time ") + time, HEADER + call("t", time, "a", "1"), 12);
  refused("a zero byte behind a time",
          HEADER + call("t", "7:00:00" + zero_byte(), "a", "1"), 12);
  refused("departure not a time", HEADER + "t,7:00:00,7:00,a,1\n", 12);
  refused("arrival not a time", HEADER + "t,7:00,7:00:00,a,1\n", 12);
  refused("departure before arrival", HEADER + "t,7:01:00,7:00:00,a,1\n", 12);
  refused("departure before arrival, later",
          HEADER + ONE + TWO + "t,10:00:00,9:59:00,a,3\n", 12);
}

void last_minutes() {
  const struct {
    const char *last, *too_late;
    uint32_t opening;
  } days[7] = {{"167:59:00", "168:00:00", 0},  {"143:59:00", "144:00:00", 1440},
               {"119:59:00", "120:00:00", 2880}, {"95:59:00", "96:00:00", 4320},
               {"71:59:00", "72:00:00", 5760}, {"47:59:00", "48:00:00", 7200},
               {"23:59:00", "24:00:00", 8640}};
  for (uint32_t day = 1; day <= 7; ++day) {
    const auto &[last, too_late, opening] = days[day - 1];
    const std::string on = " on day " + std::to_string(day);
    const Text first = HEADER + call("t", "0:00:00", "a", "1");
    written_as(last + on, first + call("t", last, "b", "2"), 2,
               {{0, 1, opening, 10079, 0, 0}}, day);
    refused(too_late + on, first + call("t", too_late, "b", "2"), 12, 0, day);
    refused("departure at " + (too_late + on),
            first + "t," + last + "," + too_late + ",b,2\n", 12, 0, day);
  }
}

// --------------------------------------------------------------- sequences

void sequences_taken(const Text &first, const Text &next) {
  written_as("stop_sequence " + first + " then " + next,
             HEADER + call("t", "7:00:00", "a", first) +
                 call("t", "8:00:00", "b", next),
             2, ONE_TO_TWO);
}

void sequence_refused(const Text &first, const Text &next) {
  refused("stop_sequence " + first + " then " + next,
          HEADER + call("t", "7:00:00", "a", first) +
              call("t", "8:00:00", "b", next),
          13);
}

void sequences() {
  sequences_taken("0", "1");
  sequences_taken("9", "10");
  sequences_taken("65534", "65535");
  sequences_taken("0", "0065535");
  sequences_taken(Text(30, '0'), Text(29, '0') + "1");
  sequences_taken("0", Text(70000, '0') + "1");
  sequence_refused("1", "1");
  sequence_refused("1", "01");
  sequence_refused("0", "00");
  sequence_refused("2", "1");
  sequence_refused("65535", "0");
  for (const char *next :
       {"65536", "065536", "99999", "4294967298", "18446744073709551618",
        "100000000000000000000000000002", "-2", "+2", " 2", "2 ", "2.0", "2e0",
        "0x2", "b", "/", ":"})
    sequence_refused("1", next);
  sequence_refused("1", "2" + zero_byte());
  refused("not a number on a trip's first call",
          HEADER + call("t", "7:00:00", "a", "x"), 13);
  refused("equal, though another trip's lines stand between",
          HEADER + ONE + call("u", "7:00:00", "a", "7") +
              call("t", "8:00:00", "b", "1"),
          13);
}

// -------------------------------------------------------------------- rows

void order_of_rows() {
  written_as("trips interleaved, numbers by first appearance",
             HEADER + call("u", "7:00:00", "z", "5") +
                 call("t", "7:00:00", "y", "5") +
                 call("t", "7:10:00", "z", "6") +
                 call("u", "7:20:00", "y", "6") +
                 call("t", "7:30:00", "x", "7") +
                 call("v", "6:00:00", "x", "1"),
             3,
             {{0, 1, 420, 440, 0, 0},
              {1, 0, 420, 430, 1, 0},
              {0, 2, 430, 450, 1, 0}});
  written_as("by departure first, not by arrival",
             HEADER + call("t", "7:00:00", "a", "1") +
                 call("t", "9:00:00", "b", "2") +
                 call("u", "7:01:00", "a", "1") +
                 call("u", "7:02:00", "b", "2"),
             2, {{0, 1, 420, 540, 0, 0}, {0, 1, 421, 422, 1, 0}});
  written_as("an earlier row of a later trip",
             HEADER + call("t", "7:00:00", "a", "1") +
                 call("t", "9:00:00", "b", "2") +
                 call("u", "6:59:00", "c", "1") +
                 call("u", "8:00:00", "a", "2"),
             3, {{2, 0, 419, 480, 1, 0}, {0, 1, 420, 540, 0, 0}});
  written_as("a stop called at twice, and a wait at each",
             HEADER + "t,7:00:00,7:05:00,a,1\nt,7:10:00,7:15:00,b,2\n" +
                 "t,7:20:00,7:25:00,a,3\n",
             2, {{0, 1, 425, 430, 0, 0}, {1, 0, 435, 440, 0, 0}});
}

void document_01() {
  const Text u = call("u", "6:00:00", "a", "1") + call("u", "6:30:00", "b",
                                                       "2");
  refused("the same stop twice in a row",
          HEADER + ONE + call("t", "8:00:00", "a", "2") + u, 4, 1);
  refused("arrival at the departure",
          HEADER + ONE + call("t", "7:00:00", "b", "2") + u, 4, 1);
  refused("arrival before the departure",
          HEADER + ONE + "t,6:59:00,8:00:00,b,2\n" + u, 4, 1);
  refused("two rows of a trip depart together, as read",
          HEADER + ONE + call("t", "7:00:00", "b", "2") +
              call("t", "7:10:00", "c", "3"),
          4, 0);
  const Text back = "t,1:40:00,1:40:00,a,1\nt,3:20:00,3:20:00,b,2\n"
                    "t,0:50:00,1:00:00,c,3\nt,1:10:00,1:10:00,d,4\n";
  refused("a trip that goes back", HEADER + back, 5, 1);
  refused("the same behind another trip's row",
          HEADER + back + call("u", "0:00:00", "a", "1") +
              call("u", "0:10:00", "b", "2"),
          5, 2);
}

// ------------------------------------------------------------- which first

void first_fault() {
  refused("11 before 12 on a line", HEADER + "t,7:00,7:00:00,,1\n", 11);
  refused("11 before 13 on a line", HEADER + "t,7:00:00,7:00:00,,x\n", 11);
  refused("a quote mark at a line's end before 12",
          HEADER + "t,7:00,7:00:00,a,1,\"\n", 11);
  refused("a long stop before 12",
          HEADER + call("t", "7:00", Text(17, 's'), "1"), 11);
  refused("12 before 13 on a line", HEADER + call("t", "7:00", "a", "x"), 12);
  refused("a call's times before 13", HEADER + "t,7:01:00,7:00:00,a,x\n", 12);
  refused("12 on an earlier line than 11",
          HEADER + call("t", "7:00", "a", "1") + "\n", 12);
  refused("13 on an earlier line than 11 and 12",
          HEADER + call("t", "7:00:00", "a", "x") + call("t", "7:00", "", "x"),
          13);
  refused("13 on a later line than 4",
          HEADER + ONE + call("t", "7:00:00", "a", "2") +
              call("t", "8:00:00", "b", "2"),
          13);
  refused("the header before a line",
          "trip_id\n" + call("t", "7:00", "a", "x"), 11);
}

void day_and_room() {
  const Text text = HEADER + ONE + TWO;
  for (uint32_t day : {0u, 8u, 256u, 257u, 65537u, 4294967295u}) {
    refused("day out of range", text, 6, 0, day);
    refused("6 before 7", text, 6, 0, day, ROOM - 1);
    refused("6 before 11", "", 6, 0, day);
  }
  for (uint32_t room : {0u, 32u, 24020u, ROOM - 1}) {
    refused("too little room", text, 7, 0, 1, room);
    refused("7 before 11", "", 7, 0, 7, room);
  }
}

// -------------------------------------------------------------- the limits

Text calls_at(uint32_t stops) {  // of one trip, a minute apart
  Text text = HEADER;
  for (uint32_t stop = 0; stop < stops; ++stop)
    text += call("t",
                 std::to_string(stop / 60) + (stop % 60 < 10 ? ":0" : ":") +
                     std::to_string(stop % 60) + ":00",
                 "s" + std::to_string(stop), std::to_string(stop));
  return text;
}

void most_stops() {
  std::vector<Row> rows;
  for (uint32_t stop = 0; stop < 199; ++stop)
    rows.push_back({stop, stop + 1, stop, stop + 1, 0, 0});
  const Text full = calls_at(200);
  written_as("200 stops", full, 200, rows);
  refused("201 stops", calls_at(201), 9);
  refused("13 before 9", full + call("t", "9:00:00", "a", "199"), 13);
  refused("12 before 9", full + call("t", "9:00", "a", "200"), 12);
  refused("11 before 9", full + call("t", "9:00:00", "\"", "200"), 11);
  refused("9 before 11 of a later line",
          full + call("t", "9:00:00", "a", "200") + "\n", 9);
  refused("9 before 4 of the finished file",
          full + call("t", "9:00:00", "s199", "200") +
              call("t", "9:01:00", "a", "201"),
          9);
}

Text trips_of_one_call(uint32_t trips) {
  Text text = HEADER;
  for (uint32_t trip = 0; trip < trips; ++trip)
    text += call("t" + std::to_string(trip), "7:00:00",
                 trip % 2 == 0 ? "a" : "b", "1");
  return text;
}

void most_trips() {
  const Text full = trips_of_one_call(2000);
  written_as("2,000 trips", full, 2, {});
  refused("2,001 trips", trips_of_one_call(2001), 9);
  written_as("the last of 2,000 trips goes on",
             full + call("t1999", "8:00:00", "a", "2"), 2,
             {{1, 0, 420, 480, 1999, 0}});
  refused("13 before the 2,001st trip",
          full + call("u", "8:00:00", "a", "x"), 13);
}

// Many trips from a to b at once: rows by trip number.
void most_rows() {
  Text full = trips_of_one_call(1999);
  std::vector<Row> rows;
  for (uint32_t trip = 0; trip < 1999; ++trip) {
    full += call("t" + std::to_string(1998 - trip), "8:00:00",
                 trip % 2 == 0 ? "b" : "a", "2");
    rows.push_back({trip % 2, 1 - trip % 2, 420, 480, trip, 0});
  }
  full += call("t0", "9:00:00", "a", "3");
  rows.push_back({1, 0, 480, 540, 0, 0});
  written_as("2,000 rows", full, 2, rows);
  refused("2,001 rows", full + call("t0", "10:00:00", "b", "4"), 9);
  refused("13 before the 2,001st row",
          full + call("t0", "10:00:00", "b", "3"), 13);
  written_as("one more call that ends no row",
             full + call("u", "10:00:00", "b", "1"), 2, rows);
}

}  // namespace

int main() {
  bytes();
  line_ends();
  stop_ids_at_line_ends();
  no_calls();
  header();
  wide_header();
  missing_columns();
  fields();
  ids();
  times();
  last_minutes();
  sequences();
  order_of_rows();
  document_01();
  first_fault();
  day_and_room();
  most_stops();
  most_trips();
  most_rows();
  std::printf("%d fixed cases hold, %d fail\n", passed, failures);
  return failures == 0 ? 0 : 1;
}
