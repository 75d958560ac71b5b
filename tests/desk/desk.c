/* Case W and its faults through the booking desk's calls, against the numbers of documents 01 and 02 as literals. */
#include <stdio.h>
#include <string.h>

#include "sayurimpak.h"

_Static_assert(SAYURIMPAK_REFUSED == 10000, "10,000 plus the refusal");
_Static_assert(SAYURIMPAK_RIDE_BYTES == 12, "12 bytes a ride");
_Static_assert(SAYURIMPAK_MOST_BYTES == 24000, "12 bytes for each of 2,000 rows");
_Static_assert(SAYURIMPAK_BOARDING_ROW == 0, "boarding row first");
_Static_assert(SAYURIMPAK_LEAVING_ROW == 4, "leaving row next, four bytes on");
_Static_assert(SAYURIMPAK_WORTH == 8, "then the worth");
_Static_assert(SAYURIMPAK_LONGEST_FILE == 27920, "the longest file");
_Static_assert(SAYURIMPAK_TRAILER_BYTES == 16, "the last 16 bytes are a trailer");
_Static_assert(SAYURIMPAK_ROW_BYTES == 12, "a row has six u16");
_Static_assert(SAYURIMPAK_DAY_MINUTES == 1440, "every day has 1,440 minutes");
_Static_assert(SAYURIMPAK_LAST_MINUTE == 10079, "seven days");
_Static_assert(SAYURIMPAK_TICKS_A_MINUTE == 256, "a tick is 1/256 minute");
_Static_assert(SAYURIMPAK_LEAST_MARGIN == 1 && SAYURIMPAK_MOST_MARGIN == 2560, "a margin of 1 to 2,560 ticks");
_Static_assert(SAYURIMPAK_MOST_GATE == 30, "a gate time of 0 to 30 minutes");
_Static_assert(SAYURIMPAK_VERSION == 3, "three calls");
_Static_assert(SAYURIMPAK_BAD_SIZES == 1 && SAYURIMPAK_BAD_SECTIONS == 2 && SAYURIMPAK_BAD_CLASS == 3 && SAYURIMPAK_BAD_ROW == 4 &&
                   SAYURIMPAK_BAD_ORDER == 5 && SAYURIMPAK_BAD_QUERY == 6 && SAYURIMPAK_NO_ROOM == 7 && SAYURIMPAK_NO_JOURNEY == 8,
               "the refusals' numbers");

enum { W_BYTES = 92, W_ROOM = 48, DIRT = 0xa5, LENT = 24000, LONGEST = 27920 };

static uint8_t w[W_BYTES];
static uint8_t file[LONGEST + 1];
static uint8_t out[LENT];
static int calls, failed;

/* The sheet's three rides: boarding row, leaving row, worth in ticks (172,800, 168,960 and 176,640). */
static const uint8_t W_PLAN[36] = {0, 0, 0, 0, 0, 0, 0, 0, 0x00, 0xa3, 0x02, 0,
                                   1, 0, 0, 0, 1, 0, 0, 0, 0x00, 0x94, 0x02, 0,
                                   3, 0, 0, 0, 3, 0, 0, 0, 0x00, 0xb2, 0x02, 0};

struct asked {
  uint32_t source, target, minute, code;
};

static const struct asked W_ASKED = {0, 2, 590, 0};

/* What a call answered, and that `out` has these rides of a plan and is as it was behind them. */
static void compare(const char *what, uint32_t answer, uint32_t wanted, const uint8_t *plan) {
  static uint8_t left[LENT];
  memset(left, DIRT, sizeof left);
  if (wanted < 10000) memcpy(left, plan, 12 * wanted);
  calls++;
  if (answer == wanted && memcmp(out, left, sizeof out) == 0) return;
  failed++;
  printf("%s: answered %u and not %u%s\n", what, (unsigned)answer, (unsigned)wanted,
         memcmp(out, left, sizeof out) == 0 ? "" : ", and other bytes than must be");
}

static void expect_gate(const char *what, size_t length, struct asked asked, uint32_t margin, uint32_t gate, size_t room,
                        uint32_t wanted, const uint8_t *plan) {
  memset(out, DIRT, sizeof out);
  const uint32_t answer =
      sayurimpak_plan_gate(file, length, asked.source, asked.target, asked.minute, asked.code, margin, gate, out, room);
  compare(what, answer, wanted, plan);
}

/* A call with a margin, and the call with gate time 0, which must do the same. */
static void expect_margin(const char *what, size_t length, struct asked asked, uint32_t margin, size_t room, uint32_t wanted,
                          const uint8_t *plan) {
  memset(out, DIRT, sizeof out);
  const uint32_t answer =
      sayurimpak_plan_margin(file, length, asked.source, asked.target, asked.minute, asked.code, margin, out, room);
  compare(what, answer, wanted, plan);
  expect_gate(what, length, asked, margin, 0, room, wanted, plan);
}

/* A call with this much room, and the calls with margin 1 and with gate time 0, which must do the same. */
static void expect(const char *what, size_t length, struct asked asked, size_t room, uint32_t wanted) {
  memset(out, DIRT, sizeof out);
  const uint32_t answer = sayurimpak_plan(file, length, asked.source, asked.target, asked.minute, asked.code, out, room);
  compare(what, answer, wanted, W_PLAN);
  expect_margin(what, length, asked, 1, room, wanted, W_PLAN);
}

/* W with two bytes from `at` on changed to a number, or W as it is. */
static void put_w(void) { memcpy(file, w, W_BYTES); }

static void put_number(size_t at, uint32_t number) {
  put_w();
  file[at] = (uint8_t)(number & 255);
  file[at + 1] = (uint8_t)(number >> 8);
}

static void rooms(void) {
  put_w();
  expect("W, room for 12n bytes", W_BYTES, W_ASKED, 48, 3);
  expect("W, room for 12n - 1 bytes", W_BYTES, W_ASKED, 47, 10007);
  expect("W, no room", W_BYTES, W_ASKED, 0, 10007);
  expect("W, room for three rides", W_BYTES, W_ASKED, 36, 10007);
  expect("W, room for 2,000 rows", W_BYTES, W_ASKED, LENT, 3);
}

/* Rows are at byte 0, class 0 at 48 (its share at 50), class 1 at 52, the trailer at 76. */
static void faults(void) {
  put_number(76, 2);
  expect("version 2", W_BYTES, W_ASKED, W_ROOM, 10001);
  put_number(78, 201);
  expect("201 stops", W_BYTES, W_ASKED, W_ROOM, 10001);
  put_number(80, 2001);
  expect("2,001 rows", W_BYTES, W_ASKED, W_ROOM, 10001);
  put_number(82, 17);
  expect("17 classes", W_BYTES, W_ASKED, W_ROOM, 10001);
  put_number(88, 76);
  expect("class blocks from the trailer's start on", W_BYTES, W_ASKED, W_ROOM, 10002);
  put_number(84, 12);
  expect("rows that do not join", W_BYTES, W_ASKED, W_ROOM, 10002);
  put_number(50, 4095);
  expect("shares that sum to 4,095", W_BYTES, W_ASKED, W_ROOM, 10003);
  put_number(52, 121);
  expect("a maximum delay of 121", W_BYTES, W_ASKED, W_ROOM, 10003);
  put_number(2, 0);
  expect("a row that lands where it boards", W_BYTES, W_ASKED, W_ROOM, 10004);
  put_number(42, 10080);
  expect("a row that arrives at 10,080", W_BYTES, W_ASKED, W_ROOM, 10004);
  put_number(40, 635);
  expect("departures that fall", W_BYTES, W_ASKED, W_ROOM, 10005);
}

static void lengths(void) {
  put_w();
  memmove(file, file + W_BYTES - 19, 19);
  expect("19 bytes", 19, W_ASKED, W_ROOM, 10001);
  put_w();
  expect("no bytes", 0, W_ASKED, W_ROOM, 10001);
  memset(file, 0, sizeof file);
  memcpy(file + LONGEST + 1 - W_BYTES, w, W_BYTES);
  expect("27,921 bytes that end like W", LONGEST + 1, W_ASKED, LENT, 10001);
}

static void queries(void) {
  static const struct {
    struct asked asked;
    uint32_t wanted;
  } ASKED[] = {
      {{3, 2, 590, 0}, 10006},     {{0, 3, 590, 0}, 10006},      {{2, 2, 590, 0}, 10006},  {{0, 2, 10080, 0}, 10006},
      {{0, 2, 590, 1}, 10006},     {{0, 2, 590, 3}, 10006},      {{0, 2, 590, 17}, 10006}, {{65536, 2, 590, 0}, 10006},
      {{0, 65538, 590, 0}, 10006}, {{0, 2, 66126, 0}, 10006},    {{0, 2, 590, 65536}, 10006},
      {{0, 2, 590, 4}, 3},         {{0, 2, 590, 16}, 3},         {{0, 2, 600, 0}, 3},
      {{0, 2, 601, 0}, 10008},     {{0, 2, 10079, 0}, 10008},    {{2, 0, 590, 0}, 10008},
  };
  char what[80];
  put_w();
  for (size_t k = 0; k < sizeof ASKED / sizeof ASKED[0]; k++) {
    const struct asked asked = ASKED[k].asked;
    snprintf(what, sizeof what, "query %u %u %u %u", (unsigned)asked.source, (unsigned)asked.target, (unsigned)asked.minute,
             (unsigned)asked.code);
    expect(what, W_BYTES, asked, W_ROOM, ASKED[k].wanted);
  }
}

/* A margin out of its range is 6, in all its 32 bits; one in its range leaves W's rides, which are half an hour apart. */
static void margins(void) {
  static const uint32_t WRONG[] = {0, 2561, 65535, 65536, 65537, 4294967295u}, RIGHT[] = {1, 2, 256, 2560};
  const struct asked late = {0, 2, 601, 0};
  char what[80];
  put_w();
  for (size_t k = 0; k < sizeof WRONG / sizeof WRONG[0]; k++) {
    snprintf(what, sizeof what, "margin %u", (unsigned)WRONG[k]);
    expect_margin(what, W_BYTES, W_ASKED, WRONG[k], W_ROOM, 10006, NULL);
    expect_margin(what, W_BYTES, W_ASKED, WRONG[k], 47, 10006, NULL);
    expect_margin(what, W_BYTES, late, WRONG[k], W_ROOM, 10006, NULL);
  }
  for (size_t k = 0; k < sizeof RIGHT / sizeof RIGHT[0]; k++) {
    snprintf(what, sizeof what, "margin %u", (unsigned)RIGHT[k]);
    expect_margin(what, W_BYTES, W_ASKED, RIGHT[k], W_ROOM, 3, W_PLAN);
    expect_margin(what, W_BYTES, W_ASKED, RIGHT[k], 47, 10007, NULL);
    expect_margin(what, W_BYTES, late, RIGHT[k], W_ROOM, 10008, NULL);
  }
  put_number(40, 635);
  expect_margin("5 before a margin's 6", W_BYTES, W_ASKED, 0, W_ROOM, 10005, NULL);
}

/* W whose last row arrives at 661, worth 169,216: the second row, worth 168,960, gains 256 ticks on it. The first is worth 169,088, or
   169,216 where the second is left out. */
static void gains(void) {
  static const uint8_t KEPT[36] = {0, 0, 0, 0, 0, 0, 0, 0, 0x80, 0x94, 0x02, 0,
                                   1, 0, 0, 0, 1, 0, 0, 0, 0x00, 0x94, 0x02, 0,
                                   3, 0, 0, 0, 3, 0, 0, 0, 0x00, 0x95, 0x02, 0};
  static const uint8_t LEFT_OUT[24] = {0, 0, 0, 0, 0, 0, 0, 0, 0x00, 0x95, 0x02, 0,
                                       3, 0, 0, 0, 3, 0, 0, 0, 0x00, 0x95, 0x02, 0};
  put_number(42, 661);
  expect_margin("a gain of 256, margin 1", W_BYTES, W_ASKED, 1, W_ROOM, 3, KEPT);
  expect_margin("a gain of 256, margin 256", W_BYTES, W_ASKED, 256, W_ROOM, 3, KEPT);
  expect_margin("a gain of 256, margin 257", W_BYTES, W_ASKED, 257, W_ROOM, 2, LEFT_OUT);
  expect_margin("a gain of 256, margin 2,560", W_BYTES, W_ASKED, 2560, W_ROOM, 2, LEFT_OUT);
}

/* W without its second row, which departs at 632: its first is then worth what the last is, 176,640. */
static const uint8_t MISSED_PLAN[24] = {0, 0, 0, 0, 0, 0, 0, 0, 0x00, 0xb2, 0x02, 0,
                                        3, 0, 0, 0, 3, 0, 0, 0, 0x00, 0xb2, 0x02, 0};

/* A gate time above 30 is 6, in all its 32 bits and before 7 and 8, behind a file's own fault. */
static void wrong_gates(void) {
  static const uint32_t WRONG[] = {31, 32, 255, 256, 65535, 65536, 65537, 65566, 4294967295u};
  const struct asked late = {0, 2, 601, 0};
  char what[80];
  put_w();
  for (size_t k = 0; k < sizeof WRONG / sizeof WRONG[0]; k++) {
    snprintf(what, sizeof what, "gate %u", (unsigned)WRONG[k]);
    expect_gate(what, W_BYTES, W_ASKED, 1, WRONG[k], W_ROOM, 10006, NULL);
    expect_gate(what, W_BYTES, W_ASKED, 1, WRONG[k], 47, 10006, NULL);
    expect_gate(what, W_BYTES, late, 1, WRONG[k], W_ROOM, 10006, NULL);
    expect_gate(what, W_BYTES, W_ASKED, 0, WRONG[k], W_ROOM, 10006, NULL);
  }
  expect_gate("margin 0 and a gate", W_BYTES, W_ASKED, 0, 5, W_ROOM, 10006, NULL);
  expect_gate("a gate and 12n - 1 bytes", W_BYTES, W_ASKED, 1, 2, 47, 10007, NULL);
  put_number(40, 635);
  expect_gate("5 before a gate's 6", W_BYTES, W_ASKED, 1, 31, W_ROOM, 10005, NULL);
}

/* W's first ride departs at 600 and lands from 630 to 640; the next depart at 632 and 650. Each is caught with a gate time that ends in
   its very minute, and missed with one more. */
static void gates(void) {
  static const struct {
    uint32_t minute, gate, wanted;
  } ASKED[] = {
      {590, 0, 3},  {590, 1, 3},      {590, 2, 3},     {590, 3, 2},  {590, 10, 2},     {590, 11, 10008}, {590, 30, 10008},
      {598, 2, 3},  {599, 2, 10008},  {597, 3, 2},     {598, 3, 10008}, {570, 10, 2},  {570, 11, 10008},
  };
  char what[80];
  put_w();
  for (size_t k = 0; k < sizeof ASKED / sizeof ASKED[0]; k++) {
    const struct asked asked = {0, 2, ASKED[k].minute, 0}, tight = {0, 2, ASKED[k].minute, 4};
    const uint8_t *plan = ASKED[k].wanted == 3 ? W_PLAN : MISSED_PLAN;
    snprintf(what, sizeof what, "minute %u, gate %u", (unsigned)ASKED[k].minute, (unsigned)ASKED[k].gate);
    expect_gate(what, W_BYTES, asked, 1, ASKED[k].gate, W_ROOM, ASKED[k].wanted, plan);
    expect_gate(what, W_BYTES, asked, 2560, ASKED[k].gate, W_ROOM, ASKED[k].wanted, plan);
    expect_gate(what, W_BYTES, tight, 1, ASKED[k].gate, W_ROOM, ASKED[k].wanted, plan);
  }
}

/* The last row departs just late enough for a landing at 640, and a minute earlier. */
static void last_gates(void) {
  const struct asked early = {0, 2, 570, 0};
  put_number(40, 642);
  expect_gate("a departure at 642, gate 2", W_BYTES, W_ASKED, 1, 2, W_ROOM, 3, W_PLAN);
  put_number(40, 641);
  expect_gate("a departure at 641, gate 2", W_BYTES, W_ASKED, 1, 2, W_ROOM, 10008, NULL);
  put_number(40, 670);
  expect_gate("a departure at 670, gate 30", W_BYTES, early, 1, 30, W_ROOM, 2, MISSED_PLAN);
  put_number(40, 669);
  expect_gate("a departure at 669, gate 30", W_BYTES, early, 1, 30, W_ROOM, 10008, NULL);
}

/* 6 before 7 before 8, and a file's own fault before all. */
static void order(void) {
  const struct asked wrong = {0, 2, 590, 3}, none = {0, 2, 601, 0};
  put_w();
  expect("6 before 7", W_BYTES, wrong, 47, 10006);
  expect("7 before 8", W_BYTES, none, 47, 10007);
  put_number(40, 635);
  expect("5 before 6 and 7", W_BYTES, wrong, 47, 10005);
  /* no rows: the class blocks alone, from byte 0 */
  put_w();
  memmove(file, file + 48, W_BYTES - 48);
  memset(file + 28 + 4, 0, 2);
  memset(file + 28 + 8, 0, 8);
  expect("no rows want no room", W_BYTES - 48, W_ASKED, 0, 10008);
}

int main(int count, char **words) {
  FILE *sailings = count == 2 ? fopen(words[1], "rb") : NULL;
  if (sailings == NULL || fread(w, 1, W_BYTES, sailings) != W_BYTES || fgetc(sailings) != EOF) {
    puts("no file of 92 bytes");
    return 2;
  }
  fclose(sailings);
  rooms();
  faults();
  lengths();
  queries();
  margins();
  gains();
  wrong_gates();
  gates();
  last_gates();
  order();
  printf("desk: %d calls, %d differences\n", calls, failed);
  return failed > 0;
}
