/* Sailing files and queries made from a seed. */
#include "files.h"

#include <string.h>

uint32_t below(struct chance *chance, uint32_t limit) {
  uint64_t x = chance->state;
  x ^= x << 13;
  x ^= x >> 7;
  x ^= x << 17;
  chance->state = x;
  return (uint32_t)((x * UINT64_C(0x2545F4914F6CDD1D)) >> 33) % limit;
}

static void put16(struct sailings *sailings, uint32_t number) {
  sailings->bytes[sailings->length++] = (uint8_t)(number & 255);
  sailings->bytes[sailings->length++] = (uint8_t)(number >> 8 & 255);
}

static void put32(struct sailings *sailings, uint32_t number) {
  put16(sailings, number & 65535);
  put16(sailings, number >> 16);
}

/* A maximum delay and shares that sum to 4,096, the last at least 1. */
static void put_class(struct sailings *sailings, struct chance *chance,
                      uint32_t longest) {
  uint32_t left = 4095;
  put16(sailings, longest);
  for (uint32_t delay = 0; delay < longest; delay++) {
    uint32_t share = below(chance, 3) == 0 ? below(chance, left + 1) : 0;
    put16(sailings, share);
    left -= share;
  }
  put16(sailings, left + 1);
}

struct trips {
  uint32_t used;
  uint32_t stop[MOST_ROWS], arrival[MOST_ROWS];
};

/* Departures never fall; a trip goes on from where it landed, or a new one starts. */
static void put_rows(struct sailings *sailings, struct chance *chance,
                     struct shape shape) {
  static _Thread_local struct trips trips;
  uint32_t departure = below(chance, 600);
  trips.used = 0;
  for (uint32_t row = 0; row < shape.rows; row++) {
    uint32_t room = MOST_MINUTE - 1 - departure;
    uint32_t step = below(chance, shape.spread + 1);
    departure += step < room ? step : room;
    uint32_t trip = trips.used, board = below(chance, shape.stops);
    if (trips.used > 0 && below(chance, 2) == 0) {
      uint32_t earlier = below(chance, trips.used);
      if (trips.arrival[earlier] <= departure) {
        trip = earlier;
        board = trips.stop[earlier];
      }
    }
    uint32_t land = (board + 1 + below(chance, shape.stops - 1)) % shape.stops;
    uint32_t longest = MOST_MINUTE - departure;
    uint32_t ride = 1 + below(chance, longest < 60 ? longest : 60);
    put16(sailings, board);
    put16(sailings, land);
    put16(sailings, departure);
    put16(sailings, departure + ride);
    put16(sailings, trip);
    put16(sailings, below(chance, shape.classes));
    trips.stop[trip] = land;
    trips.arrival[trip] = departure + ride;
    if (trip == trips.used) trips.used++;
  }
}

static void put_classes(struct sailings *sailings, struct chance *chance,
                        struct shape shape) {
  for (uint32_t class = 0; class < shape.classes; class++)
    put_class(sailings, chance,
              shape.longest_delay == 120
                  ? 120
                  : below(chance, shape.longest_delay + 1));
}

/* Two sections in either order, then the trailer. */
void make_sound(struct sailings *sailings, struct chance *chance,
                struct shape shape) {
  uint32_t rows_at = 0, tables_at = 0;
  sailings->length = 0;
  sailings->stops = shape.stops;
  sailings->rows = shape.rows;
  if (below(chance, 2) == 0) {
    put_rows(sailings, chance, shape);
    tables_at = (uint32_t)sailings->length;
    put_classes(sailings, chance, shape);
  } else {
    put_classes(sailings, chance, shape);
    rows_at = (uint32_t)sailings->length;
    put_rows(sailings, chance, shape);
  }
  put16(sailings, 1);
  put16(sailings, shape.stops);
  put16(sailings, shape.rows);
  put16(sailings, shape.classes);
  put32(sailings, rows_at);
  put32(sailings, tables_at);
}

struct shape any_shape(struct chance *chance) {
  static const uint32_t MOST[4] = {6, 30, 200, MOST_ROWS};
  struct shape shape;
  uint32_t size = below(chance, 64);
  shape.stops = 2 + below(chance, below(chance, 8) == 0 ? 199 : 5);
  shape.rows = below(chance, MOST[size < 40 ? 0 : size < 60 ? 1 : size < 63 ? 2 : 3] + 1);
  shape.classes = 1 + below(chance, below(chance, 8) == 0 ? 16 : 3);
  shape.longest_delay = below(chance, 8) == 0 ? 119 : 12;
  shape.spread = below(chance, 30);
  return shape;
}

struct shape largest_shape(void) {
  struct shape shape = {200, MOST_ROWS, 16, 120, 8};
  return shape;
}

static void change_byte(struct sailings *sailings, struct chance *chance,
                        size_t from) {
  size_t at = from + below(chance, (uint32_t)(sailings->length - from));
  sailings->bytes[at] = (uint8_t)(below(chance, 4) == 0 ? below(chance, 256)
                                  : sailings->bytes[at] ^ (1u << below(chance, 8)));
}

/* A few bytes changed anywhere, in the trailer, or bytes cut off or added. */
void damage(struct sailings *sailings, struct chance *chance) {
  switch (below(chance, 4)) {
  case 0:
    sailings->length = below(chance, (uint32_t)sailings->length + 1);
    break;
  case 1:
    for (uint32_t more = 1 + below(chance, 40);
         more > 0 && sailings->length < LONGEST_TRIED; more--)
      sailings->bytes[sailings->length++] = (uint8_t)below(chance, 256);
    break;
  case 2:
    change_byte(sailings, chance, sailings->length - 16);
    break;
  default:
    for (uint32_t changes = 1 + below(chance, 3); changes > 0; changes--)
      change_byte(sailings, chance, 0);
  }
}

void make_random(struct sailings *sailings, struct chance *chance) {
  sailings->length = below(chance, below(chance, 16) == 0 ? LONGEST_TRIED : 120);
  sailings->stops = 2;
  sailings->rows = 0;
  for (size_t at = 0; at < sailings->length; at++)
    sailings->bytes[at] = (uint8_t)below(chance, below(chance, 2) == 0 ? 256 : 4);
}

struct query any_query(struct chance *chance, const struct sailings *sailings) {
  static const uint32_t CODES[8] = {0, 4, 5, 8, 16, 3, 17, UINT32_MAX};
  struct query query;
  uint32_t odd = below(chance, 40);
  query.source = below(chance, sailings->stops);
  query.target = (query.source + 1 + below(chance, sailings->stops - 1)) % sailings->stops;
  query.minute = below(chance, below(chance, 2) == 0 ? 100 : 700);
  query.bound_code = below(chance, 3) == 0 ? CODES[below(chance, 5)] : 0;
  if (odd == 0) query.source = below(chance, 2) == 0 ? sailings->stops : UINT32_MAX;
  if (odd == 1) query.target = below(chance, 2) == 0 ? sailings->stops : UINT32_MAX;
  if (odd == 2) query.minute = below(chance, 2) == 0 ? MOST_MINUTE + 1 : UINT32_MAX;
  if (odd == 3) query.bound_code = CODES[below(chance, 8)];
  if (odd == 4) query.target = query.source;
  if (odd == 5) query.minute = MOST_MINUTE;
  return query;
}
