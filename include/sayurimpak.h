/*
 * sayurimpak.h -- plans for a booking desk
 *
 * A call reads a sailing file, finds the safe plan whose expected arrival is
 * earliest, or one without the rides that gain little, and writes it to bytes
 * of yours. It is proved, for every file, query and room, that the answer and
 * every byte of `out` afterwards are what this page says. The small readers at
 * the end are plain C and not proved; they are run against the sheet program.
 *
 * Build, with the archive's lib/pkgconfig on PKG_CONFIG_PATH:
 *   cc -std=c99 host.c $(pkg-config --cflags --libs sayurimpak) -o host
 * or without:
 *   cc -std=c99 -Iinclude host.c lib/libsayurimpak.a -o host
 * The library is for x86-64 Linux.
 */
#ifndef SAYURIMPAK_H
#define SAYURIMPAK_H

#include <stddef.h>
#include <stdint.h>

#ifdef __cplusplus
extern "C" {
#endif

/* Of this header and the library beside it: it rises with every call added. */
#define SAYURIMPAK_VERSION 3

/*
 * The sailing file
 * ----------------
 * Numbers are little-endian: u16 of two bytes, u32 of four.
 *   The last 16 bytes are the trailer:
 *     byte 0 version (u16, 1)      byte 2 stops (u16)     byte 4 rows (u16)
 *     byte 6 classes (u16)         byte 8 where the rows start (u32)
 *     byte 12 where the class blocks start (u32)
 *   A row is six u16, 12 bytes:
 *     byte 0 boarding stop         byte 2 landing stop    byte 4 departure
 *     byte 6 arrival               byte 8 trip            byte 10 class
 *   A class block, one behind the other: its maximum delay M (u16), then M + 1
 *   shares (u16), of 4,096 landings those exactly 0, 1, .. M minutes late.
 * Stops, rows, trips and classes count from 0, minutes from the midnight that
 * opens day 1; a day has 1,440. docs/FORMAT.md has every rule and limit.
 */
#define SAYURIMPAK_LONGEST_FILE 27920u
#define SAYURIMPAK_TRAILER_BYTES 16u
#define SAYURIMPAK_ROW_BYTES 12u
#define SAYURIMPAK_DAY_MINUTES 1440u
#define SAYURIMPAK_LAST_MINUTE 10079u
#define SAYURIMPAK_TICKS_A_MINUTE 256u

/* Margins, in ticks: 1 leaves out no ride that gains, 2,560 are 10 minutes. */
#define SAYURIMPAK_LEAST_MARGIN 1u
#define SAYURIMPAK_MOST_MARGIN 2560u

/* Gate times, in minutes: with 0 gates are open until departure. */
#define SAYURIMPAK_MOST_GATE 30u

/*
 * What a call answers
 * -------------------
 * Below SAYURIMPAK_REFUSED: the plan's ride count, 1 to 2,000.
 * Above it:                 SAYURIMPAK_REFUSED plus a refusal's number, 1 to 8.
 * (Higher numbers are those of other programs, as 9 and 11 to 13 of `import`, 14 to 16 of `tables`.)
 *
 * Refusals are looked for in this order, and the first is answered:
 *
 *   1  the file's length is not 20 to 27,920 bytes, or its trailer has another
 *      version than 1, or stops (2 to 200), rows (0 to 2,000) or classes (1 to
 *      16) out of range.
 *      -> Is it a sailing file, and whole? If it counts too many rows, fewer
 *         days in one file help.
 *   2  a class block runs past the trailer's start, or the two sections do not
 *      join: one starts at 0, the other where it ends, the second ends where
 *      the trailer starts.
 *   3  a class is wrong: maximum delay above 120, shares that do not sum to
 *      4,096, or a last share of 0.
 *      (2 and 3 are looked for class by class, then the joining: 2.)
 *   4  a row is wrong by itself: a stop not below the stops, boarding stop
 *      equals landing stop, departure not before arrival, a minute above
 *      10,079, a trip not below 2,000, a class not below the classes.
 *   5  a row departs before the row ahead of it, or does not carry on where
 *      and when its trip last landed.
 *      (4 and 5 are looked for row by row, 4 first.)
 *      -> 2 to 5: bytes were lost, or the file was made wrongly. Ask for it
 *         again; if it stays so, whoever makes it has to correct it. The
 *         program `explain` names the class or the row.
 *   6  the query is wrong: source or target is not below the file's stops, they
 *      are equal, the minute is above 10,079, the bound code is not 0 or 4 to
 *      16, the margin is not 1 to 2,560, or the gate time is above 30.
 *      -> Correct the numbers that are passed. A margin is in ticks, 256 a
 *         minute; 1 stands for none. A gate time is in minutes; 0 stands for
 *         none.
 *   7  out_len is below 12 bytes for each of the file's rows.
 *      -> Lend SAYURIMPAK_MOST_BYTES, which is enough for every file.
 *   8  there is no safe journey from the source at or after the minute to the
 *      target, with gates that close as early as was asked.
 *      -> A later minute or a larger gate time cannot help, nor can another
 *         bound code or margin, since these never cause 8. An earlier minute,
 *         another target, next week's file, a relief sailing or, where gates
 *         can stay open longer, a smaller gate time can; `explain` says until
 *         when, and from where, there is a safe journey.
 */
#define SAYURIMPAK_REFUSED 10000u

enum sayurimpak_refusal {
  SAYURIMPAK_BAD_SIZES = 1,
  SAYURIMPAK_BAD_SECTIONS = 2,
  SAYURIMPAK_BAD_CLASS = 3,
  SAYURIMPAK_BAD_ROW = 4,
  SAYURIMPAK_BAD_ORDER = 5,
  SAYURIMPAK_BAD_QUERY = 6,
  SAYURIMPAK_NO_ROOM = 7,
  SAYURIMPAK_NO_JOURNEY = 8
};

/* Room that no file exceeds: 12 bytes a row, at most 2,000 rows. */
#define SAYURIMPAK_MOST_BYTES 24000u

/* Stack that a call needs, with room to spare: some 83,500 bytes were measured. */
#define SAYURIMPAK_STACK_BYTES 131072u

/* Bytes of a ride in `out`, and where its three numbers start. */
#define SAYURIMPAK_RIDE_BYTES 12u
#define SAYURIMPAK_BOARDING_ROW 0u
#define SAYURIMPAK_LEAVING_ROW 4u
#define SAYURIMPAK_WORTH 8u

/*
 * sayurimpak_plan
 * ---------------
 * file, file_len   the sailing file's bytes. They are only read.
 * source, target   stops, by their numbers in the file.
 * minute           when the passenger stands at the source, in minutes from the
 *                  midnight that opens day 1: 0 to 10,079.
 * bound_code       0 for no bound; 4 to 16 to bound every landing by quarters:
 *                  minute + bound_code * (E - minute) / 4, rounded down, where
 *                  E is the earliest safe arrival. 4 asks for E itself.
 * out, out_len     bytes to write the plan to.
 *
 * The plan in `out`: 12 bytes a ride, rides by boarding row rising. Three
 * numbers a ride, each of four bytes, the lowest byte first on every machine:
 *
 *   bytes 0 to 3    the row where the passenger boards
 *   bytes 4 to 7    the row where the passenger leaves (the same, or a later
 *                   row of the same trip); its arrival and its class are the
 *                   ride's
 *   bytes 8 to 11   what the ride is worth: the expected arrival at the target
 *                   after boarding it, in ticks of 1/256 minute
 *
 * How to follow it: ride 0 is the first ride, and its worth is the plan's
 * expected arrival. Whoever lands short of the target takes the first ride of
 * the plan from that stop that departs in that very minute or later. The latest
 * arrival is the largest, over all rides, of the leaving row's arrival plus its
 * class's maximum delay (sayurimpak_latest works it out).
 *
 * The limit of the promise: as long as no ride is later than its class's
 * maximum delay, such a ride is always there and the target is reached by the
 * latest arrival. Where one is later, or does not sail, call again for the stop
 * and the minute where the passenger stands.
 *
 * What stays: bytes of `out` behind the plan's last ride, and all of them on a
 * refusal. Nothing else of yours is written.
 *
 * What you must see to:
 *   - `file` points to file_len bytes that may be read, and `out` to out_len
 *     bytes that may be written, for the whole call. No other thread writes to
 *     the first, or reads or writes the second, meanwhile.
 *   - Neither pointer is null, not even with length 0. With length 0 the
 *     address of any object does; nothing is read or written there. A null
 *     pointer is outside of what is proved, whatever its length.
 *   - `file` and `out` do not overlap, not in a single byte.
 *   - A length is at most PTRDIFF_MAX, as the size of any object is.
 *   - SAYURIMPAK_STACK_BYTES of stack are left.
 *
 * The call keeps nothing between calls, has no variables of its own outside of
 * its stack, takes no memory from the heap, reads no clock and no file, and
 * always returns. Any number of threads may call it at once.
 *
 * Example:
 *
 *   uint8_t out[SAYURIMPAK_MOST_BYTES];
 *   uint32_t rides = sayurimpak_plan(file, file_len, 0, 2, 590, 0,
 *                                    out, sizeof out);
 *   if (rides > SAYURIMPAK_REFUSED)
 *     puts(sayurimpak_refusal_words(rides - SAYURIMPAK_REFUSED));
 *
 * examples/host.c is a whole program.
 */
uint32_t sayurimpak_plan(const uint8_t *file, size_t file_len, uint32_t source,
                         uint32_t target, uint32_t minute, uint32_t bound_code,
                         uint8_t *out, size_t out_len);

/*
 * sayurimpak_plan_margin
 * ----------------------
 * The same without the rides that gain only seconds: a shorter plan, as a rule.
 *
 * margin           in ticks, SAYURIMPAK_LEAST_MARGIN to SAYURIMPAK_MOST_MARGIN;
 *                  SAYURIMPAK_TICKS_A_MINUTE asks for a minute. With 1 it is
 *                  the call above: the same answer, and the same bytes of `out`.
 *
 * What it does: of two rides of the plan from one stop the earlier is worth at
 * least the margin less. A ride that gains less on the next is left out, and the
 * plan may then begin with another ride, which not always needs fewer behind it.
 *
 * What it costs: the expected arrival may be later than with margin 1, which is
 * the earliest there is, by at most (margin - 1) * L ticks, where L is the most
 * rides boarded on any way through the plan with margin 1.
 *
 * What stays: whether there is a plan, E and the bound, and all that is said
 * above of the answer, the plan in `out`, how to follow it, the limit of the
 * promise and what you must see to.
 */
uint32_t sayurimpak_plan_margin(const uint8_t *file, size_t file_len,
                                uint32_t source, uint32_t target,
                                uint32_t minute, uint32_t bound_code,
                                uint32_t margin, uint8_t *out, size_t out_len);

/*
 * sayurimpak_plan_gate
 * --------------------
 * The same where piers shut the gate some minutes before departure.
 *
 * margin           as above.
 * gate             in minutes, 0 to SAYURIMPAK_MOST_GATE. With 0 it is the call
 *                  above, and with 0 and a margin of 1 the first call: the same
 *                  answer, and the same bytes of `out`.
 *
 * What it does: a ride that departs at minute d is caught by those who stand at
 * its stop at d - gate or before, and missed by those who come later. So it is
 * for one who lands, and at the source for the query's minute. A safe journey
 * goes on at a + M + gate or later behind a ride that arrives at a and has a
 * maximum delay of M. Staying aboard needs no gate.
 *
 * How to follow it: be at the first ride's gate by its departure minus gate.
 * Whoever lands short of the target at minute x takes the first ride of the
 * plan from that stop that departs at x + gate or later.
 *
 * What it costs: rides that depart too soon behind a landing are lost, so that
 * E can be later than with a smaller gate time, and there can be no plan where
 * a smaller one has a plan. E is worked out with the gate time, and the bound
 * by this E.
 *
 * What stays: all that is said above of the answer, the plan in `out`, the
 * limit of the promise and what you must see to. Arrivals, worths and the
 * latest arrival end with the landing; no gate time is added to them. With
 * margin 1 no safe plan with this gate time is expected to arrive earlier
 * within the bound, and another margin costs no more than is said above.
 */
uint32_t sayurimpak_plan_gate(const uint8_t *file, size_t file_len,
                              uint32_t source, uint32_t target,
                              uint32_t minute, uint32_t bound_code,
                              uint32_t margin, uint32_t gate, uint8_t *out,
                              size_t out_len);

/*
 * These calls will stay as they are. A request that adds a number to the query
 * adds a call with a name of its own, which takes all the numbers known by then.
 */

/*
 * Readers
 * -------
 * For a file and a plan that a call has answered with rides, and for row, class
 * and ride numbers below their counts: they look at no other bytes and check
 * nothing.
 */
struct sayurimpak_row {
  uint32_t boarding_stop, landing_stop, departure, arrival, trip, sailing_class;
};

struct sayurimpak_ride {
  uint32_t boarding_row, leaving_row, worth;
};

struct sayurimpak_time {
  uint32_t day, hour, minute;
};

static inline uint32_t sayurimpak_u16(const uint8_t *bytes) {
  return (uint32_t)bytes[0] | (uint32_t)bytes[1] << 8;
}

static inline uint32_t sayurimpak_u32(const uint8_t *bytes) {
  return sayurimpak_u16(bytes) | sayurimpak_u16(bytes + 2) << 16;
}

static inline const uint8_t *sayurimpak_trailer(const uint8_t *file,
                                                size_t file_len) {
  return file + (file_len - SAYURIMPAK_TRAILER_BYTES);
}

/* A row by its number. */
static inline struct sayurimpak_row sayurimpak_row(const uint8_t *file,
                                                   size_t file_len,
                                                   uint32_t number) {
  const uint8_t *trailer = sayurimpak_trailer(file, file_len);
  const uint8_t *bytes = file + sayurimpak_u32(trailer + 8) +
                         (size_t)SAYURIMPAK_ROW_BYTES * number;
  struct sayurimpak_row row;
  row.boarding_stop = sayurimpak_u16(bytes);
  row.landing_stop = sayurimpak_u16(bytes + 2);
  row.departure = sayurimpak_u16(bytes + 4);
  row.arrival = sayurimpak_u16(bytes + 6);
  row.trip = sayurimpak_u16(bytes + 8);
  row.sailing_class = sayurimpak_u16(bytes + 10);
  return row;
}

/* A class's maximum delay, by the class's number. */
static inline uint32_t sayurimpak_maximum_delay(const uint8_t *file,
                                                size_t file_len,
                                                uint32_t number) {
  const uint8_t *trailer = sayurimpak_trailer(file, file_len);
  const uint8_t *block = file + sayurimpak_u32(trailer + 12);
  for (; number > 0; number--) block += 4 + 2 * (size_t)sayurimpak_u16(block);
  return sayurimpak_u16(block);
}

/* A ride of the plan in `out`, by its place from 0. */
static inline struct sayurimpak_ride sayurimpak_ride(const uint8_t *out,
                                                     uint32_t place) {
  const uint8_t *bytes = out + (size_t)SAYURIMPAK_RIDE_BYTES * place;
  struct sayurimpak_ride ride;
  ride.boarding_row = sayurimpak_u32(bytes + SAYURIMPAK_BOARDING_ROW);
  ride.leaving_row = sayurimpak_u32(bytes + SAYURIMPAK_LEAVING_ROW);
  ride.worth = sayurimpak_u32(bytes + SAYURIMPAK_WORTH);
  return ride;
}

/* The latest arrival of a plan of so many rides, in minutes. */
static inline uint32_t sayurimpak_latest(const uint8_t *file, size_t file_len,
                                         const uint8_t *out, uint32_t rides) {
  uint32_t latest = 0;
  for (uint32_t place = 0; place < rides; place++) {
    const struct sayurimpak_row row = sayurimpak_row(
        file, file_len, sayurimpak_ride(out, place).leaving_row);
    const uint32_t landing =
        row.arrival +
        sayurimpak_maximum_delay(file, file_len, row.sailing_class);
    if (latest < landing) latest = landing;
  }
  return latest;
}

/* Ticks as a minute, rounded up, as sheets print an expected arrival. */
static inline uint32_t sayurimpak_minute(uint32_t ticks) {
  return ticks / SAYURIMPAK_TICKS_A_MINUTE +
         (ticks % SAYURIMPAK_TICKS_A_MINUTE != 0);
}

/* A minute as day (from 1), hour and minute. */
static inline struct sayurimpak_time sayurimpak_time(uint32_t minute) {
  struct sayurimpak_time time;
  time.day = minute / SAYURIMPAK_DAY_MINUTES + 1;
  time.hour = minute % SAYURIMPAK_DAY_MINUTES / 60;
  time.minute = minute % 60;
  return time;
}

/* A refusal's number, 1 to 8, in a few words. */
static inline const char *sayurimpak_refusal_words(uint32_t number) {
  switch (number) {
  case SAYURIMPAK_BAD_SIZES: return "no sailing file of version 1, or too large";
  case SAYURIMPAK_BAD_SECTIONS: return "the sailing file's sections do not join";
  case SAYURIMPAK_BAD_CLASS: return "a class of the sailing file is wrong";
  case SAYURIMPAK_BAD_ROW: return "a row of the sailing file is wrong";
  case SAYURIMPAK_BAD_ORDER: return "a row is out of order, or breaks off its trip";
  case SAYURIMPAK_BAD_QUERY:
    return "a stop, minute, bound code, margin or gate time is wrong";
  case SAYURIMPAK_NO_ROOM: return "too little room for the plan";
  case SAYURIMPAK_NO_JOURNEY: return "there is no safe journey";
  default: return "no refusal";
  }
}

#ifdef __cplusplus
}
#endif

#endif
