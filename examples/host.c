/*
 * A booking desk in C99: plans a query and prints its sheet.
 *   host FILE SOURCE TARGET MINUTE [BOUND [MARGIN [GATE]]]
 * FILE is a sailing file; the others are numbers, as sayurimpak_plan_gate takes
 * them. Without a margin every ride that gains is on the sheet; without a gate
 * time gates are open until departure.
 * The exit status is 0 after a whole sheet, 1 after a refusal, 2 otherwise.
 */
#include <errno.h>
#include <inttypes.h>
#include <stdio.h>
#include <stdlib.h>
#include <string.h>

#include "sayurimpak.h"

enum { REFUSED = 1, TROUBLE = 2 };

/* One byte more than the longest file, so that a longer one is seen as such. */
static uint8_t file[SAYURIMPAK_LONGEST_FILE + 1];
static uint8_t plan[SAYURIMPAK_MOST_BYTES];

static int trouble(const char *what, const char *why) {
  fprintf(stderr, "host: %s: %s\n", what, why);
  return TROUBLE;
}

/* Reads the file's bytes; whether that went well. */
static int read_file(const char *path, size_t *length) {
  FILE *in = fopen(path, "rb");
  if (in == NULL) return 0;
  *length = fread(file, 1, sizeof file, in);
  const int well = !ferror(in);
  fclose(in);
  return well;
}

/* A number of plain digits that fits 32 bits; whether the word is one. */
static int read_number(const char *word, uint32_t *number) {
  if (*word == '\0' || strspn(word, "0123456789") != strlen(word)) return 0;
  errno = 0;
  const unsigned long long value = strtoull(word, NULL, 10);
  if (errno != 0 || value > UINT32_MAX) return 0;
  *number = (uint32_t)value;
  return 1;
}

static void print_time(const char *before, uint32_t minute) {
  const struct sayurimpak_time time = sayurimpak_time(minute);
  printf("%sd%" PRIu32 " %02" PRIu32 ":%02" PRIu32, before, time.day, time.hour,
         time.minute);
}

static void print_ride(size_t length, struct sayurimpak_ride ride) {
  const struct sayurimpak_row board =
      sayurimpak_row(file, length, ride.boarding_row);
  const struct sayurimpak_row leave =
      sayurimpak_row(file, length, ride.leaving_row);
  printf("%" PRIu32, board.boarding_stop);
  print_time(" ", board.departure);
  printf(" %" PRIu32, leave.landing_stop);
  print_time(" ", leave.arrival);
  print_time(" ", sayurimpak_minute(ride.worth));
  printf("\n");
}

/* The sheet: rides, expected and latest arrival, then a line a ride. */
static void print_sheet(size_t length, uint32_t rides) {
  printf("plan %" PRIu32, rides);
  print_time(" ", sayurimpak_minute(sayurimpak_ride(plan, 0).worth));
  print_time(" ", sayurimpak_latest(file, length, plan, rides));
  printf("\n");
  for (uint32_t place = 0; place < rides; place++)
    print_ride(length, sayurimpak_ride(plan, place));
}

int main(int count, char **words) {
  uint32_t asked[6] = {0, 0, 0, 0, SAYURIMPAK_LEAST_MARGIN, 0};
  size_t length;
  if (count < 5 || count > 8)
    return trouble("usage",
                   "host FILE SOURCE TARGET MINUTE [BOUND [MARGIN [GATE]]]");
  for (int place = 2; place < count; place++)
    if (!read_number(words[place], &asked[place - 2]))
      return trouble(words[place], "not a number");
  if (!read_file(words[1], &length))
    return trouble(words[1], "cannot be read");
  const uint32_t answer =
      sayurimpak_plan_gate(file, length, asked[0], asked[1], asked[2], asked[3],
                           asked[4], asked[5], plan, sizeof plan);
  if (answer < SAYURIMPAK_REFUSED) {
    print_sheet(length, answer);
  } else {
    const uint32_t number = answer - SAYURIMPAK_REFUSED;
    printf("refused %" PRIu32 "\n", number);
    fprintf(stderr, "host: %s\n", sayurimpak_refusal_words(number));
  }
  if (fflush(stdout) != 0 || ferror(stdout))
    return trouble("standard output", "could not be written");
  return answer < SAYURIMPAK_REFUSED ? 0 : REFUSED;
}
