/* Sailing files and queries made from a seed: sound ones, damaged ones, and bytes at random. */
#ifndef HARD_FILES_H
#define HARD_FILES_H

#include <stddef.h>
#include <stdint.h>

enum {
  MOST_ROWS = 2000,
  LONGEST_FILE = 27920,
  LONGEST_TRIED = 28000,
  MOST_MINUTE = 10079
};

struct chance {
  uint64_t state;
};

/* A number below `limit`, which is above 0. */
uint32_t below(struct chance *chance, uint32_t limit);

struct sailings {
  uint8_t bytes[LONGEST_TRIED];
  size_t length;
  uint32_t stops, rows;
};

/* What is asked of a file. */
struct shape {
  uint32_t stops, rows, classes, longest_delay, spread;
};

struct query {
  uint32_t source, target, minute, bound_code;
};

void make_sound(struct sailings *sailings, struct chance *chance,
                struct shape shape);
struct shape any_shape(struct chance *chance);
struct shape largest_shape(void);
void damage(struct sailings *sailings, struct chance *chance);
void make_random(struct sailings *sailings, struct chance *chance);
struct query any_query(struct chance *chance, const struct sailings *sailings);

#endif
