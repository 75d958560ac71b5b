/* Plans all queries of a shape, TURNS times over: turns FILE QUERIES TURNS. Prints the sum of the ride counts. */
#include <stdio.h>
#include <stdlib.h>

#include "trial.h"

static uint8_t file[40000], asked[40000];
static uint32_t work[10500], rides[6000], answer[6];

static size_t load(const char *path, uint8_t *room, size_t size) {
  FILE *from = fopen(path, "rb");
  if (!from) exit(2);
  size_t length = fread(room, 1, size, from);
  fclose(from);
  return length;
}

static uint32_t number_at(const uint8_t *at) {
  return (uint32_t)at[0] | (uint32_t)at[1] << 8 | (uint32_t)at[2] << 16 | (uint32_t)at[3] << 24;
}

int main(int words, char **word) {
  if (words != 4) return 2;
  size_t length = load(word[1], file, sizeof file), queries = load(word[2], asked, sizeof asked);
  unsigned long count = 0;
  for (int turn = atoi(word[3]); turn > 0; turn--)
    for (const uint8_t *q = asked; q < asked + queries; q += 16) {
      trial_plan(file, length, number_at(q), number_at(q + 4), number_at(q + 8), number_at(q + 12), work, 10500, rides, 6000, answer, 6);
      count += answer[2];
    }
  printf("%lu\n", count);
  return 0;
}
