/* The stack that one import takes: a thread's painted stack, written by a call on a text of the most rows, and by a call that is refused. */
#include <inttypes.h>
#include <pthread.h>
#include <stdint.h>
#include <stdio.h>
#include <stdlib.h>
#include <string.h>
#include <sys/mman.h>

#include "../second_import/trial_import.h"

enum { MOST = 256 * 1024, STACK = 1 << 20, PAINT = 0xa5, TRIPS = 1000, ROOM = 27920 };

static char text[TRIPS * 3 * 40 + 100];
static size_t bytes;
static uint8_t out[ROOM];
static uint32_t answer[6];

static void must(int holds, const char *what) {
  if (!holds) {
    printf("import_stack: %s\n", what);
    exit(1);
  }
}

/* 1,000 trips of three calls each, so 2,000 rows, at 200 stops. */
static void write_text(void) {
  int end = sprintf(text, "trip_id,arrival_time,departure_time,stop_id,stop_sequence\n");
  for (int trip = 0; trip < TRIPS; trip++)
    for (int call = 0; call < 3; call++)
      end += sprintf(text + end, "t%d,%d:%02d:00,%d:%02d:00,s%d,%d\n", trip, 5 + call, trip % 60, 5 + call, trip % 60,
                     (trip + call) % 200, call + 1);
  bytes = (size_t)end;
}

static void *nothing(void *given) { return given; }

static void *one_import(void *day) {
  trial_import((const uint8_t *)text, bytes, *(uint32_t *)day, out, ROOM, answer, 6);
  return NULL;
}

/* How deep a thread's painted stack was written. */
static size_t depth(void *(*work)(void *), uint32_t day) {
  uint8_t *stack = mmap(NULL, STACK, PROT_READ | PROT_WRITE, MAP_PRIVATE | MAP_ANONYMOUS, -1, 0);
  pthread_attr_t attributes;
  pthread_t thread;
  size_t untouched = 0;
  must(stack != MAP_FAILED, "no stack");
  memset(stack, PAINT, STACK);
  must(pthread_attr_init(&attributes) == 0 && pthread_attr_setstack(&attributes, stack, STACK) == 0, "no stack for a thread");
  must(pthread_create(&thread, &attributes, work, &day) == 0 && pthread_join(thread, NULL) == 0, "no thread");
  while (untouched < STACK && stack[untouched] == PAINT) untouched++;
  munmap(stack, STACK);
  return STACK - untouched;
}

int main(void) {
  write_text();
  size_t empty = depth(nothing, 1);
  size_t full = depth(one_import, 1);
  must(answer[0] == 0 && answer[2] == 200 && answer[3] == 2 * TRIPS, "the text was not imported");
  size_t refused = depth(one_import, 8);
  must(answer[0] == 6, "day 8 was not refused");
  printf("import_stack: %zu bytes, refused %zu, of at most %d\n", full - empty, refused - empty, MOST);
  must(full - empty < MOST && refused <= full, "more stack than is said");
  return 0;
}
