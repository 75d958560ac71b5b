/* Hard use of the booking desk's call: guards around the lent bytes, the largest file, many calls, many threads, and the stack.
 *
 *   hard CALLS SEED
 */
#define _GNU_SOURCE
#include <inttypes.h>
#include <pthread.h>
#include <stdio.h>
#include <stdlib.h>
#include <string.h>
#include <sys/mman.h>
#include <unistd.h>

#include "files.h"
#include "sayurimpak.h"

enum { THREADS = 8, IN_ONE_PROCESS = 10000, THREADED = 400, PAINT = 0xA5 };

static uint64_t current_seed;

static _Noreturn void fail(const char *what) {
  printf("FAILED at seed %" PRIu64 ": %s\n", current_seed, what);
  exit(1);
}

static void must(int holds, const char *what) {
  if (!holds) fail(what);
}

/* ------------------------------------------------------------ guarded bytes */

/* Pages that may be used, between two that may not. */
struct guarded {
  uint8_t *start;
  size_t size;
};

static size_t page(void) { return (size_t)sysconf(_SC_PAGESIZE); }

static struct guarded guarded(size_t least) {
  struct guarded pages;
  pages.size = (least + page() - 1) / page() * page();
  uint8_t *all = mmap(NULL, pages.size + 2 * page(), PROT_NONE,
                      MAP_PRIVATE | MAP_ANONYMOUS, -1, 0);
  must(all != MAP_FAILED, "no pages");
  pages.start = all + page();
  must(mprotect(pages.start, pages.size, PROT_READ | PROT_WRITE) == 0, "mprotect");
  return pages;
}

/* `length` bytes that touch the guard in front of them, or the one behind. */
static uint8_t *against(struct guarded pages, size_t length, int behind) {
  return behind ? pages.start + pages.size - length : pages.start;
}

/* ------------------------------------------------------------------ one call */

static uint32_t number_at(const uint8_t *bytes) {
  return (uint32_t)bytes[0] | (uint32_t)bytes[1] << 8 | (uint32_t)bytes[2] << 16 |
         (uint32_t)bytes[3] << 24;
}

static uint32_t call(const uint8_t *file, size_t length, struct query q,
                     uint8_t *out, size_t room) {
  return sayurimpak_plan(file, length, q.source, q.target, q.minute, q.bound_code,
                         out, room);
}

static uint64_t tally[SAYURIMPAK_REFUSED + 9];

/* Rides rise by boarding row, leave at the same or a later row of the file, and are worth something. */
static void see_plan(const uint8_t *out, uint32_t rides, uint32_t rows) {
  for (uint32_t i = 0; i < rides; i++) {
    const uint8_t *ride = out + (size_t)SAYURIMPAK_RIDE_BYTES * i;
    uint32_t board = number_at(ride + SAYURIMPAK_BOARDING_ROW);
    uint32_t leave = number_at(ride + SAYURIMPAK_LEAVING_ROW);
    must(board <= leave && leave < rows, "a ride outside of the file");
    must(i == 0 || number_at(ride - SAYURIMPAK_RIDE_BYTES) < board, "rides do not rise");
    must(number_at(ride + SAYURIMPAK_WORTH) > 0, "a ride of no worth");
  }
}

/* The whole slack around `out`, and its bytes behind the plan, are as they were painted. */
static void see_rest(struct guarded pages, const uint8_t *out, size_t written,
                     uint8_t paint) {
  const uint8_t *end = pages.start + pages.size;
  for (const uint8_t *at = pages.start; at < out; at++)
    must(*at == paint, "a byte in front of out was written");
  for (const uint8_t *at = out + written; at < end; at++)
    must(*at == paint, "a byte behind the plan was written");
}

static uint32_t rows_said(const uint8_t *file, size_t length) {
  return length < 16 ? 0
                     : (uint32_t)file[length - 12] | (uint32_t)file[length - 11] << 8;
}

/* The call with its file in read-only pages and its room between guards, twice over other bytes. */
static void guarded_call(struct guarded in, struct guarded out_pages,
                         const struct sailings *sailings, struct query q,
                         size_t room, int behind) {
  uint8_t *file = against(in, sailings->length, behind);
  uint8_t *out = against(out_pages, room, behind);
  memcpy(file, sailings->bytes, sailings->length);
  must(mprotect(in.start, in.size, PROT_READ) == 0, "mprotect");
  memset(out_pages.start, PAINT, out_pages.size);
  uint32_t answer = call(file, sailings->length, q, out, room);
  int refused = answer > SAYURIMPAK_REFUSED;
  must(refused ? answer <= SAYURIMPAK_REFUSED + 8 : answer >= 1 && answer <= MOST_ROWS,
       "an answer that the header does not name");
  size_t written = refused ? 0 : (size_t)SAYURIMPAK_RIDE_BYTES * answer;
  must(written <= room, "more rides than room");
  see_rest(out_pages, out, written, PAINT);
  if (!refused) see_plan(out, answer, rows_said(file, sailings->length));
  tally[refused ? answer : 0]++;

  static uint8_t first[SAYURIMPAK_MOST_BYTES];
  memcpy(first, out, written);
  memset(out_pages.start, 0, out_pages.size);
  must(call(file, sailings->length, q, out, room) == answer, "another answer");
  must(memcmp(first, out, written) == 0, "another plan");
  see_rest(out_pages, out, written, 0);
  must(mprotect(in.start, in.size, PROT_READ | PROT_WRITE) == 0, "mprotect");
}

/* Around 12n, the whole room, or any. */
static size_t any_room(struct chance *chance, size_t need) {
  switch (below(chance, 8)) {
  case 0: return need > 0 ? need - 1 : 0;
  case 1: return need;
  case 2: return below(chance, (uint32_t)need + 100);
  case 3: return need + 1 + below(chance, 64);
  default: return need > 2400 ? SAYURIMPAK_MOST_BYTES : 2400;
  }
}

static void fuzz(uint64_t calls, uint64_t seed) {
  static struct sailings sailings;
  struct guarded in = guarded(LONGEST_TRIED);
  struct guarded small = guarded(2600), large = guarded(SAYURIMPAK_MOST_BYTES + 100);
  for (uint64_t i = 0; i < calls; i++) {
    current_seed = seed + i;
    struct chance chance = {(current_seed + 1) * UINT64_C(0x9E3779B97F4A7C15)};
    uint32_t kind = below(&chance, 8);
    if (kind == 0)
      make_random(&sailings, &chance);
    else
      make_sound(&sailings, &chance, any_shape(&chance));
    if (kind == 1 || kind == 2) damage(&sailings, &chance);
    size_t room = any_room(&chance, (size_t)12 * sailings.rows);
    struct query q = any_query(&chance, &sailings);
    guarded_call(in, room <= small.size ? small : large, &sailings, q, room,
                 (int)below(&chance, 2));
  }
  printf("guarded calls: %" PRIu64 " files, plans %" PRIu64, calls, tally[0]);
  for (uint32_t number = 1; number <= 8; number++)
    printf(", refused %" PRIu32 ": %" PRIu64, number, tally[SAYURIMPAK_REFUSED + number]);
  printf("\n");
}

/* ------------------------------------------------- the largest file, many calls */

static uint64_t mix(uint64_t sum, uint64_t more) {
  return (sum ^ more) * UINT64_C(0x100000001B3);
}

static uint64_t sum_of(uint32_t answer, const uint8_t *out, size_t room) {
  uint64_t sum = mix(UINT64_C(0xCBF29CE484222325), answer);
  for (size_t at = 0; at < room; at++) sum = mix(sum, out[at]);
  return sum;
}

static void largest(void) {
  static struct sailings sailings;
  struct guarded in = guarded(LONGEST_TRIED), out = guarded(SAYURIMPAK_MOST_BYTES);
  uint32_t plans = 0;
  for (uint64_t seed = 0; seed < 40; seed++) {
    struct chance chance = {(seed + 7) * UINT64_C(0x9E3779B97F4A7C15)};
    current_seed = seed;
    make_sound(&sailings, &chance, largest_shape());
    must(sailings.length == LONGEST_FILE, "the largest file has another length");
    struct query q = any_query(&chance, &sailings);
    uint64_t before = tally[0];
    guarded_call(in, out, &sailings, q, SAYURIMPAK_MOST_BYTES, (int)(seed % 2));
    plans += (uint32_t)(tally[0] - before);
  }
  must(plans > 0, "no plan in a largest file");
  printf("largest files of %d bytes: 40, plans %" PRIu32 "\n", LONGEST_FILE, plans);
}

static void in_one_process(void) {
  static struct sailings sailings;
  static uint8_t out[2400];
  struct chance chance = {99};
  struct shape shape = {6, 60, 3, 12, 6};
  make_sound(&sailings, &chance, shape);
  struct query q = {0, 1, 0, 0};
  uint64_t first = 0;
  for (int i = 0; i < IN_ONE_PROCESS; i++) {
    memset(out, PAINT, sizeof out);
    uint64_t sum = sum_of(call(sailings.bytes, sailings.length, q, out, sizeof out), out, sizeof out);
    if (i == 0) first = sum;
    must(sum == first, "a later call differs");
  }
  printf("calls in one process: %d, all alike\n", IN_ONE_PROCESS);
}

/* -------------------------------------------------------------------- threads */

static uint64_t threaded_sum(uint64_t seed) {
  static _Thread_local struct sailings sailings;
  static _Thread_local uint8_t out[SAYURIMPAK_MOST_BYTES];
  struct chance chance = {(seed + 3) * UINT64_C(0x9E3779B97F4A7C15)};
  make_sound(&sailings, &chance, any_shape(&chance));
  struct query q = any_query(&chance, &sailings);
  memset(out, PAINT, sizeof out);
  return sum_of(call(sailings.bytes, sailings.length, q, out, sizeof out), out, sizeof out);
}

static uint64_t alone[THREADED];

static void *in_a_thread(void *first) {
  uintptr_t differences = 0;
  for (int i = 0; i < THREADED; i++) {
    int which = (i + (int)(intptr_t)first * 37) % THREADED;
    if (threaded_sum((uint64_t)which) != alone[which]) differences++;
  }
  return (void *)differences;
}

static void threads(void) {
  pthread_t all[THREADS];
  for (int i = 0; i < THREADED; i++) alone[i] = threaded_sum((uint64_t)i);
  for (int i = 0; i < THREADS; i++)
    must(pthread_create(&all[i], NULL, in_a_thread, (void *)(intptr_t)i) == 0, "no thread");
  for (int i = 0; i < THREADS; i++) {
    void *differences;
    must(pthread_join(all[i], &differences) == 0, "no join");
    must(differences == NULL, "a threaded call differs from a call alone");
  }
  printf("threads: %d at once, %d calls each, all as alone\n", THREADS, THREADED);
}

/* ---------------------------------------------------------------------- stack */

static struct sailings deep;
static uint8_t deep_out[SAYURIMPAK_MOST_BYTES];
static struct query deep_query;
static uint32_t deep_answer;

static void *call_deep(void *nothing) {
  deep_answer = call(deep.bytes, deep.length, deep_query, deep_out, sizeof deep_out);
  return nothing;
}

static void *call_nothing(void *nothing) { return nothing; }

/* How deep a thread's painted stack was written. */
static size_t depth(void *(*work)(void *)) {
  enum { STACK = 1 << 20 };
  uint8_t *stack = mmap(NULL, STACK, PROT_READ | PROT_WRITE, MAP_PRIVATE | MAP_ANONYMOUS, -1, 0);
  pthread_attr_t attributes;
  pthread_t thread;
  must(stack != MAP_FAILED, "no stack");
  memset(stack, PAINT, STACK);
  must(pthread_attr_init(&attributes) == 0 && pthread_attr_setstack(&attributes, stack, STACK) == 0,
       "no stack for a thread");
  must(pthread_create(&thread, &attributes, work, NULL) == 0, "no thread");
  must(pthread_join(thread, NULL) == 0, "no join");
  size_t untouched = 0;
  while (untouched < STACK && stack[untouched] == PAINT) untouched++;
  munmap(stack, STACK);
  return STACK - untouched;
}

static void stack(void) {
  struct chance chance = {5};
  make_sound(&deep, &chance, largest_shape());
  deep_query = (struct query){0, 1, 0, 16};
  size_t empty = depth(call_nothing), full = depth(call_deep);
  printf("stack: %zu bytes of the stated %u (answer %" PRIu32 ")\n", full - empty, SAYURIMPAK_STACK_BYTES, deep_answer);
  must(full - empty < SAYURIMPAK_STACK_BYTES, "more stack than the header says");
}

int main(int count, char **words) {
  must(count == 3, "hard CALLS SEED");
  fuzz(strtoull(words[1], NULL, 10), strtoull(words[2], NULL, 10));
  largest();
  in_one_process();
  threads();
  stack();
  return 0;
}
