/* The other side of the comparison: a planner as a static library with these
 * seven calls. Numbers and buffers only. `answer_len` is 6 in all calls; the
 * call fills answer[0] to answer[5], unused entries with 0, and on a refusal
 * everything after number and place with 0. */
#ifndef SECOND_SUBJECT_H
#define SECOND_SUBJECT_H

#include <stddef.h>
#include <stdint.h>

#ifdef __cplusplus
extern "C" {
#endif

/* answer: number (0 for a sound file), place, S, n, K */
void trial_check(const uint8_t *file, size_t file_len, uint32_t *answer,
                   size_t answer_len);

/* answer: number (0 for a plan), place, rides, expected ticks, latest minute,
 * bound (0 for none) */
void trial_plan(const uint8_t *file, size_t file_len, uint32_t source,
                  uint32_t target, uint32_t minute, uint32_t code,
                  uint32_t *work, size_t work_len, uint32_t *plan,
                  size_t plan_len, uint32_t *answer, size_t answer_len);

/* the same with a margin; trial_plan has margin 1 */
void trial_plan_margin(const uint8_t *file, size_t file_len, uint32_t source,
                         uint32_t target, uint32_t minute, uint32_t code,
                         uint32_t margin, uint32_t *work, size_t work_len,
                         uint32_t *plan, size_t plan_len, uint32_t *answer,
                         size_t answer_len);

/* the same with a margin and a gate time; the two above have gate 0 */
void trial_plan_gate(const uint8_t *file, size_t file_len, uint32_t source,
                     uint32_t target, uint32_t minute, uint32_t code,
                     uint32_t margin, uint32_t gate, uint32_t *work,
                     size_t work_len, uint32_t *plan, size_t plan_len,
                     uint32_t *answer, size_t answer_len);

/* answer: number (0 for an arrival), place, E */
void trial_earliest(const uint8_t *file, size_t file_len, uint32_t source,
                      uint32_t target, uint32_t minute, uint32_t *work,
                      size_t work_len, uint32_t *answer, size_t answer_len);

/* the same with a gate time; trial_earliest has gate 0 */
void trial_earliest_gate(const uint8_t *file, size_t file_len, uint32_t source,
                         uint32_t target, uint32_t minute, uint32_t gate,
                         uint32_t *work, size_t work_len, uint32_t *answer,
                         size_t answer_len);

/* answer: number (0 for a share), place, cumulative share */
void trial_house(uint32_t pair, uint32_t minute, uint32_t *answer,
                   size_t answer_len);

#ifdef __cplusplus
}
#endif

#endif
