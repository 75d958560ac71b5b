/* What the other side of the comparison provides, as a static library: request
 * E4's two calls on numbers alone. A tally is 122 numbers: the landings that
 * were 0, 1, .. 120 minutes late, and last those that were later still. */
#ifndef SECOND_TALLY_SUBJECT_H
#define SECOND_TALLY_SUBJECT_H

#include <stddef.h>
#include <stdint.h>

#ifdef __cplusplus
extern "C" {
#endif

/* Counts a landing, given by its planned and its actual minute, in the 122
 * numbers at `tally`. answer_len is 6. answer: number (0 if it was counted, or
 * the refusal), place, and four times 0. */
void trial_tally(uint32_t planned, uint32_t actual, uint32_t *tally,
                 uint32_t *answer, size_t answer_len);

/* Makes a table of the 122 numbers at `tally`; its M+1 shares go to the start
 * of the 121 numbers at `shares`. answer_len is 6. answer: number (0 for a
 * table), place, M, landings tallied, landings apart, 0; on a refusal
 * everything behind number and place is 0. */
void trial_table(const uint32_t *tally, uint32_t *shares, uint32_t *answer,
                 size_t answer_len);

#ifdef __cplusplus
}
#endif

#endif
