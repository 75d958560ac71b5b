/* The other side of the comparison: an importer as a static library with this
 * call. Numbers and buffers only. */
#ifndef SECOND_IMPORT_SUBJECT_H
#define SECOND_IMPORT_SUBJECT_H

#include <stddef.h>
#include <stdint.h>

#ifdef __cplusplus
extern "C" {
#endif

/* `text` holds the bytes of stop_times.txt, `day` is the service day; the
 * sailing file goes to the start of `out`. answer_len is 6. answer: number (0
 * for a file), place, S, n, K, bytes written; on a refusal everything after
 * number and place is 0. */
void trial_import(const uint8_t *text, size_t text_len, uint32_t day,
                  uint8_t *out, size_t out_len, uint32_t *answer,
                  size_t answer_len);

#ifdef __cplusplus
}
#endif

#endif
