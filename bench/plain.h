/* The usual method, for comparison: the same calls as darnerflax_plan, darnerflax_why_not and darnerflax_convert, for lists that are in order, with needs or
 * without. */
#ifndef PLAIN_H
#define PLAIN_H

#include <stddef.h>
#include <stdint.h>

#ifdef __cplusplus
extern "C" {
#endif

/* The four numbers of the plan in `numbers` and its 2n timings in `answer`. */
void plain_plan(const uint32_t *words, size_t count, uint32_t *answer, uint64_t numbers[4]);

/* 0, or 1, a register and the lengths of its two chains in `numbers`, and their steps in `answer`. */
void plain_why_not(const uint32_t *words, uint32_t period, uint32_t *answer, uint64_t numbers[4]);

/* The words of the list with its pairs in order and repeats joined, of which it may be in any order; their count is returned. */
size_t plain_convert(const uint32_t *words, uint32_t *answer);

uint32_t plain_common(const uint32_t *words);

/* The clauses that ask for a split at a period and an offset: pairs of literals, v early as -(v + 1), v late as v + 1. */
size_t plain_clauses(const uint32_t *words, uint32_t period, uint32_t offset, int *literals);

#ifdef __cplusplus
}
#endif

#endif
