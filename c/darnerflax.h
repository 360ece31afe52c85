/* The clock planner for C. Link with target/staticlib/libplanner_c.a (bash build.sh planner_c).
 *
 * A delay list is a run of 32-bit words. Every function takes any words and any lengths, and returns a status:
 * 0 for a result, else the number of a refusal. A refusal changes no buffer except `reply`.
 *
 * Slices are a pointer and a count of places. No pointer may be null, not even with the count 0, and no two of
 * one call may overlap. `reply` has DARNERFLAX_REPLY places, all of which are set by every call:
 *   reply[0]      how many values there are
 *   reply[1..8]   the values, then zeros
 * A refusal has one value, its place, counted from 0.
 *
 * Refusals of the list: 11 count of words, 12 head, 13 kind of a word, spare bits or a need above 9,999, 14 register,
 * 15 delay, 16 least delay above greatest, 17 end word, 18 a block of needs that are all zero, 19 least delay below the
 * hold of its capture register, 20 a pair that is not above the one before it by launch register, then capture;
 * darnerflax_convert puts such a list in order.
 * Of the call: 3 period, offset or timings, 2 `answer` too short, 1 `scratch` too short.
 * The list is checked first: head, needs (13, then 18), pair by pair (13, 14, 15, 16, 19, 20), end; then 3, 2, 1. The
 * first that fits is returned.
 *
 * Status and reply tell one answer of the job, and all that the job promises of it is proved of the C function too:
 * a plan that nobody beats, a list that reads back as it was written, a converted list with the answers of the stored one,
 * a check that passes the admissible schedules and no other and reports the smallest margin of all, chains that show why a
 * period can't be had.
 *
 * n is the count of registers (1 to 512), m the count of pairs (0 to 2,048). Times are in picoseconds: delays up to
 * 1,000,000, needs up to 9,999, periods and offsets up to 1,009,999, timings up to 516,109,489.
 *
 * Each register has a hold and a setup need, both 0 in a list without a block of needs. The rules of a pair from launch
 * register a to capture register b, with the timings S(a) and S(b), at the period T:
 *   setup   S(a) + greatest + setup(b) <= S(b) + T
 *   hold    S(b) + hold(b) <= S(a) + least
 * The common period is the largest greatest + setup(b), at least 1: with all timings 0 it meets both rules.
 *
 * A list has a head word, then n words of needs (kind 5, hold and setup of each register) or none, three words for each
 * pair, and an end word: 3m + 2 words without needs, 3m + 2 + n with them.
 *
 * No memory is allocated. The most stack that a call was seen to take, in bytes, rounded up (docs/BENCHMARKS.md):
 * read 200, write 140, convert 20,000, check 300, free 20,000, split 400, plan 21,000, why_not 12,000, report 97,000.
 */
#ifndef DARNERFLAX_H
#define DARNERFLAX_H

#include <stddef.h>
#include <stdint.h>

#ifdef __cplusplus
extern "C" {
#endif

#define DARNERFLAX_REPLY 9
#define DARNERFLAX_MAX_REGISTERS 512
#define DARNERFLAX_MAX_PAIRS 2048
/* the largest hold or setup of a register */
#define DARNERFLAX_MAX_NEED 9999
/* words and bytes of the longest list, which has needs */
#define DARNERFLAX_MAX_WORDS (3 * DARNERFLAX_MAX_PAIRS + 2 + DARNERFLAX_MAX_REGISTERS)
#define DARNERFLAX_MAX_BYTES (4 * DARNERFLAX_MAX_WORDS)
/* numbers of the longest list: four for each pair, two for each register */
#define DARNERFLAX_MAX_NUMBERS (4 * DARNERFLAX_MAX_PAIRS + 2 * DARNERFLAX_MAX_REGISTERS)
/* places of scratch that are enough for any list */
#define DARNERFLAX_MAX_SCRATCH (6 * DARNERFLAX_MAX_REGISTERS + 4 * DARNERFLAX_MAX_PAIRS)
/* places that are enough for the chains of any list, which darnerflax_why_not stores */
#define DARNERFLAX_MAX_CHAINS (4 * DARNERFLAX_MAX_REGISTERS)
/* bytes that darnerflax_report asks for */
#define DARNERFLAX_TEXT 32768

/* Reads a list into plain numbers.
 * Values: n, m. The first 4m places of `answer` hold launch, capture, least and greatest of each pair, the next 2n hold
 * and setup of each register, zeros for a list without needs; later places are kept. Refusals: 11 to 20; 2 for fewer than
 * 4m + 2n places. */
uint32_t darnerflax_read(const uint32_t *words, size_t words_len,
                         uint32_t *answer, size_t answer_len,
                         uint64_t reply[DARNERFLAX_REPLY]);

/* Writes the list of n registers from four numbers for each pair: launch, capture, least, greatest; and two needs for each
 * register: hold, setup. Needs that are all zero are written without a block.
 * Value: the count of words, 3m + 2, or 3m + 2 + n with a block, which fill the first places of `answer`; later places are
 * kept. Refusals: 11 if the numbers are not four for each pair; 12; 11 if the needs are not 2n; 13 for a need above 9,999,
 * with the register as place; then pair by pair 14, 15, 16, 19, 20, with the pair's index as place; 2 for fewer places
 * than there are words. There is no 18. */
uint32_t darnerflax_write(uint32_t n,
                          const uint32_t *numbers, size_t numbers_len,
                          const uint32_t *needs, size_t needs_len,
                          uint32_t *answer, size_t answer_len,
                          uint64_t reply[DARNERFLAX_REPLY]);

/* Converts a stored list, whose pairs come in any order and may repeat, into one whose pairs rise by launch register, then
 * capture. Pairs of the same registers become one, with the smaller least and the larger greatest delay; needs are kept.
 * By the rules, the periods, both schedules and every answer to a period and an offset stay the same.
 * Value: the count of words, which fill the first places of `answer`; later places are kept. They are never more than the
 * stored list has; one whose pairs rise comes out as it is. Refusals: 11 to 19, there is no 20; 2 for fewer places than
 * there are words. */
uint32_t darnerflax_convert(const uint32_t *words, size_t words_len,
                            uint32_t *answer, size_t answer_len,
                            uint64_t reply[DARNERFLAX_REPLY]);

/* Checks a schedule, a timing for each register, at a period.
 * Values: the smallest margin of all, with sign, the first pair that has it, and its rule, 0 setup or 1 hold (setup comes
 * before hold); these three if the schedule is admissible. Else two more: the first pair that breaks a rule, and the rule
 * (setup is named before hold). No value for a list without pairs, for which every schedule is admissible.
 * The margin of a rule is its right side minus its left side: 0 where it is just met, below 0 where it is broken. It is
 * told in two's complement and is at most 517,119,488 either way:
 *   int64_t margin = (int64_t)reply[1];
 * Refusals: 11 to 20; 3 for a period outside 1 to 1,009,999, a timing above 516,109,489 or not exactly n timings. */
uint32_t darnerflax_check(const uint32_t *words, size_t words_len,
                          uint32_t period,
                          const uint32_t *timings, size_t timings_len,
                          uint64_t reply[DARNERFLAX_REPLY]);

/* The common and the free period and the least free schedule.
 * Values: common, free. The schedule fills the first n places of `answer`; later places are kept.
 * Refusals: 11 to 20; 2 for fewer than n places. */
uint32_t darnerflax_free(const uint32_t *words, size_t words_len,
                         uint32_t *answer, size_t answer_len,
                         uint64_t reply[DARNERFLAX_REPLY]);

/* The first split at a period and an offset, in register order, early before late.
 * Value: 1 if one works, its timings (0 or the offset) then fill the first n places of `answer`; 0 if none works,
 * `answer` is then kept whole. Either way the first 6n + 4m places of `scratch` are left zero; later places of both
 * are kept. Refusals: 11 to 20; 3 for a period outside 1 to 1,009,999 or an offset above 1,009,999; 2 for fewer than
 * n places; 1 for fewer than 6n + 4m places of scratch. */
uint32_t darnerflax_split(const uint32_t *words, size_t words_len,
                          uint32_t period, uint32_t offset,
                          uint32_t *answer, size_t answer_len,
                          uint32_t *scratch, size_t scratch_len,
                          uint64_t reply[DARNERFLAX_REPLY]);

/* The full plan.
 * Values: the common, the free and the two-timing period, and the offset. The free timings fill the first n places of
 * `answer`, the timings of the first split (0 or the offset) the next n. The first 6n + 4m places of `scratch` are
 * left zero; later places of both are kept. Refusals: 11 to 20; 2 for fewer than 2n places; 1 for fewer than 6n + 4m
 * places of scratch. */
uint32_t darnerflax_plan(const uint32_t *words, size_t words_len,
                         uint32_t *answer, size_t answer_len,
                         uint32_t *scratch, size_t scratch_len,
                         uint64_t reply[DARNERFLAX_REPLY]);

/* Why no split works at a period, whatever its offset.
 * Value: 0 if some split works with some offset, `answer` is then kept whole. Else four values: 1, a register, and the
 * lengths of two chains of forced choices at it. The first chain leads from the register early to it late, the second from
 * late back to early, so that it can be neither; each has from 1 to 2n - 1 steps. The steps of the first fill the first
 * places of `answer`, those of the second the next; later places are kept. A step is 4 times a pair's index plus a row:
 *   0 launch and capture early, 1 launch early and capture late, 2 launch late and capture early, 3 both late
 * With these choices the pair breaks a rule at the offset common - period, or 0 if that is negative. One end with its
 * choice is where the chain stands; the other end then has the opposite choice, from which the next step goes on. Which
 * chains are shown, of several, is left open.
 * Either way the first 6n + 4m places of `scratch` are left zero; later places are kept. Refusals, also where some split
 * works: 11 to 20; 3 for a period outside 1 to 1,009,999; 2 for fewer than 4n places; 1 for fewer than 6n + 4m places of
 * scratch. */
uint32_t darnerflax_why_not(const uint32_t *words, size_t words_len,
                            uint32_t period,
                            uint32_t *answer, size_t answer_len,
                            uint32_t *scratch, size_t scratch_len,
                            uint64_t reply[DARNERFLAX_REPLY]);

/* The text of the plan of a list's bytes (four to a word, the lowest first), or of its refusal: what the program
 * `plan` prints. The text fills the first places of `text`, later ones are kept; the count of its bytes is returned.
 * Nothing is refused: a count of bytes that no list has is told as `refused 11 at 0`. */
size_t darnerflax_report(const uint8_t *bytes, size_t bytes_len,
                         uint8_t text[DARNERFLAX_TEXT]);

#ifdef __cplusplus
}
#endif

#endif
