/* Plans one list: measure ours|plain|sat FILE REPEATS. Prints the nanoseconds of the fastest call, the common, free and
 * two-timing period and the offset, and the timings. By SAT only the two-timing period and its offset are sought.
 * Or says why no split works at a period: measure why|plain_why FILE REPEATS PERIOD. Prints the nanoseconds, then 0, or 1, a
 * register, the lengths of the two chains at it, and their steps.
 * Or reads or converts a list: measure read|convert|plain_convert FILE REPEATS. Prints the nanoseconds, then the counts of
 * registers and of pairs, or the count of words and the words. */
#include <ccadical.h>
#include <inttypes.h>
#include <stdio.h>
#include <stdlib.h>
#include <string.h>
#include <time.h>

#include "darnerflax.h"
#include "plain.h"

static uint32_t words[DARNERFLAX_MAX_WORDS];
static uint32_t answer[DARNERFLAX_MAX_NUMBERS];
static uint32_t scratch[DARNERFLAX_MAX_SCRATCH];

static uint64_t now(void) {
    struct timespec t;
    clock_gettime(CLOCK_MONOTONIC, &t);
    return (uint64_t)t.tv_sec * 1000000000u + (uint64_t)t.tv_nsec;
}

static void take(uint32_t refused, const uint64_t *reply, uint64_t numbers[4]) {
    if (refused != 0) {
        fprintf(stderr, "refused %" PRIu32 " at %" PRIu64 "\n", refused, reply[1]);
        exit(1);
    }
    memcpy(numbers, reply + 1, 4 * sizeof *numbers);
}

static void ours(size_t count, uint64_t numbers[4]) {
    uint64_t reply[DARNERFLAX_REPLY];
    take(darnerflax_plan(words, count, answer, 2 * DARNERFLAX_MAX_REGISTERS, scratch, DARNERFLAX_MAX_SCRATCH, reply), reply, numbers);
}

static void why(size_t count, uint32_t period, uint64_t numbers[4]) {
    uint64_t reply[DARNERFLAX_REPLY];
    take(darnerflax_why_not(words, count, period, answer, DARNERFLAX_MAX_CHAINS, scratch, DARNERFLAX_MAX_SCRATCH, reply), reply, numbers);
}

static void read_list(size_t count, uint64_t numbers[4]) {
    uint64_t reply[DARNERFLAX_REPLY];
    take(darnerflax_read(words, count, answer, DARNERFLAX_MAX_NUMBERS, reply), reply, numbers);
}

static void convert(size_t count, uint64_t numbers[4]) {
    uint64_t reply[DARNERFLAX_REPLY];
    take(darnerflax_convert(words, count, answer, DARNERFLAX_MAX_WORDS, reply), reply, numbers);
}

/* The two-timing period by halving, with the SAT solver as the judge of each period. */
void sat_plan(uint64_t numbers[4]) {
    static int literals[8 * 2 * DARNERFLAX_MAX_PAIRS];
    uint32_t common = plain_common(words), low = 1, high = common;
    while (low < high) {
        uint32_t middle = (low + high) / 2;
        size_t clauses = plain_clauses(words, middle, common - middle, literals);
        CCaDiCaL *solver = ccadical_init();
        ccadical_set_option(solver, "quiet", 1);
        for (const int *two = literals; two < literals + 2 * clauses; two += 2) {
            ccadical_add(solver, two[0]);
            if (two[1] != two[0])
                ccadical_add(solver, two[1]);
            ccadical_add(solver, 0);
        }
        if (ccadical_solve(solver) == 10)
            high = middle;
        else
            low = middle + 1;
        ccadical_release(solver);
    }
    numbers[0] = common;
    numbers[1] = 0;
    numbers[2] = low;
    numbers[3] = common - low;
}

static void call(const char *who, size_t count, uint32_t period, uint64_t numbers[4]) {
    if (strcmp(who, "ours") == 0)
        ours(count, numbers);
    else if (strcmp(who, "sat") == 0)
        sat_plan(numbers);
    else if (strcmp(who, "why") == 0)
        why(count, period, numbers);
    else if (strcmp(who, "plain_why") == 0)
        plain_why_not(words, period, answer, numbers);
    else if (strcmp(who, "read") == 0)
        read_list(count, numbers);
    else if (strcmp(who, "convert") == 0)
        convert(count, numbers);
    else if (strcmp(who, "plain_convert") == 0)
        numbers[0] = plain_convert(words, answer);
    else
        plain_plan(words, count, answer, numbers);
}

int main(int argc, char **argv) {
    FILE *file = argc == 4 || argc == 5 ? fopen(argv[2], "rb") : NULL;
    if (file == NULL)
        return 2;
    size_t count = fread(words, 4, DARNERFLAX_MAX_WORDS, file);
    uint32_t period = argc == 5 ? (uint32_t)atoi(argv[4]) : 0;
    fclose(file);

    uint64_t best = UINT64_MAX, numbers[4] = {0};
    for (int i = atoi(argv[3]); i > 0; i--) {
        uint64_t start = now();
        call(argv[1], count, period, numbers);
        uint64_t took = now() - start;
        best = took < best ? took : best;
    }
    size_t stored = argc == 5 ? numbers[2] + numbers[3] : 2 * (words[0] >> 12 & 0x3ff);
    if (strstr(argv[1], "convert") != NULL)
        stored = numbers[0];
    printf("%" PRIu64 "\n", best);
    for (int i = 0; i < 4; i++)
        printf("%" PRIu64 " ", numbers[i]);
    for (size_t r = 0; r < stored; r++)
        printf("%" PRIu32 " ", answer[r]);
    printf("\n");
    return 0;
}
