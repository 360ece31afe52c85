/* The stack that each job takes: stack FILE... For each job prints its name and the most bytes that it took for one of the lists.
 * A job runs on a stack of its own that was filled with a pattern; what is no longer the pattern has been used.
 *
 *     gcc -O2 -Wall -Wextra -Ic bench/stack.c target/staticlib/libplanner_c.a -o target/bench/stack
 *     target/bench/stack lists/P */
#include <stdio.h>
#include <stdlib.h>
#include <ucontext.h>

#include "darnerflax.h"

#define PATTERN 0x5a3c96e1d2b48f70u
#define PLACES (1 << 17)

static uint64_t stack[PLACES];
static uint64_t *top;
static ucontext_t caller, callee;

static uint32_t words[DARNERFLAX_MAX_WORDS], numbers[DARNERFLAX_MAX_NUMBERS], written[DARNERFLAX_MAX_WORDS];
static uint32_t answer[DARNERFLAX_MAX_CHAINS], scratch[DARNERFLAX_MAX_SCRATCH];
static uint64_t counts[DARNERFLAX_REPLY], periods[DARNERFLAX_REPLY], plan[DARNERFLAX_REPLY], reply[DARNERFLAX_REPLY];
static uint8_t text[DARNERFLAX_TEXT];
static size_t count;

static uint32_t read_list(void) {
    return darnerflax_read(words, count, numbers, DARNERFLAX_MAX_NUMBERS, counts);
}

static uint32_t write_list(void) {
    return darnerflax_write((uint32_t)counts[1], numbers, 4 * counts[2], numbers + 4 * counts[2], 2 * counts[1],
                            written, DARNERFLAX_MAX_WORDS, reply);
}

static uint32_t convert(void) {
    return darnerflax_convert(words, count, written, DARNERFLAX_MAX_WORDS, reply);
}

static uint32_t free_schedule(void) {
    return darnerflax_free(words, count, answer, DARNERFLAX_MAX_REGISTERS, periods);
}

static uint32_t check(void) {
    return darnerflax_check(words, count, (uint32_t)periods[2], answer, counts[1], reply);
}

static uint32_t full_plan(void) {
    return darnerflax_plan(words, count, answer, 2 * DARNERFLAX_MAX_REGISTERS, scratch, DARNERFLAX_MAX_SCRATCH, plan);
}

static uint32_t split_at(uint32_t period) {
    return darnerflax_split(words, count, period, (uint32_t)plan[4], answer, DARNERFLAX_MAX_REGISTERS,
                            scratch, DARNERFLAX_MAX_SCRATCH, reply);
}

/* One that works, and, below the two-timing period, one that does not. */
static uint32_t split(void) {
    uint32_t two = (uint32_t)plan[3], refused = split_at(two);
    return refused != 0 || two == 1 ? refused : split_at(two - 1);
}

static uint32_t why_at(uint64_t period) {
    return darnerflax_why_not(words, count, (uint32_t)period, answer, DARNERFLAX_MAX_CHAINS, scratch, DARNERFLAX_MAX_SCRATCH, reply);
}

/* A period that works, and, below the two-timing period, one that does not. */
static uint32_t why_not(void) {
    uint32_t refused = why_at(plan[1]);
    return refused != 0 || plan[3] == 1 ? refused : why_at(plan[3] - 1);
}

static uint32_t report(void) {
    return darnerflax_report((const uint8_t *)words, 4 * count, text) == 0;
}

/* In an order in which each finds what it needs of those before it. */
static struct job {
    const char *name;
    uint32_t (*call)(void);
    size_t most;
} jobs[] = {
    {"read", read_list, 0}, {"write", write_list, 0}, {"convert", convert, 0}, {"free", free_schedule, 0}, {"check", check, 0},
    {"plan", full_plan, 0}, {"split", split, 0},      {"why_not", why_not, 0}, {"report", report, 0},
};
#define JOBS (sizeof jobs / sizeof jobs[0])
static struct job *job;

static void run(void) {
    top = __builtin_frame_address(0);
    uint32_t refused = job->call();
    if (refused != 0) {
        fprintf(stderr, "%s: refused %u\n", job->name, (unsigned)refused);
        exit(1);
    }
}

/* Bytes of the stack below the frame of `run`. */
static size_t used(void) {
    size_t kept = 0;
    for (size_t i = 0; i < PLACES; i++)
        stack[i] = PATTERN;
    getcontext(&callee);
    callee.uc_stack.ss_sp = stack;
    callee.uc_stack.ss_size = sizeof stack;
    callee.uc_link = &caller;
    makecontext(&callee, run, 0);
    swapcontext(&caller, &callee);
    while (stack + kept < top && stack[kept] == PATTERN)
        kept++;
    return (size_t)((char *)top - (char *)(stack + kept));
}

int main(int argc, char **argv) {
    for (int i = 1; i < argc; i++) {
        FILE *file = fopen(argv[i], "rb");
        if (file == NULL)
            return 2;
        count = fread(words, 4, DARNERFLAX_MAX_WORDS, file);
        fclose(file);
        for (job = jobs; job < jobs + JOBS; job++) {
            size_t bytes = used();
            job->most = bytes > job->most ? bytes : job->most;
        }
    }
    for (job = jobs; job < jobs + JOBS; job++)
        printf("%s %zu\n", job->name, job->most);
    return 0;
}
