/* Climbs to slow lists: climb time|ratio FILE SECONDS SEED OUT [COUNTS]. Starts from the list in FILE, which has no needs, and changes
 * it at random for so many seconds, with its pairs put in order each time; a change is kept if the plan then takes no less (time), or
 * no less of what plain takes (ratio). In ratio at least half the common period is kept: without that it comes to lists with all
 * delays 0 and 1, where plain has nothing to seek. Writes the list it has come to to OUT. Prints what the plan takes (time), or
 * ours / plain (ratio), at the start and at the end.
 *
 *     g++ -O3 -c bench/plain.cpp -o target/bench/plain.o
 *     gcc -O3 -Wall -Wextra -Ic bench/climb.c target/bench/plain.o target/staticlib/libplanner_c.a -lstdc++ -o target/bench/climb
 *     target/bench/climb time lists/P 60 1 target/bench/worst.list
 *
 * It goes by nanoseconds, or, with COUNTS, the file that callgrind writes to, by instructions:
 *
 *     valgrind --tool=callgrind --collect-atstart=no --callgrind-out-file=target/bench/counts \
 *         target/bench/climb ratio lists/P 60 1 target/bench/worst.list target/bench/counts */
#include <inttypes.h>
#include <stdio.h>
#include <stdlib.h>
#include <string.h>
#include <time.h>
#include <valgrind/callgrind.h>

#include "darnerflax.h"
#include "plain.h"

#define MAX_DELAY 1000000
#define PAYLOAD 0x1fffffff

struct pair {
    uint32_t launch, capture, least, greatest;
};

struct net {
    uint32_t n, m;
    struct pair pairs[DARNERFLAX_MAX_PAIRS];
};

static uint32_t words[DARNERFLAX_MAX_WORDS];
static uint32_t answer[2 * DARNERFLAX_MAX_REGISTERS];
static uint32_t scratch[DARNERFLAX_MAX_SCRATCH];

/* ---- lists */

static size_t encode(const struct net *net) {
    uint32_t *word = words, sum = 0;
    *word++ = 1u << 29 | net->n << 12 | net->m;
    for (uint32_t k = 0; k < net->m; k++) {
        *word++ = 2u << 29 | net->pairs[k].launch << 10 | net->pairs[k].capture;
        *word++ = 3u << 29 | net->pairs[k].least;
        *word++ = 4u << 29 | net->pairs[k].greatest;
    }
    for (uint32_t *before = words; before < word; before++)
        sum += *before;
    *word = 7u << 29 | (sum & PAYLOAD);
    return 3 * net->m + 2;
}

static void decode(struct net *net) {
    net->n = words[0] >> 12 & 0x3ff;
    net->m = words[0] & 0xfff;
    for (uint32_t k = 0; k < net->m; k++) {
        const uint32_t *word = words + 1 + 3 * k;
        net->pairs[k] = (struct pair){word[0] >> 10 & 0x3ff, word[0] & 0x3ff, word[1] & PAYLOAD, word[2] & PAYLOAD};
    }
}

static uint32_t key(const struct pair *p) {
    return p->launch << 10 | p->capture;
}

static int by_key(const void *a, const void *b) {
    return key(a) < key(b) ? -1 : key(a) > key(b);
}

/* Pairs in ascending order; those of the same registers become one, with the smaller least and the larger greatest delay. */
static void order(struct net *net) {
    uint32_t kept = 0;
    qsort(net->pairs, net->m, sizeof *net->pairs, by_key);
    for (uint32_t k = 1; k < net->m; k++) {
        struct pair *last = &net->pairs[kept], p = net->pairs[k];
        if (key(last) == key(&p)) {
            last->least = p.least < last->least ? p.least : last->least;
            last->greatest = p.greatest > last->greatest ? p.greatest : last->greatest;
        } else {
            net->pairs[++kept] = p;
        }
    }
    net->m = net->m > 0 ? kept + 1 : 0;
}

/* ---- costs */

static uint64_t now(void) {
    struct timespec t;
    clock_gettime(CLOCK_MONOTONIC, &t);
    return (uint64_t)t.tv_sec * 1000000000u + (uint64_t)t.tv_nsec;
}

static const char *counts; /* the file of callgrind, or NULL */

static double started(void) {
    if (counts == NULL)
        return (double)now();
    CALLGRIND_ZERO_STATS;
    CALLGRIND_TOGGLE_COLLECT;
    return 0;
}

/* The instructions that callgrind has counted, from its next file. */
static double counted(void) {
    static int files;
    char name[4096], line[4096];
    double most = -1;
    snprintf(name, sizeof name, "%s.%d", counts, ++files);
    FILE *file = fopen(name, "r");
    while (file != NULL && fgets(line, sizeof line, file) != NULL)
        if (strncmp(line, "summary:", 8) == 0 || strncmp(line, "totals:", 7) == 0)
            most = strtod(strchr(line, ':') + 1, NULL);
    if (file == NULL || most < 0) {
        fprintf(stderr, "%s has no count\n", name);
        exit(1);
    }
    fclose(file);
    remove(name);
    return most;
}

/* What was taken since the start. */
static double taken(double start) {
    if (counts == NULL)
        return (double)now() - start;
    CALLGRIND_TOGGLE_COLLECT;
    CALLGRIND_DUMP_STATS;
    return counted();
}

/* What the cheapest of so many calls takes; by instructions they are equal. */
static double ours(size_t count, int calls) {
    double best = 1e18;
    uint64_t reply[DARNERFLAX_REPLY];
    for (calls = counts == NULL ? calls : 1; calls > 0; calls--) {
        double start = started();
        uint32_t refused = darnerflax_plan(words, count, answer, 2 * DARNERFLAX_MAX_REGISTERS, scratch, DARNERFLAX_MAX_SCRATCH, reply);
        double took = taken(start);
        if (refused != 0) {
            fprintf(stderr, "refused %" PRIu32 " at %" PRIu64 "\n", refused, reply[1]);
            exit(1);
        }
        best = took < best ? took : best;
    }
    return best;
}

static double plain(size_t count) {
    uint64_t numbers[4];
    double start = started();
    plain_plan(words, count, answer, numbers);
    return taken(start);
}

static uint32_t common(const struct net *net) {
    uint32_t most = 1;
    for (uint32_t k = 0; k < net->m; k++)
        most = net->pairs[k].greatest > most ? net->pairs[k].greatest : most;
    return most;
}

static double cost(const struct net *net, int by_ratio, int calls) {
    size_t count = encode(net);
    return by_ratio ? ours(count, calls) / plain(count) : ours(count, calls);
}

/* ---- changes */

static uint64_t state;

/* A number below `bound`. */
static uint32_t below(uint32_t bound) {
    state ^= state << 13;
    state ^= state >> 7;
    state ^= state << 17;
    return (uint32_t)((state >> 16) % bound);
}

/* A number up to `most` that is as often small as large. */
static uint32_t some(uint32_t most) {
    uint32_t bits = 1;
    while (bits < 31 && most >> bits)
        bits++;
    uint32_t value = below(1u << (1 + below(bits)));
    return value < most ? value : most;
}

/* Two pairs exchange their delays. */
static void swap(struct pair *a, struct pair *b) {
    struct pair kept = *a;
    a->least = b->least;
    a->greatest = b->greatest;
    b->least = kept.least;
    b->greatest = kept.greatest;
}

static uint32_t within(int64_t delay, uint32_t low, uint32_t high) {
    return delay < low ? low : delay > high ? high : (uint32_t)delay;
}

static void change_pair(struct net *net) {
    struct pair *p = &net->pairs[below(net->m)], *other = &net->pairs[below(net->m)];
    int64_t step = (int64_t)some(MAX_DELAY) * (below(2) ? 1 : -1);
    switch (below(10)) {
    case 0:
        p->launch = below(net->n);
        break;
    case 1:
        p->capture = below(net->n);
        break;
    case 2:
        p->launch = other->capture;
        break;
    case 3:
        p->capture = other->launch;
        break;
    case 4:
        p->greatest = within(p->greatest + step, p->least, MAX_DELAY);
        break;
    case 5:
        p->least = within(p->least + step, 0, p->greatest);
        break;
    case 6:
        p->greatest = within(p->greatest + step, 0, MAX_DELAY);
        p->least = p->greatest;
        break;
    case 7:
        p->least = below(2) ? 0 : p->greatest;
        break;
    case 8:
        p->least = other->least;
        p->greatest = other->greatest;
        break;
    default:
        swap(p, other);
    }
}

/* A path from pair `k` on, register after register or jumping, with delays that go up or down by a step. */
static void lay_path(struct net *net, uint32_t k, uint32_t length) {
    uint32_t r = below(net->n), stride = below(3) ? 1 : 1 + below(net->n), back = below(2);
    int64_t delay = below(2) ? net->pairs[below(net->m)].greatest : below(MAX_DELAY + 1), step = (int64_t)some(4096) - (int64_t)some(4096);
    uint32_t slack = below(2) ? 0 : some(MAX_DELAY);
    for (; length-- > 0 && k < net->m; k++, delay += step) {
        uint32_t next = (r + stride) % net->n, greatest = within(delay, 0, MAX_DELAY);
        net->pairs[k] = (struct pair){back ? next : r, back ? r : next, greatest > slack ? greatest - slack : 0, greatest};
        r = next;
    }
}

/* Pairs from `k` on, between one register and those along a path, with delays that go up or down by a step. */
static void lay_hub(struct net *net, uint32_t k, uint32_t length) {
    uint32_t hub = below(net->n), r = below(net->n), back = below(2);
    int64_t delay = below(2) ? net->pairs[below(net->m)].greatest : below(MAX_DELAY + 1), step = (int64_t)some(4096) - (int64_t)some(4096);
    for (; length-- > 0 && k < net->m; k++, delay += step, r = (r + 1) % net->n) {
        uint32_t greatest = within(delay, 0, MAX_DELAY);
        net->pairs[k] = (struct pair){back ? hub : r, back ? r : hub, greatest, greatest};
    }
}

static void change_stretch(struct net *net) {
    uint32_t i = below(net->m), j = below(net->m), length = 1 + some(256), shift = some(net->n - 1);
    int64_t step = (int64_t)some(4096) - (int64_t)some(4096), delta = step;
    switch (below(8)) {
    case 0: /* delays reversed */
        for (uint32_t end = i + length < net->m ? i + length : net->m - 1; i < end; i++, end--)
            swap(&net->pairs[i], &net->pairs[end]);
        break;
    case 1: /* delays exchanged with another */
        for (; length-- > 0 && i < net->m && j < net->m; i++, j++)
            swap(&net->pairs[i], &net->pairs[j]);
        break;
    case 2: /* taken from another, for registers further on */
        for (; length-- > 0 && i < net->m && j < net->m; i++, j++) {
            net->pairs[i] = net->pairs[j];
            net->pairs[i].launch = (net->pairs[i].launch + shift) % net->n;
            net->pairs[i].capture = (net->pairs[i].capture + shift) % net->n;
        }
        break;
    case 3: /* turned round */
        for (; length-- > 0 && i < net->m; i++) {
            uint32_t launch = net->pairs[i].launch;
            net->pairs[i].launch = net->pairs[i].capture;
            net->pairs[i].capture = launch;
        }
        break;
    case 4: /* slower or faster, more and more so */
        for (; length-- > 0 && i < net->m; i++, delta += step) {
            net->pairs[i].greatest = within(net->pairs[i].greatest + delta, 0, MAX_DELAY);
            net->pairs[i].least = within(net->pairs[i].least + delta, 0, net->pairs[i].greatest);
        }
        break;
    case 5: /* a pair dropped, or a new one with its delays */
        if (below(2) && net->m < DARNERFLAX_MAX_PAIRS)
            net->pairs[net->m++] = (struct pair){below(net->n), below(net->n), net->pairs[i].least, net->pairs[i].greatest};
        else if (net->m > 1)
            net->pairs[i] = net->pairs[--net->m];
        break;
    case 6:
        lay_path(net, i, length);
        break;
    default:
        lay_hub(net, i, length);
    }
}

/* Two registers change places. */
static void change_names(struct net *net) {
    uint32_t r = below(net->n), s = below(net->n);
    for (uint32_t k = 0; k < net->m; k++) {
        struct pair *p = &net->pairs[k];
        p->launch = p->launch == r ? s : p->launch == s ? r : p->launch;
        p->capture = p->capture == r ? s : p->capture == s ? r : p->capture;
    }
}

static void change(struct net *net) {
    switch (below(8)) {
    case 0:
        change_names(net);
        break;
    case 1:
    case 2:
    case 3:
        change_stretch(net);
        break;
    default:
        for (uint32_t times = 1 + some(16); times > 0; times--)
            change_pair(net);
    }
}

int main(int argc, char **argv) {
    static struct net best, next;
    FILE *file = argc == 6 || argc == 7 ? fopen(argv[2], "rb") : NULL;
    counts = argc == 7 ? argv[6] : NULL;
    if (file == NULL)
        return 2;
    size_t count = fread(words, 4, DARNERFLAX_MAX_WORDS, file);
    fclose(file);
    int by_ratio = strcmp(argv[1], "ratio") == 0;
    uint64_t end = now() + strtoull(argv[3], NULL, 10) * 1000000000u;
    state = (strtoull(argv[4], NULL, 10) + 1) * 0x9e3779b97f4a7c15u;
    ours(count, 1); /* a list that is refused ends here */
    if (words[1] >> 29 == 5) {
        fprintf(stderr, "%s has needs\n", argv[2]);
        return 2;
    }
    decode(&best);

    double most = cost(&best, by_ratio, 8), start = most;
    uint64_t tries = 0, kept = 0;
    uint32_t least = by_ratio ? common(&best) / 2 : 1;
    for (; best.m > 0 && now() < end; tries++) {
        next = best;
        change(&next);
        order(&next);
        if (common(&next) < least)
            continue;
        double found = cost(&next, by_ratio, 1);
        if (found >= most && counts == NULL) /* else more calls would not make it more */
            found = cost(&next, by_ratio, 8);
        if (found >= most) {
            most = found;
            best = next;
            kept++;
        } else if (tries % 256 == 0 && counts == NULL) {
            double again = cost(&best, by_ratio, 8);
            most = again < most ? again : most;
        }
    }
    printf(by_ratio ? "%.4f to %.4f" : "%.0f to %.0f", start, most);
    printf(", %" PRIu64 " tries, %" PRIu64 " kept\n", tries, kept);

    count = encode(&best);
    ours(count, 1);
    file = fopen(argv[5], "wb");
    if (file == NULL || fwrite(words, 4, count, file) != count || fclose(file) != 0)
        return 3;
    return 0;
}
