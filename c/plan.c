/* Prints the plan of a delay list: plan [FILE]. Without a file, the list is read from standard input. */
#include <errno.h>
#include <inttypes.h>
#include <stdio.h>
#include <string.h>

#include "darnerflax.h"

/* how the program ends */
enum { PLANNED = 0, REFUSED = 1, UNREAD = 2, UNWRITTEN = 3 };

static const char usage[] =
    "usage: plan [FILE]\n"
    "Prints the plan of the delay list in FILE, or on standard input.\n"
    "Status: 0 planned, 1 list refused, 2 wrong arguments or nothing read, 3 not all written.\n";

static uint8_t bytes[DARNERFLAX_MAX_BYTES + 1];
static uint32_t words[DARNERFLAX_MAX_WORDS];
static uint32_t answer[2 * DARNERFLAX_MAX_REGISTERS];
static uint32_t scratch[DARNERFLAX_MAX_SCRATCH];

/* Fills `bytes` and returns 1; or says why not. One byte more than the longest list has shows that a file is too long. */
static int read_bytes(FILE *file, const char *name, size_t *count) {
    errno = 0;
    *count = fread(bytes, 1, sizeof bytes, file);
    if (ferror(file)) {
        fprintf(stderr, "plan: %s cannot be read: %s\n", name, strerror(errno));
        return 0;
    }
    return 1;
}

static int read_file(const char *name, size_t *count) {
    FILE *file = fopen(name, "rb");
    if (file == NULL) {
        fprintf(stderr, "plan: %s cannot be opened: %s\n", name, strerror(errno));
        return 0;
    }
    int done = read_bytes(file, name, count);
    fclose(file);
    return done;
}

/* The words of the bytes, the lowest byte first. */
static void load(size_t count) {
    for (size_t i = 0; i < count; i++) {
        const uint8_t *b = bytes + 4 * i;
        words[i] = b[0] | (uint32_t)b[1] << 8 | (uint32_t)b[2] << 16 | (uint32_t)b[3] << 24;
    }
}

static void print_plan(const uint64_t reply[DARNERFLAX_REPLY]) {
    printf("common %" PRIu64 " free %" PRIu64 " two %" PRIu64 " offset %" PRIu64 "\n",
           reply[1], reply[2], reply[3], reply[4]);
    uint32_t n = words[0] >> 12 & 0x3ff;
    for (uint32_t r = 0; r < n; r++) {
        printf("%" PRIu32 " %" PRIu32 " %" PRIu32 "\n", r, answer[r], answer[n + r]);
    }
}

/* Prints the plan of the first `count` bytes, or the refusal. */
static int plan(size_t count) {
    if (count > DARNERFLAX_MAX_BYTES || count % 4 != 0) {
        printf("refused 11 at 0\n");
        return REFUSED;
    }
    load(count / 4);
    uint64_t reply[DARNERFLAX_REPLY];
    uint32_t refused = darnerflax_plan(words, count / 4, answer, 2 * DARNERFLAX_MAX_REGISTERS,
                                       scratch, DARNERFLAX_MAX_SCRATCH, reply);
    if (refused != 0) {
        printf("refused %" PRIu32 " at %" PRIu64 "\n", refused, reply[1]);
        return REFUSED;
    }
    print_plan(reply);
    return PLANNED;
}

/* Whether the bytes begin as a text of numbers does: a digit, space, newline, comma, `#` or a byte order mark, and
 * nothing but printable letters in the first eight. A list has others there, in its first pair, its first needs or its
 * end word. */
static int looks_like_text(size_t count) {
    if (count >= 3 && memcmp(bytes, "\xef\xbb\xbf", 3) == 0) {
        return 1;
    }
    if (count == 0 || memchr("0123456789 \t\r\n,#", bytes[0], 16) == NULL) {
        return 0;
    }
    for (size_t i = 0; i < count && i < 8; i++) {
        if (!(bytes[i] >= ' ' && bytes[i] <= '~') && memchr("\t\r\n", bytes[i], 3) == NULL) {
            return 0;
        }
    }
    return 1;
}

/* The status, unless what was printed could not be written. */
static int written(int status) {
    if (fflush(stdout) != 0 || ferror(stdout)) {
        fprintf(stderr, "plan: standard output cannot be written: %s\n", strerror(errno));
        return UNWRITTEN;
    }
    return status;
}

int main(int argc, char **argv) {
    if (argc == 2 && strcmp(argv[1], "--help") == 0) {
        fputs(usage, stdout);
        return written(PLANNED);
    }
    if (argc > 2 || (argc == 2 && argv[1][0] == '-')) {
        fputs(usage, stderr);
        return UNREAD;
    }
    size_t count;
    if (!(argc == 2 ? read_file(argv[1], &count) : read_bytes(stdin, "standard input", &count))) {
        return UNREAD;
    }
    int status = plan(count);
    int ended = written(status);
    if (status == REFUSED && looks_like_text(count)) {
        fputs("this looks like a text: make_list makes a delay list of it\n", stderr);
    }
    return ended;
}
