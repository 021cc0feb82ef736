/* Calls every function of libaltair with random records, settings, lengths and numbers, in exactly sized buffers
 * between pages that nobody may touch, and holds it to what altair.h says: what it answers by the tests, which refusals
 * it may answer, what a refused call leaves, that a call writes nothing else, and that what stood in a buffer or an
 * answer before does not show.
 *
 *     fuzz [--heap] [--round N] SECONDS SEED       --heap: buffers from malloc, for valgrind; --round: that round alone
 */
#include "fuzz.h"

#include <inttypes.h>
#include <signal.h>
#include <stdarg.h>
#include <stdio.h>
#include <stdlib.h>
#include <string.h>
#include <time.h>
#include <unistd.h>

static uint64_t seed, round_number;
uint64_t calls, seen[MOST_ROWS][32];
const char *calling = "nothing yet";

void fail(const char *form, ...) {
    va_list words;
    va_start(words, form);
    printf("fuzz: seed %" PRIu64 ", round %" PRIu64 ", %s: ", seed, round_number, calling);
    vprintf(form, words);
    putchar('\n');
    va_end(words);
    fflush(stdout);
    _exit(1);
}

static void crashed(int number) {
    fail("signal %d: memory beyond the buffers was touched, or a buffer that is read was written", number);
}

static void one_round(void) {
    random_start(seed, round_number);
    const record r = random_record();
    for (size_t i = 0; i < row_count; i++)
        try_row(i, &r);
    calling = "rules.c";
    rules_hold(&r);
}

/* each number that a function names, and 0, must have been answered: else the records do not reach it */
static int unseen(void) {
    int missing = 0;
    for (size_t i = 0; i < row_count; i++)
        for (int n = 0; n < 32 && strchr(rows[i].tests, '?') == NULL; n++)
            if (((rows[i].refuses | 1) >> n & 1) && seen[i][n] == 0) {
                printf("fuzz: %s never answered %d\n", rows[i].name, n);
                missing++;
            }
    return missing;
}

int main(int count, char **words) {
    bool heap = false;
    char *only = NULL;
    int at = 1;
    for (; at < count && words[at][0] == '-'; at++) {
        if (strcmp(words[at], "--heap") == 0)
            heap = true;
        else if (strcmp(words[at], "--round") == 0 && at + 1 < count)
            only = words[++at];
        else
            return fprintf(stderr, "fuzz [--heap] [--round N] SECONDS SEED\n"), 2;
    }
    if (count != at + 2)
        return fprintf(stderr, "fuzz [--heap] [--round N] SECONDS SEED\n"), 2;
    const clock_t until = strtol(words[at], NULL, 10) * CLOCKS_PER_SEC; /* of this program's own time */
    seed = strtoull(words[at + 1], NULL, 10);
    buffers_start(heap);
    if (!heap)
        signal(SIGSEGV, crashed), signal(SIGBUS, crashed), signal(SIGFPE, crashed), signal(SIGILL, crashed);
    if (only != NULL) {
        round_number = strtoull(only, NULL, 10);
        one_round();
        printf("fuzz: round %" PRIu64 " holds\n", round_number);
        return 0;
    }
    do
        one_round(), round_number++;
    while (round_number % 16 != 0 || clock() < until);
    printf("fuzz: seed %" PRIu64 ", %" PRIu64 " rounds, %" PRIu64 " calls of %zu functions, no rule broken\n", seed,
           round_number, calls, row_count);
    return round_number >= 3000 && unseen() != 0;
}
