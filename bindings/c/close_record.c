/* Closes the record file on standard input and prints the close, or `refused` and the number. Exit status: 0 closed, 1 refused,
 * with the number and its words on standard error, 2 could not read or write. command/altair-close.c is the program for people; this one shows the calls.
 *
 *     cc -Wall -Wextra -Werror -o target/close_record bindings/c/close_record.c target/altair/libaltair.a
 *     tools/record write samples/example.json - | target/close_record
 */
#include "altair.h"

#include <inttypes.h>
#include <signal.h>
#include <stdio.h>
#include <stdlib.h>

static void trouble(const char *what) {
    fprintf(stderr, "close_record: %s\n", what);
    exit(2);
}

/* Room for `count` elements; never NULL, also where count is 0. */
static void *room(size_t count, size_t size) {
    void *p = calloc(count + 1, size);
    if (p == NULL)
        trouble("no memory");
    return p;
}

/* The input, or of a longer one a byte more than the longest file: it is refused whatever follows. */
static uint8_t *read_all(FILE *in, size_t *length) {
    const size_t longest = ALTAIR_FILE_LENGTH(ALTAIR_MOST_VALIDATORS, ALTAIR_LONGEST_VECTOR, ALTAIR_LONGEST_VECTOR);
    size_t held = 0, size = 65536;
    uint8_t *bytes = room(size, 1);
    for (size_t got; held <= longest && (got = fread(bytes + held, 1, size - held, in)) > 0;) {
        held += got;
        if (held == size) {
            size *= 2;
            bytes = realloc(bytes, size);
            if (bytes == NULL)
                trouble("no memory");
        }
    }
    if (ferror(in))
        trouble("standard input cannot be read");
    *length = held;
    return bytes;
}

static void printed(void) {
    if (fflush(stdout) != 0 || ferror(stdout))
        trouble("standard output cannot be written");
}

static int refused(uint64_t number) {
    printf("refused %" PRIu64 "\n", number);
    printed();
    fprintf(stderr, "close_record: refused %" PRIu64 ": %s\n", number, altair_refusal_text(number));
    return 1;
}

int main(void) {
    signal(SIGPIPE, SIG_IGN); /* a closed pipe is then an error of writing */
    size_t length;
    uint8_t *file = read_all(stdin, &length);

    altair_header header = altair_read_header(file, length);
    if (header.refusal != 0)
        return refused(header.refusal);

    /* the header says how long the buffers must be; its numbers fit the bytes that were read */
    size_t numbers = ALTAIR_VALIDATOR_LENGTH * header.validators, slashings_length = header.slashings;
    uint64_t *registry = room(numbers, sizeof *registry), *closing = room(numbers, sizeof *closing);
    uint64_t *slashings = room(slashings_length, sizeof *slashings);
    uint64_t *closing_slashings = room(slashings_length, sizeof *closing_slashings);
    altair_read_answer record = altair_read_file(file, length, registry, numbers, slashings, slashings_length);
    if (record.refusal != 0)
        return refused(record.refusal);

    const uint8_t *roots = file + ALTAIR_ROOTS_AT(file[0], header.validators);
    size_t booked = ALTAIR_AMOUNTS_LENGTH * header.validators;
    uint64_t *amounts = room(booked, sizeof *amounts);
    uint64_t store[ALTAIR_ENTRY_LENGTH]; /* of one entry: the file's settings, as Altair, from epoch 0 on */
    altair_put_entry(store, 0, altair_under_altair(record.settings));
    altair_full_answer closed =
        altair_close(store, ALTAIR_ENTRY_LENGTH, 1, record.finality, record.queue, registry, numbers, slashings,
                     slashings_length, roots, 32 * header.roots, closing, numbers, closing_slashings, slashings_length,
                     amounts, booked);
    if (closed.refusal != 0)
        return refused(closed.refusal);

    /* the net changes are tested before anything is printed */
    for (uint64_t i = 0; i < header.validators; i++) {
        altair_line line = altair_listing_line(registry, numbers, closing, numbers, i);
        if (line.refusal != 0)
            return refused(line.refusal);
    }
    altair_head head =
        altair_listing_head(record.settings, record.finality.slot, closed.finality, registry, numbers);
    printf("epoch %" PRIu64 " justified %" PRIu64 " finalized %" PRIu64 " bits %" PRIu64 " charged %" PRIu64, head.epoch,
           head.justified_epoch, head.finalized_epoch, head.justification_bits, head.charged);
    printf(" %" PRIu64 " %" PRIu64 " %" PRIu64 "\n", head.raised.active, head.raised.previous, head.raised.current);
    for (uint64_t i = 0; i < header.validators; i++) {
        altair_line line = altair_listing_line(registry, numbers, closing, numbers, i);
        printf("%" PRIu64 " %" PRIu64 " %" PRIu64 " %" PRIu64 " %" PRIu64 " %" PRId64 "\n", line.index,
               line.opening_balance, line.closing_balance, line.effective_balance, line.inactivity_score,
               line.net_change);
    }
    printed();
    free(file), free(registry), free(closing), free(slashings), free(closing_slashings), free(amounts);
    return 0;
}
