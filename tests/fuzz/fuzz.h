/* Calls of libaltair with random numbers, in buffers of exactly the length lent: what the files of this folder share.
 */
#ifndef FUZZ_H
#define FUZZ_H

#include "altair.h"

#include <stdbool.h>
#include <stddef.h>
#include <stdint.h>

/* -- random.c: everything that a round does is a function of the seed and the round's number */

void random_start(uint64_t seed, uint64_t round);
uint64_t random_number(void);
uint64_t below(uint64_t bound);
bool one_in(uint64_t count);
/* a number at a limit, near one, or any */
uint64_t odd_number(void);

/* -- buffers.c: a slot of memory for each buffer of a call. It ends, or begins, at a page that nobody may touch */

typedef struct buffer {
    void *at;
    size_t length, size; /* in elements, and bytes of one */
} buffer;

enum { READS = 8, WRITES = 8, SLOTS = READS + WRITES + 1 };
void buffers_start(bool on_heap);
/* a buffer in a slot, with bytes around it that must stay */
buffer lend(int slot, size_t length, size_t size);
void protect(int slot, bool writable);
/* whether the bytes around the buffer are as they were */
bool kept_within(int slot);
static inline size_t bytes_of(buffer b) { return b.length * b.size; }

/* -- records.c: a record, mostly a good one */

typedef struct record {
    altair_settings s;
    altair_finality f;
    altair_queue queue; /* now and then not that of the registry */
    size_t validators;
    uint64_t *registry, *slashings;
    uint8_t *roots;
    size_t roots_length, slashings_length;
} record;

record random_record(void);
void random_validator(const altair_settings *s, uint64_t epoch, uint64_t *validator);
/* the exit queue's pair, counted here */
altair_queue count_queue(const uint64_t *registry, size_t validators);
/* the record's file of version 1 or 2, written here and not by the library */
size_t file_length(const record *r, uint64_t version);
void write_bytes(const record *r, uint64_t version, uint8_t *file);
uint64_t number_at(const uint8_t *bytes);

/* -- calls.c: the table of the functions */

/* What a call is lent: in[] is read, out[] is written. */
typedef struct lent {
    altair_settings s;
    altair_rules rules;
    altair_electra_rules electra; /* with these settings and this pair */
    altair_exit_churn churn;
    altair_deposit_numbers deposits;
    altair_finality f;
    altair_queue queue;
    altair_running running; /* with this finality and pair, or nearly so */
    altair_clock clock;
    uint64_t activation_churn; /* Deneb's */
    uint64_t slot, finalized, epoch, number, flag_index, index, count, totals[3];
    uint8_t flags;
    bool by_store; /* what is lent first is a store, with entries of the record's settings or nearly so */
    uint64_t any[64]; /* of a struct that has no model */
    buffer in[READS], out[WRITES];
} lent;

/* How long a buffer must be, or at least be; or it may have any length. */
typedef struct called_for {
    enum { ANY_LENGTH, EXACT_LENGTH, LEAST_LENGTH } kind;
    size_t size, length; /* bytes of an element, and elements */
} called_for;

typedef enum answer { ITSELF, NUMBER, VALUES, RUNNING, READ } answer;

typedef struct row {
    const char *name;
    answer kind;
    size_t size;       /* of the answer, in bytes */
    const char *lends; /* a letter for each buffer: those that are read, '>', those that are written */
    const char *tests; /* a letter for each number that is tested */
    uint32_t refuses;  /* a bit for each refusal that it names */
    int opening[WRITES]; /* of each buffer that is written the one that is read as its opening, or -1 */
    void (*lengths)(const lent *c, called_for *all); /* of each buffer, those that are read first, of those that are lent */
    void (*beside)(const lent *c, void *answer); /* what it answers beside a refusal */
    altair_fault (*call)(const lent *c, void *answer); /* calls it, or where answer is NULL says why it is refused with 1 */
} row;

extern const row rows[];
extern const size_t row_count;
const char *written_letters(const row *row);
bool as_called_for(called_for length, buffer b);

/* -- expected.c: what altair.h says of the tests 15, 6, 1, 2, 12, 13, 14, 3 and 8: the number, or 0 where they pass */

uint64_t expected(const row *row, const lent *c);
uint64_t expected_position(const lent *c);

/* -- rules.c: what holds between functions, on one record */

void rules_hold(const record *r);

/* -- electra.c: the same of Electra's */

void electra_holds(const record *r);

/* -- try.c: one function of the table, held to its line */

void try_row(size_t place, const record *r);

/* -- fuzz.c */

enum { MOST_ROWS = 256 };
extern uint64_t calls, seen[MOST_ROWS][32]; /* how often a row's function answered a number */
extern const char *calling;
_Noreturn void fail(const char *form, ...);
#define MUST(holds) ((holds) ? (void)0 : fail("%s:%d: not so: %s", __FILE__, __LINE__, #holds))

#endif
