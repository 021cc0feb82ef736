/* The same closes from many threads as from one: whole, by steps with orders, and of a shelf, each thread with buffers of its own and all
 * with the same openings, which are only read. Prints what differs and exits 1.
 *
 *     threads [THREADS [ROUNDS]]
 */
#include "altair.h"

#include <pthread.h>
#include <stdio.h>
#include <stdlib.h>
#include <string.h>

enum { RECORDS = 12, MOST = 900, S = 64, L = 64, NUMBERS = 10 * MOST, AMOUNTS = 9 * MOST };

typedef struct opening {
    altair_finality finality;
    altair_queue queue;
    size_t validators;
    uint64_t registry[NUMBERS], slashings[L], store[2 * ALTAIR_ENTRY_LENGTH];
    uint8_t roots[32 * S];
} opening;

/* all that a thread is handed back of a record */
typedef struct result {
    altair_full_answer whole;
    altair_running by_steps;
    uint64_t registry[NUMBERS], slashings[L], amounts[AMOUNTS], answers[4], shelf;
    uint64_t stepped[NUMBERS];
    uint8_t closed[ALTAIR_FILE_LENGTH(MOST, S, L)];
} result;

static opening openings[RECORDS];
static result alone[RECORDS];
static int rounds;

static uint64_t mixed(uint64_t n) { return (n * UINT64_C(0x9e3779b97f4a7c15)) >> 33; }

static void make(int place) {
    opening *o = &openings[place];
    const altair_settings settings = ALTAIR_MINIMAL;
    altair_settings later = settings;
    later.base_reward_factor = 65;
    o->validators = (size_t)(100 + 70 * place);
    o->finality = (altair_finality){.slot = 31 + 8 * (uint64_t)(place % 3), .justification_bits = 3};
    o->finality.previous_justified_checkpoint.epoch = 1, o->finality.current_justified_checkpoint.epoch = 2;
    for (size_t i = 0; i < o->validators; i++) {
        uint64_t *v = o->registry + 10 * i, n = mixed(1000 * (uint64_t)place + i);
        v[ALTAIR_EFFECTIVE_BALANCE] = (16 + n % 17) * 1000000000, v[ALTAIR_BALANCE] = v[ALTAIR_EFFECTIVE_BALANCE] + n % 2000000000;
        v[ALTAIR_SLASHED] = n % 31 == 0, v[ALTAIR_EXIT_EPOCH] = n % 29 == 0 ? 7 + n % 3 : ALTAIR_FAR_FUTURE_EPOCH;
        v[ALTAIR_WITHDRAWABLE_EPOCH] = n % 31 == 0 ? 35 : ALTAIR_FAR_FUTURE_EPOCH;
        v[ALTAIR_ACTIVATION_EPOCH] = n % 23 == 0 ? ALTAIR_FAR_FUTURE_EPOCH : 0;
        v[ALTAIR_PREVIOUS_EPOCH_PARTICIPATION] = n % 8, v[ALTAIR_CURRENT_EPOCH_PARTICIPATION] = mixed(n) % 8;
        v[ALTAIR_INACTIVITY_SCORE] = n % 100;
    }
    if (place == 5) /* one that is refused with 5, at its rewards */
        o->registry[ALTAIR_BALANCE] = UINT64_MAX, o->registry[ALTAIR_PREVIOUS_EPOCH_PARTICIPATION] = 7;
    o->slashings[3] = 64000000000;
    memset(o->roots, place + 1, sizeof o->roots);
    o->queue = altair_exit_queue(o->registry, 10 * o->validators).queue;
    altair_put_entry(o->store, 0, altair_under_altair(settings));
    altair_put_entry(o->store + ALTAIR_ENTRY_LENGTH, 4, altair_under_altair(later));
}

static void run(const opening *o, result *r) {
    const size_t n = 10 * o->validators, file = ALTAIR_FILE_LENGTH(o->validators, S, L);
    uint64_t slashings[L], orders[8] = {0}, lengths[] = {file}, *amounts = calloc(AMOUNTS, 8), *working = malloc(2 * (file + 8));
    uint8_t *record = malloc(file);
    if (amounts == NULL || working == NULL || record == NULL)
        abort();
    memset(r, 0, sizeof *r);
    r->whole = altair_close(o->store, 2 * ALTAIR_ENTRY_LENGTH, 2, o->finality, o->queue, o->registry, n, o->slashings, L, o->roots, 32 * S,
                            r->registry, n, r->slashings, L, r->amounts, 9 * o->validators);
    for (uint64_t step = 1; step <= 8; step++) {
        r->by_steps = altair_close_step(step, r->by_steps, o->store, 2 * ALTAIR_ENTRY_LENGTH, 2, o->finality, o->queue, o->registry, n,
                                        o->slashings, L, o->roots, 32 * S, r->stepped, n, slashings, L, amounts, 9 * o->validators)
                          .running;
        if (step % 3 == 0)
            r->by_steps = altair_take_order(r->by_steps, 7 * step, 0, orders, 8).running;
    }
    r->by_steps = altair_carry_out(o->store, 2 * ALTAIR_ENTRY_LENGTH, 2, 0, r->by_steps, r->stepped, n, orders, 8, r->answers, 4).running;
    if (altair_write_file((altair_settings)ALTAIR_MINIMAL, o->finality, o->queue, o->registry, n, o->roots, 32 * S, o->slashings, L, record, file))
        abort();
    altair_close_shelf(record, file, lengths, 1, r->closed, file, working, file / 8 + 1, working + file / 8 + 1, file / 8 + 1, &r->shelf, 1, 0,
                       (altair_bellatrix){0, 0});
    free(amounts), free(working), free(record);
}

static void *thread(void *at) {
    result *r = malloc(sizeof *r);
    long wrong = r == NULL;
    const int first = (int)(intptr_t)at;
    for (int i = 0; i < rounds * RECORDS && r != NULL; i++) {
        const int place = (first * 5 + i * 7) % RECORDS; /* each thread in an order of its own */
        run(&openings[place], r);
        wrong += memcmp(r, &alone[place], sizeof *r) != 0;
    }
    free(r);
    return (void *)wrong;
}

int main(int count, char **words) {
    const int threads = count > 1 ? atoi(words[1]) : 8;
    pthread_t started[64];
    long wrong = 0, refused = 0;
    rounds = count > 2 ? atoi(words[2]) : 20;
    if (threads < 1 || threads > 64 || rounds < 1)
        return fprintf(stderr, "threads [THREADS [ROUNDS]]\n"), 2;
    for (int i = 0; i < RECORDS; i++)
        make(i), run(&openings[i], &alone[i]), refused += alone[i].whole.refusal != 0;
    for (int i = 0; i < threads; i++)
        if (pthread_create(&started[i], NULL, thread, (void *)(intptr_t)i) != 0)
            return fprintf(stderr, "threads: a thread could not be started\n"), 2;
    for (int i = 0; i < threads; i++) {
        void *told;
        pthread_join(started[i], &told);
        wrong += (long)told;
    }
    if (refused != 1 || alone[5].whole.refusal != 5 || alone[0].by_steps.done != 9)
        return printf("threads: the records are not as they are meant\n"), 1;
    printf("threads: %d threads, %d closes each, %ld differ\n", threads, 3 * rounds * RECORDS, wrong);
    return wrong != 0;
}
