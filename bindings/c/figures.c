/* Calls every function of altair.h once or more and compares with document 01's figures. Prints how many agreed.
 *
 *     cc -Wall -Wextra -Werror -o target/figures bindings/c/figures.c target/altair/libaltair.a && target/figures
 */
#include "altair.h"

#include <inttypes.h>
#include <stdio.h>
#include <string.h>

#define FAR ALTAIR_FAR_FUTURE_EPOCH
#define ETH UINT64_C(1000000000)
#define FIVE (5 * ALTAIR_VALIDATOR_LENGTH)
#define ENTRY ALTAIR_VALIDATOR_LENGTH

static const altair_settings mainnet = ALTAIR_MAINNET;
static const altair_rules altair = {ALTAIR_MAINNET, ALTAIR_FORK_ALTAIR, {0, 0}};
static const altair_rules bellatrix = {ALTAIR_MAINNET, ALTAIR_FORK_BELLATRIX, ALTAIR_MAINNET_BELLATRIX};
static int agreed, parted;

static void same(uint64_t got, uint64_t wanted, const char *what, int line) {
    if (got == wanted) {
        agreed++;
        return;
    }
    parted++;
    printf("line %d: %s is %" PRIu64 ", not %" PRIu64 "\n", line, what, got, wanted);
}

#define SAME(got, wanted) same((got), (wanted), #got, __LINE__)
/* a refusal, and the value beside it */
#define VALUE(answer, wanted)                                                                                          \
    do {                                                                                                               \
        SAME((answer).refusal, 0);                                                                                     \
        SAME((answer).value, (wanted));                                                                                \
    } while (0)
/* a total, and whether it was raised */
#define TOTAL(answer, wanted, was_raised)                                                                              \
    do {                                                                                                               \
        SAME((answer).refusal, 0);                                                                                     \
        SAME((answer).balance, (wanted));                                                                              \
        SAME((answer).raised, (was_raised));                                                                           \
    } while (0)
#define RAISED(answer, a, b, c)                                                                                        \
    do {                                                                                                               \
        SAME((answer).raised.active, (a));                                                                             \
        SAME((answer).raised.previous, (b));                                                                           \
        SAME((answer).raised.current, (c));                                                                            \
    } while (0)
#define REFUSED(answer, number)                                                                                        \
    do {                                                                                                               \
        SAME((answer).refusal, (number));                                                                              \
        SAME((answer).value, 0);                                                                                       \
    } while (0)

/* n validators of 32 * 10^9, active from epoch 0, with all flags */
static void fill(uint64_t *registry, size_t n) {
    for (size_t i = 0; i < n; i++) {
        uint64_t v[ENTRY] = {32 * ETH, 0, 0, 0, FAR, FAR, 32 * ETH, 7, 7, 0};
        memcpy(registry + ENTRY * i, v, sizeof v);
    }
}

static altair_finality finality_at(uint64_t slot) {
    altair_finality f;
    memset(&f, 0, sizeof f);
    f.slot = slot;
    return f;
}

static void slots_and_epochs(void) {
    altair_settings bad = mainnet;
    SAME(altair_version(), ALTAIR_VERSION);
    SAME(altair_integer_sqrt(160 * ETH), 400000);
    SAME(altair_integer_sqrt(UINT64_MAX), 4294967295);
    VALUE(altair_compute_epoch_at_slot(mainnet, 127), 3);
    VALUE(altair_compute_start_slot_at_epoch(mainnet, 3), 96);
    REFUSED(altair_compute_start_slot_at_epoch(mainnet, FAR), 5);
    VALUE(altair_compute_activation_exit_epoch(mainnet, 3), 8);
    VALUE(altair_get_current_epoch(mainnet, 127), 3);
    VALUE(altair_get_previous_epoch(mainnet, 127), 2);
    VALUE(altair_get_previous_epoch(mainnet, 31), 0);
    REFUSED(altair_get_current_epoch(mainnet, UINT64_C(1) << 48), 3);
    bad.slots_per_epoch = 0;
    REFUSED(altair_get_current_epoch(bad, 127), 2);
    bad.slots_per_historical_root = 0;
    REFUSED(altair_get_current_epoch(bad, 127), 1);
}

static void opening_hours(void) {
    const altair_clock clock = ALTAIR_MAINNET_CLOCK, ends = {0, 1, 1}, late = {1, 1, 1};
    altair_clock bad = {9, 0, 0};
    VALUE(altair_slot_at_time(clock, 1606824023), 0);
    VALUE(altair_slot_at_time(clock, 1606824035), 1);
    REFUSED(altair_slot_at_time(clock, 1606824022), 14);
    VALUE(altair_epoch_at_time(clock, 1635332566), 74240);
    VALUE(altair_is_in_closing_window(clock, 1635332554), 0);
    VALUE(altair_is_in_closing_window(clock, 1635332555), 1);
    VALUE(altair_is_in_closing_window(clock, 1635332567), 0);
    VALUE(altair_first_second_of_slot(clock, 2375680), 1635332183);
    VALUE(altair_last_second_of_slot(clock, 2375680), 1635332194);
    VALUE(altair_first_second_of_epoch(clock, 74240), 1635332183);
    VALUE(altair_last_second_of_epoch(clock, 74240), 1635332566);
    VALUE(altair_last_second_of_slot(ends, UINT64_MAX), UINT64_MAX);
    VALUE(altair_last_second_of_epoch(ends, UINT64_MAX), UINT64_MAX);
    REFUSED(altair_last_second_of_slot(late, UINT64_MAX), 5);
    REFUSED(altair_first_second_of_epoch(late, UINT64_MAX), 5);
    REFUSED(altair_epoch_at_time(bad, 8), 15);
    bad.seconds_per_slot = 1;
    REFUSED(altair_is_in_closing_window(bad, 8), 2);
    bad.slots_per_epoch = UINT64_C(1) << 48;
    REFUSED(altair_first_second_of_slot(bad, 8), 2);
    bad.slots_per_epoch--;
    REFUSED(altair_slot_at_time(bad, 8), 14);
}

/* an answer of `count` epochs, and both verdicts */
static void votes_are(altair_votes_answer a, uint64_t count, const uint64_t *epochs, uint64_t previous, uint64_t current) {
    SAME(a.refusal, 0), SAME(a.count, count);
    for (size_t i = 0; i < 3; i++)
        SAME(a.finalized_epochs[i], i < count ? epochs[i] : 0);
    SAME(a.previous_target, previous), SAME(a.current_target, current);
}

static void votes_not_yet_counted(void) {
    static uint8_t roots[32 * 64];
    const altair_settings minimal = ALTAIR_MINIMAL;
    uint64_t five[FIVE], marks[5] = {3, 3, 3, 3, 3};
    altair_finality f = finality_at(31);
    f.justification_bits = 2;
    f.previous_justified_checkpoint.epoch = 1;
    f.current_justified_checkpoint.epoch = 2;
    fill(five, 5);
    votes_are(altair_unknown_votes(minimal, roots, sizeof roots, f, five, FIVE, marks, 5), 3, (uint64_t[]){0, 1, 2},
              ALTAIR_PASSES_IN_SOME, ALTAIR_PASSES_IN_SOME);
    memset(marks, 0, sizeof marks);
    votes_are(altair_unknown_votes(minimal, roots, sizeof roots, f, five, FIVE, marks, 5), 1, (uint64_t[]){2},
              ALTAIR_PASSES_IN_ALL, ALTAIR_PASSES_IN_ALL);
    SAME(altair_unknown_votes(minimal, roots, sizeof roots, f, five, FIVE, marks, 4).refusal, 1);
    marks[4] = 4;
    SAME(altair_unknown_votes(minimal, roots, sizeof roots, f, five, FIVE, marks, 5).refusal, 3);
    marks[4] = ALTAIR_CURRENT_UNKNOWN;
    five[ALTAIR_EFFECTIVE_BALANCE] = FAR; /* the sum overflows, and the first slot's root is looked up before */
    SAME(altair_unknown_votes(minimal, roots, sizeof roots, f, five, FIVE, marks, 5).refusal, 5);
    f.slot = 24;
    SAME(altair_unknown_votes(minimal, roots, sizeof roots, f, five, FIVE, marks, 5).refusal, 4);
    f.slot = 15;
    votes_are(altair_unknown_votes(minimal, roots, sizeof roots, f, five, FIVE, marks, 5), 1, (uint64_t[]){0},
              ALTAIR_PASSES_IN_NONE, ALTAIR_PASSES_IN_NONE);
}

static void one_validator(void) {
    uint64_t v[ENTRY], before[ENTRY];
    fill(v, 1);
    VALUE(altair_is_active_validator(v, ENTRY, 3), 1);
    REFUSED(altair_is_active_validator(v, ENTRY - 1, 3), 1);
    VALUE(altair_is_eligible(mainnet, 127, v, ENTRY), 1);
    VALUE(altair_is_unslashed_participating(mainnet, 127, 1, 2, v, ENTRY), 1);
    REFUSED(altair_is_unslashed_participating(mainnet, 127, 1, 1, v, ENTRY), 1);
    VALUE(altair_get_base_reward(mainnet, 160 * ETH, v, ENTRY), 5120000);
    REFUSED(altair_get_base_reward(mainnet, 0, v, ENTRY), 1);

    SAME(altair_increase_balance(v, ENTRY, 5), 0);
    SAME(v[ALTAIR_BALANCE], 32 * ETH + 5);
    memcpy(before, v, sizeof v);
    SAME(altair_increase_balance(v, ENTRY, UINT64_MAX), 5);
    SAME(memcmp(before, v, sizeof v), 0);
    SAME(altair_decrease_balance(v, ENTRY, 33 * ETH), 0);
    SAME(v[ALTAIR_BALANCE], 0);

    v[ALTAIR_ACTIVATION_EPOCH] = FAR;
    VALUE(altair_is_active_validator(v, ENTRY, 3), 0);
    VALUE(altair_is_eligible_for_activation(0, v, ENTRY), 1);
    VALUE(altair_is_eligible_for_activation_queue(mainnet, v, ENTRY), 0);
    v[ALTAIR_ACTIVATION_ELIGIBILITY_EPOCH] = FAR;
    VALUE(altair_is_eligible_for_activation_queue(mainnet, v, ENTRY), 1);
    v[ALTAIR_SLASHED] = 2;
    REFUSED(altair_is_eligible_for_activation_queue(mainnet, v, ENTRY), 3);

    VALUE(altair_has_flag(6, 1), 1);
    VALUE(altair_has_flag(6, 0), 0);
    REFUSED(altair_has_flag(6, 8), 1);
    VALUE(altair_add_flag(5, 1), 7);

    fill(v, 1);
    v[ALTAIR_PREVIOUS_EPOCH_PARTICIPATION] = 5;
    v[ALTAIR_INACTIVITY_SCORE] = 100;
    altair_deltas_answer lost = altair_get_inactivity_penalty_deltas(altair, 127, v, ENTRY);
    SAME(lost.refusal, 0), SAME(lost.reward, 0), SAME(lost.penalty, 15894);
    lost = altair_get_inactivity_penalty_deltas(bellatrix, 127, v, ENTRY);
    SAME(lost.refusal, 0), SAME(lost.reward, 0), SAME(lost.penalty, 47683);

    /* the pair is tested under fork 1 alone, the Altair two under either */
    altair_rules rules = altair_under_bellatrix(mainnet, (altair_bellatrix){0, UINT64_MAX});
    SAME(altair_get_inactivity_penalty_deltas(rules, 127, v, ENTRY).refusal, 2);
    rules.fork = ALTAIR_FORK_ALTAIR;
    SAME(altair_get_inactivity_penalty_deltas(rules, 127, v, ENTRY).penalty, 15894);
    rules.fork = 2;
    SAME(altair_get_inactivity_penalty_deltas(rules, 127, v, ENTRY).refusal, 1);
    rules = bellatrix, rules.settings.inactivity_penalty_quotient_altair = 0;
    SAME(altair_get_inactivity_penalty_deltas(rules, 127, v, ENTRY).refusal, 2);
}

static void block_roots(void) {
    static uint8_t roots[32 * 8192];
    uint8_t zeros[32] = {0};
    memset(roots, 9, 32);
    memset(roots + 32 * 64, 7, 32);
    altair_root_answer root = altair_get_block_root_at_slot(mainnet, roots, sizeof roots, 8192, 0);
    SAME(root.refusal, 0), SAME(memcmp(root.root, roots, 32), 0);
    root = altair_get_block_root_at_slot(mainnet, roots, sizeof roots, 8193, 0);
    SAME(root.refusal, 4), SAME(memcmp(root.root, zeros, 32), 0);
    root = altair_get_block_root(mainnet, roots, sizeof roots, 127, 2);
    SAME(root.refusal, 0), SAME(memcmp(root.root, roots + 32 * 64, 32), 0);
    root = altair_get_block_root(mainnet, roots, sizeof roots, 127, FAR);
    SAME(root.refusal, 5), SAME(memcmp(root.root, zeros, 32), 0);

    /* total 3 * 10^9: target 2 * 10^9 justifies, 1999999999 does not */
    altair_finality f = finality_at(127);
    altair_finality_answer weighed =
        altair_weigh_justification_and_finalization(mainnet, roots, sizeof roots, f, 3 * ETH, 2 * ETH, 1999999999);
    SAME(weighed.refusal, 0), SAME(weighed.finality.justification_bits, 2);
    SAME(weighed.finality.current_justified_checkpoint.epoch, 2);
    SAME(memcmp(weighed.finality.current_justified_checkpoint.root, roots + 32 * 64, 32), 0);
    weighed = altair_weigh_justification_and_finalization(mainnet, roots, 32, f, 3 * ETH, 2 * ETH, 0);
    SAME(weighed.refusal, 1), SAME(memcmp(&weighed.finality, &f, sizeof f), 0);

    VALUE(altair_get_finality_delay(mainnet, 127, 1), 1);
    REFUSED(altair_get_finality_delay(mainnet, 127, 3), 5);
    VALUE(altair_is_in_inactivity_leak(mainnet, 127, 1), 0);
    VALUE(altair_is_in_inactivity_leak(mainnet, 32 * 6, 0), 1);
}

static void the_registry(void) {
    uint64_t registry[FIVE];
    fill(registry, 5);
    VALUE(altair_charged(mainnet, 127, registry, FIVE), 5);
    VALUE(altair_charged(mainnet, 31, registry, FIVE), 0); /* epoch 0 charges nobody */
    registry[41] = 1, registry[44] = 1, registry[45] = 4;  /* slashed and gone, withdrawable ahead: still charged */
    VALUE(altair_charged(mainnet, 127, registry, FIVE), 5);
    registry[45] = 3;
    VALUE(altair_charged(mainnet, 127, registry, FIVE), 4);
    fill(registry, 5);
    TOTAL(altair_get_total_active_balance(mainnet, 127, registry, FIVE), 160 * ETH, 0);
    TOTAL(altair_get_total_active_balance(mainnet, 127, registry, 0), ETH, 1); /* a total of nobody is raised */
    registry[ALTAIR_EFFECTIVE_BALANCE] = ETH;
    TOTAL(altair_get_total_active_balance(mainnet, 127, registry, ENTRY), ETH, 0); /* a sum equal to it is not */
    registry[ALTAIR_EFFECTIVE_BALANCE] = ETH - 1;
    TOTAL(altair_get_total_active_balance(mainnet, 127, registry, ENTRY), ETH, 1);
    fill(registry, 5);
    TOTAL(altair_get_participating_balance(mainnet, 127, 1, 2, registry, FIVE), 160 * ETH, 0);
    TOTAL(altair_get_participating_balance(mainnet, 127, 1, 3, registry, 0), ETH, 1);
    VALUE(altair_get_validator_churn_limit(mainnet, 127, registry, FIVE), 4);
    VALUE(altair_get_base_reward_per_increment(mainnet, 160 * ETH), 160000);
    altair_deltas_answer d = altair_get_flag_index_deltas(mainnet, 127, 1, 1, 4, registry, FIVE);
    SAME(d.refusal, 0), SAME(d.reward, 2080000), SAME(d.penalty, 0);
    registry[ENTRY * 4 + ALTAIR_PREVIOUS_EPOCH_PARTICIPATION] = 0;
    d = altair_get_flag_index_deltas(mainnet, 127, 1, 1, 0, registry, FIVE);
    SAME(d.refusal, 0), SAME(d.reward, 1664000), SAME(d.penalty, 0);
    d = altair_get_flag_index_deltas(mainnet, 127, 1, 1, 4, registry, FIVE);
    SAME(d.refusal, 0), SAME(d.reward, 0), SAME(d.penalty, 2080000);
    d = altair_get_flag_index_deltas(mainnet, 127, 1, 1, 5, registry, FIVE);
    SAME(d.refusal, 1), SAME(d.reward, 0), SAME(d.penalty, 0);

    const altair_queue none = altair_exit_queue(registry, FIVE).queue, wrong = {8, 1};
    SAME(none.last_epoch, 0), SAME(none.number, 0);
    SAME(altair_initiate_validator_exit(mainnet, 127, 1, wrong, registry, FIVE).refusal, 8);
    const altair_queue_answer left = altair_initiate_validator_exit(mainnet, 127, 1, none, registry, FIVE);
    SAME(left.refusal, 0), SAME(left.queue.last_epoch, 8), SAME(left.queue.number, 1);
    const altair_queue found = altair_exit_queue(registry, FIVE).queue;
    SAME(found.last_epoch, 8), SAME(found.number, 1), SAME(altair_exit_queue(registry, FIVE - 1).refusal, 1);
    SAME(registry[ENTRY + ALTAIR_EXIT_EPOCH], 8), SAME(registry[ENTRY + ALTAIR_WITHDRAWABLE_EPOCH], 264);
    SAME(registry[ALTAIR_EXIT_EPOCH], FAR);
    SAME(altair_initiate_validator_exit(mainnet, 127, 5, found, registry, FIVE).refusal, 1);
}

static void the_steps(void) {
    static uint8_t roots[32 * 8192];
    static uint64_t slashings[8192], closing_slashings[8192];
    uint64_t opening[FIVE], closing[FIVE] = {0};
    fill(opening, 5);

    altair_finality f = finality_at(127);
    altair_justification_answer justified =
        altair_process_justification_and_finalization(mainnet, roots, sizeof roots, f, opening, FIVE);
    SAME(justified.refusal, 0), SAME(justified.finality.justification_bits, 3);
    SAME(justified.finality.current_justified_checkpoint.epoch, 3);
    RAISED(justified, 0, 0, 0);
    /* of no validators all three are raised, but neither up to epoch 1 nor on refusal: at an epoch's first slot its root is wanted */
    RAISED(altair_process_justification_and_finalization(mainnet, roots, sizeof roots, f, opening, 0), 1, 1, 1);
    RAISED(altair_process_justification_and_finalization(mainnet, roots, sizeof roots, finality_at(63), opening, 0), 0, 0, 0);
    justified = altair_process_justification_and_finalization(mainnet, roots, sizeof roots, finality_at(96), opening, 0);
    SAME(justified.refusal, 4);
    RAISED(justified, 0, 0, 0);

    opening[ALTAIR_INACTIVITY_SCORE] = 10;
    SAME(altair_process_inactivity_updates(mainnet, 127, 1, opening, FIVE, closing, FIVE), 0);
    SAME(closing[ALTAIR_INACTIVITY_SCORE], 0);
    SAME(altair_process_inactivity_updates(mainnet, 127, 3, opening, FIVE, closing, FIVE), 5);
    SAME(memcmp(closing, opening, sizeof opening), 0);

    SAME(altair_process_rewards_and_penalties(altair, 127, 1, opening, FIVE, closing, FIVE), 0);
    SAME(closing[ALTAIR_BALANCE], 32 * ETH + 1120000 + 2080000 + 1120000);

    opening[ENTRY + ALTAIR_ACTIVATION_EPOCH] = FAR;
    const altair_queue none = {0, 0}, wrong = {0, 1};
    SAME(altair_process_registry_updates(mainnet, 127, 1, none, opening, FIVE, closing, FIVE).refusal, 0);
    SAME(closing[ENTRY + ALTAIR_ACTIVATION_EPOCH], 8);
    closing[0] = 99;
    SAME(altair_process_registry_updates(mainnet, 127, 1, none, opening, FIVE, closing, FIVE - ENTRY).refusal, 1);
    SAME(altair_process_registry_updates(mainnet, 127, 1, wrong, opening, FIVE, closing, FIVE).refusal, 8);
    SAME(closing[0], 99);

    /* validator 0 waits since a later epoch than 1 and 3; from the stop up nobody is activated, and each is still counted */
    opening[ALTAIR_ACTIVATION_ELIGIBILITY_EPOCH] = 1;
    opening[ALTAIR_ACTIVATION_EPOCH] = opening[3 * ENTRY + ALTAIR_ACTIVATION_EPOCH] = FAR;
    opening[4 * ENTRY] = 16 * ETH;
    altair_settings two_at_a_time = mainnet;
    two_at_a_time.min_per_epoch_churn_limit = 2;
    for (uint64_t stop = 0; stop <= 5; stop++) {
        SAME(altair_process_registry_updates_to(stop, two_at_a_time, 127, 1, none, opening, FIVE, closing, FIVE).refusal, 0);
        SAME(closing[ALTAIR_ACTIVATION_EPOCH], FAR);
        SAME(closing[ENTRY + ALTAIR_ACTIVATION_EPOCH], stop > 1 ? 8 : FAR);
        SAME(closing[3 * ENTRY + ALTAIR_ACTIVATION_EPOCH], stop > 3 ? 8 : FAR);
        SAME(closing[4 * ENTRY + ALTAIR_EXIT_EPOCH], 8);
    }
    closing[0] = 99;
    SAME(altair_process_registry_updates_to(6, two_at_a_time, 127, 1, none, opening, FIVE, closing, FIVE).refusal, 1);
    SAME(closing[0], 99);

    fill(opening, 5);
    slashings[3] = 32 * ETH;
    opening[ALTAIR_SLASHED] = 1;
    opening[ALTAIR_WITHDRAWABLE_EPOCH] = 3 + 8192 / 2;
    SAME(altair_process_slashings(altair, 127, slashings, 8192, opening, FIVE, closing, FIVE), 0);
    SAME(closing[ALTAIR_BALANCE], 20 * ETH), SAME(closing[ENTRY + ALTAIR_BALANCE], 32 * ETH);
    SAME(altair_process_slashings(bellatrix, 127, slashings, 8192, opening, FIVE, closing, FIVE), 0);
    SAME(closing[ALTAIR_BALANCE], 13 * ETH), SAME(closing[ENTRY + ALTAIR_BALANCE], 32 * ETH);

    opening[ALTAIR_BALANCE] = 31749999999;
    opening[ENTRY + ALTAIR_BALANCE] = 31750000000;
    SAME(altair_process_effective_balance_updates(mainnet, opening, FIVE, closing, FIVE), 0);
    SAME(closing[ALTAIR_EFFECTIVE_BALANCE], 31 * ETH), SAME(closing[ENTRY + ALTAIR_EFFECTIVE_BALANCE], 32 * ETH);

    slashings[4] = 6;
    SAME(altair_process_slashings_reset(mainnet, 127, slashings, 8192, closing_slashings, 8192), 0);
    SAME(closing_slashings[3], 32 * ETH), SAME(closing_slashings[4], 0);

    opening[ALTAIR_CURRENT_EPOCH_PARTICIPATION] = 5;
    SAME(altair_process_participation_flag_updates(opening, FIVE, closing, FIVE), 0);
    SAME(closing[ALTAIR_PREVIOUS_EPOCH_PARTICIPATION], 5), SAME(closing[ALTAIR_CURRENT_EPOCH_PARTICIPATION], 0);
}

/* written, read and closed; the close is that of the program close_record */
static void the_file(void) {
    static uint8_t file[ALTAIR_FILE_LENGTH(5, 64, 64)], roots[32 * 64];
    uint64_t registry[FIVE], slashings[64] = {0}, back[FIVE] = {0}, slashings_back[64], closing[FIVE];
    uint64_t amounts[5 * ALTAIR_AMOUNTS_LENGTH];
    const altair_queue none = {0, 0}, wrong = {7, 0};
    altair_settings s = mainnet;
    s.slots_per_epoch = 8, s.slots_per_historical_root = 64, s.epochs_per_slashings_vector = 64;
    altair_finality f = finality_at(31);
    f.justification_bits = 3;
    f.previous_justified_checkpoint.epoch = 1;
    f.current_justified_checkpoint.epoch = 2;
    f.finalized_checkpoint.epoch = 1;
    fill(registry, 5);
    roots[5] = 1;
    SAME(altair_write_file(s, f, none, registry, FIVE, roots, sizeof roots, slashings, 64, file, sizeof file - 1), 1);
    SAME(altair_write_file(s, f, wrong, registry, FIVE, roots, sizeof roots, slashings, 64, file, sizeof file), 8);
    SAME(file[0], 0);
    SAME(altair_write_file(s, f, none, registry, FIVE, roots, sizeof roots, slashings, 64, file, sizeof file), 0);
    SAME(file[0], 2);
    altair_header header = altair_read_header(file, sizeof file);
    SAME(header.refusal, 0), SAME(header.validators, 5), SAME(header.roots, 64), SAME(header.slashings, 64);
    SAME(memcmp(file + ALTAIR_ROOTS_AT(file[0], 5), roots, sizeof roots), 0);
    altair_read_answer read = altair_read_file(file, sizeof file, back, FIVE, slashings_back, 64);
    SAME(read.refusal, 0), SAME(read.position, sizeof file), SAME(memcmp(&read.settings, &s, sizeof s), 0);
    SAME(memcmp(&read.finality, &f, sizeof f), 0), SAME(memcmp(back, registry, sizeof back), 0);
    SAME(memcmp(slashings_back, slashings, sizeof slashings), 0);
    SAME(read.queue.last_epoch, 0), SAME(read.queue.number, 0);

    uint64_t store[2 * ALTAIR_ENTRY_LENGTH];
    altair_put_entry(store, 0, altair_under_altair(s));
#define CLOSE(queue) CLOSE_BY(1, queue)
#define CLOSE_BY(count, queue)                                                                                         \
    altair_close(store, 2 * ALTAIR_ENTRY_LENGTH, count, f, queue, registry, FIVE, slashings, 64, roots, sizeof roots, \
                 closing, FIVE, slashings_back, 64, amounts, sizeof amounts / sizeof *amounts)
    altair_full_answer closed = CLOSE(none);
    SAME(closed.refusal, 0), SAME(closed.finality.finalized_checkpoint.epoch, 2), SAME(closed.test, 4);
    SAME(closed.queue.last_epoch, 0), SAME(closed.queue.number, 0);
    SAME(closing[ALTAIR_BALANCE], 32 * ETH + 1120000 + 2080000 + 1120000);
    SAME(amounts[ALTAIR_SOURCE_REWARD], 1120000), SAME(amounts[ALTAIR_TARGET_REWARD], 2080000);
    SAME(amounts[ALTAIR_HEAD_REWARD], 1120000), SAME(amounts[ALTAIR_HEAD_TAKEN], 0);
    SAME(amounts[ALTAIR_INACTIVITY_REWARD] + amounts[ALTAIR_INACTIVITY_TAKEN] + amounts[ALTAIR_SLASHING_TAKEN], 0);
    closed = CLOSE(wrong);
    SAME(closed.refusal, 8), SAME(closed.queue.last_epoch, 7), SAME(closed.test, 0);
    SAME(amounts[ALTAIR_SOURCE_REWARD], 1120000);
    SAME(altair_close(store, ALTAIR_ENTRY_LENGTH, 1, f, none, registry, FIVE, slashings, 64, roots, sizeof roots, closing,
                      FIVE, slashings_back, 64, amounts, 44)
             .refusal,
         1);
    SAME(CLOSE_BY(0, none).refusal, 13), SAME(CLOSE_BY(3, none).refusal, 1);
    closed = CLOSE(none);
    altair_head head = altair_listing_head(s, 31, closed.finality, registry, FIVE);
    SAME(head.refusal, 0), SAME(head.epoch, 3), SAME(head.justified_epoch, 3), SAME(head.finalized_epoch, 2);
    SAME(head.justification_bits, 7), SAME(head.charged, 5);
    RAISED(closed, 0, 0, 0);
    RAISED(head, 0, 0, 0);
    /* nobody hits the current epoch's target */
    for (size_t i = 0; i < 5; i++)
        registry[ENTRY * i + ALTAIR_CURRENT_EPOCH_PARTICIPATION] = 0;
    closed = CLOSE(none);
    RAISED(closed, 0, 0, 1);
    RAISED(altair_listing_head(s, 31, closed.finality, registry, FIVE), 0, 0, 1);
    /* by a store whose increment is above every sum: the first line goes by its entry, and not by the record's settings */
    altair_settings rich = s;
    rich.effective_balance_increment = 1000000000000;
    altair_put_entry(store, 0, altair_under_altair(rich));
    closed = CLOSE(none);
    RAISED(closed, 1, 1, 1);
    const altair_settings by = altair_read_rules(store, ALTAIR_ENTRY_LENGTH, 1, 3).rules.settings;
    RAISED(altair_listing_head(by, 31, closed.finality, registry, FIVE), 1, 1, 1);
    altair_put_entry(store, 0, altair_under_altair(s));
    closed = CLOSE(none);
    registry[ENTRY * 4 + ALTAIR_BALANCE] = 6, closing[ENTRY * 4 + ALTAIR_BALANCE] = 7;
    closing[ENTRY * 4 + ALTAIR_EFFECTIVE_BALANCE] = 8, closing[ENTRY * 4 + ALTAIR_INACTIVITY_SCORE] = 9;
    altair_line line = altair_listing_line(registry, FIVE, closing, FIVE, 4);
    SAME(line.refusal, 0), SAME(line.index, 4), SAME(line.opening_balance, 6), SAME(line.closing_balance, 7);
    SAME(line.effective_balance, 8), SAME(line.inactivity_score, 9), SAME(line.net_change, 1);
    closing[ENTRY * 4 + ALTAIR_BALANCE] = 5;
    SAME(altair_listing_line(registry, FIVE, closing, FIVE, 4).net_change, -1);
    closing[ENTRY * 4 + ALTAIR_BALANCE] = UINT64_MAX;
    line = altair_listing_line(registry, FIVE, closing, FIVE, 4);
    SAME(line.refusal, 7), SAME(line.index, 0), SAME(line.closing_balance, 0), SAME(line.net_change, 0);
    line = altair_listing_line(registry, FIVE, closing, FIVE, 5);
    SAME(line.refusal, 1), SAME(line.index, 0);

    /* a balance that overflows: the opening's finality and numbers come back */
    registry[ALTAIR_BALANCE] = UINT64_MAX;
    closed = CLOSE(none);
    SAME(closed.refusal, 5), SAME(memcmp(&closed.finality, &f, sizeof f), 0);
    SAME(memcmp(closing, registry, sizeof closing), 0), SAME(memcmp(slashings_back, slashings, sizeof slashings), 0);
    SAME(amounts[ALTAIR_SOURCE_REWARD], 0), SAME(amounts[4 * ALTAIR_AMOUNTS_LENGTH], 0);
    closing[0] = 99;
    f.finalized_checkpoint.epoch = UINT64_C(1) << 48;
    closed = CLOSE(none);
    SAME(closed.refusal, 3), SAME(memcmp(&closed.finality, &f, sizeof f), 0), SAME(closing[0], 99);

    /* the second validator's flags are bad: reading stops there, and writes nothing */
    file[384 + 80 + 8 * ALTAIR_CURRENT_EPOCH_PARTICIPATION + 1] = 1;
    back[0] = 99;
    read = altair_read_file(file, sizeof file, back, FIVE, slashings_back, 64);
    SAME(read.refusal, 3), SAME(read.position, 384 + 80 + 8 * ALTAIR_CURRENT_EPOCH_PARTICIPATION), SAME(back[0], 99);
    /* the pair of another registry: it stands before the validators, and is tested after them */
    file[384 + 80 + 8 * ALTAIR_CURRENT_EPOCH_PARTICIPATION + 1] = 0;
    file[368] = 1;
    read = altair_read_file(file, sizeof file, back, FIVE, slashings_back, 64);
    SAME(read.refusal, 8), SAME(read.position, 368), SAME(back[0], 99), SAME(read.queue.last_epoch, 0);
    file[0] = 3;
    header = altair_read_header(file, sizeof file);
    SAME(header.refusal, 6), SAME(header.validators, 0);
}

/* a close by steps, an order taken meanwhile, and what comes of it; and calls without an entry for the epoch */
static void by_steps(void) {
    static uint8_t roots[32 * 8192];
    static uint64_t slashings[8192], closing_slashings[8192];
    uint64_t registry[FIVE], closing[FIVE], whole[FIVE], amounts[45], whole_amounts[45], orders[4], answers[] = {77, 77};
    uint64_t store[2 * ALTAIR_ENTRY_LENGTH], *later = store + ALTAIR_ENTRY_LENGTH; /* epoch 3 goes by the first of two entries */
    const altair_queue none = {0, 0};
    const altair_finality f = finality_at(127);
    fill(registry, 5);
    altair_put_entry(store, 3, altair);
    altair_put_entry(later, 4, bellatrix);
    const altair_full_answer all =
        altair_close(store, 2 * ALTAIR_ENTRY_LENGTH, 2, f, none, registry, FIVE, slashings, 8192, roots, sizeof roots,
                     whole, FIVE, closing_slashings, 8192, whole_amounts, 45);
    altair_running_answer at = {.running = {0}}, no;
#define STEP_BY(by, entries, k)                                                                                        \
    altair_close_step(k, at.running, by, ALTAIR_ENTRY_LENGTH * (entries), entries, f, none, registry, FIVE, slashings, \
                      8192, roots, sizeof roots, closing, FIVE, closing_slashings, 8192, amounts, 45)
#define STEP_NUMBER(k) STEP_BY(store, 2, k)
#define NINTH_BY(by, entries, period)                                                                                  \
    altair_carry_out(by, ALTAIR_ENTRY_LENGTH * (entries), entries, period, at.running, closing, FIVE, orders, 4,       \
                     answers, 2)
    /* the first call ends the close as the whole close is refused, and writes nothing */
    closing[0] = amounts[0] = 99;
    no = STEP_BY(later, 1, 1);
    SAME(no.refusal, 13), SAME(no.ended, 0), SAME(no.running.done, 9), SAME(no.running.answer.refusal, 13);
    SAME(no.running.answer.finality.slot, 127), SAME(closing[0], 99), SAME(amounts[0], 99);
    SAME(STEP_NUMBER(2).refusal, 1), SAME(altair_take_order(at.running, 1, 0, orders, 4).refusal, 1);
    for (uint64_t k = 1; k <= 8; k++) {
        at = STEP_NUMBER(k);
        SAME(at.refusal, 0), SAME(at.ended, 0), SAME(at.running.done, k);
        SAME(STEP_NUMBER(k).refusal, 1);
        if (k == 3 || k == 8)
            at = altair_take_order(at.running, k == 3 ? 1 : 9, 0, orders, 4);
        /* a later call is turned away alone */
        no = k == 8 ? NINTH_BY(later, 1, 3) : STEP_BY(later, 1, k + 1);
        SAME(no.refusal, 13), SAME(no.ended, 0), SAME(memcmp(&no.running, &at.running, sizeof no.running), 0);
        SAME((k == 8 ? NINTH_BY(store, 0, 3) : STEP_BY(store, 0, k + 1)).refusal, 13);
    }
    SAME(altair_take_order(at.running, 2, 0, orders, 4).refusal, 11), SAME(altair_take_order(at.running, 2, 0, orders, 3).refusal, 1);
    SAME(memcmp(&at.running.answer, &all, sizeof all), 0), SAME(memcmp(closing, whole, sizeof whole), 0);
    SAME(memcmp(amounts, whole_amounts, sizeof amounts), 0);
    SAME(NINTH_BY(store, 2, UINT64_C(1) << 48).refusal, 2), SAME(NINTH_BY(later, 1, UINT64_C(1) << 48).refusal, 2);
    at = NINTH_BY(store, 2, 3);
    SAME(at.refusal, 0), SAME(at.running.done, 9), SAME(at.running.orders, 0), SAME(answers[0], 0), SAME(answers[1], 9);
    SAME(closing[ENTRY + ALTAIR_EXIT_EPOCH], 8), SAME(at.running.answer.queue.last_epoch, 8), SAME(at.running.answer.queue.number, 1);
    SAME(STEP_NUMBER(1).ended, 1), SAME(altair_take_order(at.running, 2, 0, orders, 4).ended, 1);
    SAME(NINTH_BY(store, 2, 3).ended, 1), SAME(NINTH_BY(store, 0, 3).ended, 1);
}

/* a good file, one of version 1 and a damaged one, closed in one call; each leaves its own part alone */
static void the_shelf(void) {
    enum { LENGTH = ALTAIR_FILE_LENGTH(1, 64, 64) };
    static uint8_t files[3 * LENGTH], closing[3 * LENGTH], roots[32 * 64];
    static uint64_t opening_numbers[LENGTH / 8], closing_numbers[LENGTH / 8];
    uint64_t registry[10], slashings[64] = {0}, lengths[] = {LENGTH, LENGTH, LENGTH}, answers[] = {9, 9, 9};
    const altair_bellatrix none = {0, 0};
    altair_settings s = mainnet;
    s.slots_per_historical_root = 64, s.epochs_per_slashings_vector = 64;
    fill(registry, 1);
    for (int i = 0; i < 3; i++)
        SAME(altair_write_file(s, finality_at(127), (altair_queue){0, 0}, registry, 10, roots, sizeof roots, slashings, 64,
                               files + i * LENGTH, LENGTH),
             0);
    files[LENGTH] = 1, files[2 * LENGTH + 240] = 16;
    memset(closing, 99, sizeof closing);
#define SHELF(count, fork, pair)                                                                                       \
    altair_close_shelf(files, sizeof files, lengths, 3, closing, sizeof closing, opening_numbers, LENGTH / 8,          \
                       closing_numbers, LENGTH / 8, answers, count, fork, pair)
    SAME(SHELF(2, 0, none), 1), SAME(answers[0], 9), SAME(closing[0], 99);
    SAME(SHELF(3, 0, none), 0), SAME(answers[0], 0), SAME(answers[1], 6), SAME(answers[2], 3);
    SAME(closing[0], 2), SAME(closing[LENGTH], 99), SAME(closing[2 * LENGTH], 99);
    SAME(closing[384 + 8 * ALTAIR_PREVIOUS_EPOCH_PARTICIPATION], 7), SAME(closing[384 + 8 * ALTAIR_CURRENT_EPOCH_PARTICIPATION], 0);
    SAME(SHELF(3, 1, none), 0), SAME(answers[0], 2), SAME(SHELF(3, 2, none), 0), SAME(answers[0], 1);
    lengths[2]--;
    SAME(SHELF(3, 0, none), 1);
    SAME(altair_close_shelf(NULL, 0, NULL, 0, NULL, 0, NULL, 0, NULL, 0, NULL, 0, 2, none), 0);
}

/* the functions that are plain C */
static void in_c(void) {
    uint64_t five[FIVE + 1];
    fill(five, 5);
    five[FIVE] = 99;
    SAME(altair_preset("mainnet")->churn_limit_quotient, 65536), SAME(altair_preset("minimal")->slots_per_epoch, 8);
    SAME(altair_preset("Mainnet") == NULL, 1), SAME(altair_preset(NULL) == NULL, 1);
    SAME(strcmp(altair_refusal_text(0), "accepted"), 0), SAME(strstr(altair_refusal_text(5), "leaves 64 bits") != NULL, 1);
    SAME(altair_refusal_text(UINT64_MAX) == altair_refusal_text(1000), 1);
    /* a step from a registry into itself, one number on: refused, and nothing is written */
    SAME(altair_checked_process_participation_flag_updates(five, FIVE, five + 1, FIVE), 1), SAME(five[FIVE], 99);
    SAME(altair_checked_process_participation_flag_updates(NULL, 0, NULL, 0), 0);
    /* refused with 1: the argument at fault, and the length called for; of a call that is not, nothing */
#define WHY(call, name, wants)                                                                                         \
    SAME(strcmp((call).argument, name), 0), SAME((call).number, wants), SAME((call).wanted[0] != '\0', 1)
    uint64_t other[FIVE];
    WHY(altair_why_process_participation_flag_updates(five, FIVE, other, FIVE - 1), "closing", FIVE);
    WHY(altair_why_process_participation_flag_updates(five, FIVE - 1, other, FIVE - 1), "opening", FIVE - 10);
    WHY(altair_why_get_base_reward_per_increment(mainnet, 0), "total", 1);
    WHY(altair_why_has_flag(1, 8), "flag_index", 7);
    SAME(altair_why_has_flag(1, 7).argument == NULL, 1);
    SAME(altair_why_process_participation_flag_updates(five, FIVE, other, FIVE).argument == NULL, 1);
    /* a close that has ended says so, whatever its buffers are */
    const altair_running ended = {.done = 9};
    SAME(altair_checked_carry_out(five, FIVE, 1, 0, ended, five, FIVE, five, FIVE, five + 1, FIVE).ended, 1);
}

/* settings by starting epoch */
static void the_store(void) {
    uint64_t store[2 * ALTAIR_ENTRY_LENGTH] = {0};
    altair_settings more = mainnet;
    more.min_per_epoch_churn_limit = 8;
    SAME(altair_read_rules(store, 0, 0, 5).refusal, 13), SAME(altair_read_rules(store, 22, 0, 5).refusal, 1);
    altair_count_answer added = altair_add_rules(store, 2 * ALTAIR_ENTRY_LENGTH, 0, 10, altair);
    SAME(added.refusal, 0), SAME(added.count, 1);
    SAME(altair_read_rules(store, 2 * ALTAIR_ENTRY_LENGTH, 1, 9).refusal, 13);
    SAME(altair_read_rules(store, 2 * ALTAIR_ENTRY_LENGTH, 1, 10).rules.settings.min_per_epoch_churn_limit, 4);
    added = altair_add_rules(store, 2 * ALTAIR_ENTRY_LENGTH, 1, 10, altair_under_altair(more));
    SAME(added.refusal, 12), SAME(added.count, 1);
    more.slots_per_epoch = 8;
    SAME(altair_add_rules(store, 2 * ALTAIR_ENTRY_LENGTH, 1, 20, altair_under_altair(more)).refusal, 1);
    more = mainnet, more.min_per_epoch_churn_limit = 8;
    const altair_rules later = altair_under_bellatrix(more, (altair_bellatrix)ALTAIR_MAINNET_BELLATRIX);
    SAME(altair_add_rules(store, 2 * ALTAIR_ENTRY_LENGTH, 1, 20, altair_under_bellatrix(more, (altair_bellatrix){0, 3})).refusal, 2);
    added = altair_add_rules(store, 2 * ALTAIR_ENTRY_LENGTH, 1, 20, later);
    SAME(added.refusal, 0), SAME(added.count, 2);
    SAME(altair_read_rules(store, 2 * ALTAIR_ENTRY_LENGTH, 2, 19).rules.fork, 0);
    const altair_rules_answer read = altair_read_rules(store, 2 * ALTAIR_ENTRY_LENGTH, 2, UINT64_MAX);
    SAME(read.refusal, 0), SAME(memcmp(&read.rules, &later, sizeof later), 0);
    SAME(altair_add_rules(store, 2 * ALTAIR_ENTRY_LENGTH, 2, 30, later).refusal, 1);
}

/* both ends of the range, and one beyond either */
static void net_changes(void) {
    const uint64_t end = UINT64_C(1) << 63;
    VALUE(altair_net_change(7, 7), 0);
    VALUE(altair_net_change(32000000000, 31996800000), (uint64_t)-3200000);
    SAME(altair_net_change(32000000000, 31996800000).value < 0, 1);
    VALUE(altair_net_change(0, end - 1), INT64_MAX);
    REFUSED(altair_net_change(0, end), 7);
    VALUE(altair_net_change(end, 0), (uint64_t)INT64_MIN);
    VALUE(altair_net_change(UINT64_MAX, end - 1), (uint64_t)INT64_MIN);
    REFUSED(altair_net_change(end + 1, 0), 7);
    REFUSED(altair_net_change(0, UINT64_MAX), 7);
    REFUSED(altair_net_change(UINT64_MAX, 0), 7);
}

/* how many of a list of validators have this number at this place */
static uint64_t having(const uint64_t *registry, size_t count, size_t place, uint64_t number) {
    uint64_t found = 0;
    for (size_t i = 0; i < count; i++)
        found += registry[10 * i + place] == number;
    return found;
}

/* Deneb's limit of activations, document 03's figures: forty are active, of whom twenty leave, and twenty wait */
static void deneb(void) {
    enum { SIXTY = 600 };
    altair_deneb_rules rules = ALTAIR_MAINNET_DENEB;
    const altair_deneb_rules minimal = ALTAIR_MINIMAL_DENEB;
    SAME(rules.max_per_epoch_activation_churn_limit, 8), SAME(minimal.max_per_epoch_activation_churn_limit, 4);
    uint64_t sixty[SIXTY], closing[SIXTY], amounts[540], slashings[8192] = {0}, left[8192];
    static uint8_t roots[32 * 8192];
    const altair_queue none = {0, 0};
    fill(sixty, 60);
    for (size_t i = 0; i < 20; i++)
        sixty[10 * i + ALTAIR_EFFECTIVE_BALANCE] = 16 * ETH, sixty[10 * i + ALTAIR_BALANCE] = 16 * ETH;
    for (size_t i = 40; i < 60; i++)
        sixty[10 * i + ALTAIR_ACTIVATION_ELIGIBILITY_EPOCH] = 1, sixty[10 * i + ALTAIR_ACTIVATION_EPOCH] = FAR;
    /* a churn limit of 40 / 4 = 10: ten leave in an epoch, eight are activated */
    rules.settings.churn_limit_quotient = 4;
    altair_queue_answer step = deneb_process_registry_updates(rules, 127, 1, none, sixty, SIXTY, closing, SIXTY);
    SAME(step.refusal, 0), SAME(step.queue.last_epoch, 9), SAME(step.queue.number, 10);
    SAME(having(closing, 20, ALTAIR_EXIT_EPOCH, 8), 10), SAME(having(closing, 20, ALTAIR_EXIT_EPOCH, 9), 10);
    SAME(having(closing + 400, 20, ALTAIR_ACTIVATION_EPOCH, 8), 8), SAME(closing[470 + ALTAIR_ACTIVATION_EPOCH], 8);
    const altair_finality finality = {.slot = 127, .finalized_checkpoint = {.epoch = 1}};
    altair_full_answer closed = deneb_close(rules, finality, none, sixty, SIXTY, slashings, 8192, roots, sizeof roots, closing, SIXTY,
                                            left, 8192, amounts, 540);
    SAME(closed.refusal, 0), SAME(closed.queue.number, 10);
    SAME(having(closing + 400, 20, ALTAIR_ACTIVATION_EPOCH, 8), 8), SAME(having(closing + 400, 20, ALTAIR_ACTIVATION_EPOCH, FAR), 12);
    for (size_t i = 0; i < 60; i++) {
        const uint64_t *a = amounts + ALTAIR_AMOUNTS_LENGTH * i;
        SAME(sixty[10 * i + ALTAIR_BALANCE] + a[0] - a[1] + a[2] - a[3] + a[4] - a[5] + a[6] - a[7] - a[8], closing[10 * i + ALTAIR_BALANCE]);
    }
    /* 0 lets nobody in; 2^48 is too large a setting */
    rules.max_per_epoch_activation_churn_limit = 0;
    SAME(deneb_process_registry_updates(rules, 127, 1, none, sixty, SIXTY, closing, SIXTY).queue.number, 10);
    SAME(having(closing + 400, 20, ALTAIR_ACTIVATION_EPOCH, FAR), 20);
    rules.max_per_epoch_activation_churn_limit = UINT64_C(1) << 48;
    SAME(deneb_process_registry_updates(rules, 127, 1, none, sixty, SIXTY, closing, SIXTY).refusal, 2);
    /* mainnet's quotient: a churn limit of 4, and four are activated */
    rules = (altair_deneb_rules)ALTAIR_MAINNET_DENEB;
    step = deneb_process_registry_updates(rules, 127, 1, none, sixty, SIXTY, closing, SIXTY);
    SAME(step.queue.last_epoch, 12), SAME(step.queue.number, 4), SAME(having(closing + 400, 20, ALTAIR_ACTIVATION_EPOCH, 8), 4);
}

/* Electra's steps and helpers: mainnet, slot 127, the last of epoch 3 */
static void electra(void) {
    const altair_electra_rules rules = {ALTAIR_MAINNET, ALTAIR_MAINNET_BELLATRIX, ALTAIR_MAINNET_ELECTRA};
    uint64_t five[FIVE], closing[FIVE + 10], slashings[8192] = {0}, compounding[5] = {1}, marks[6], places[1];
    fill(five, 5);
    SAME(electra_get_balance_churn_limit(rules, 127, five, FIVE).value, 128 * ETH);
    SAME(electra_get_activation_exit_churn_limit(rules, 127, five, FIVE).value, 128 * ETH);
    SAME(electra_get_max_effective_balance(rules, 1).value, 2048 * ETH);
    SAME(electra_get_max_effective_balance(rules, 0).value, 32 * ETH);
    SAME(electra_get_max_effective_balance(rules, 2).refusal, 3);
    /* a whole limit at epoch 8, then what it leaves */
    altair_exit_churn_answer left =
        electra_compute_exit_epoch_and_update_churn(rules, 127, (altair_exit_churn){0, 0}, 32 * ETH, five, FIVE);
    SAME(left.churn.exit_balance_to_consume, 96 * ETH), SAME(left.churn.earliest_exit_epoch, 8);
    left = electra_initiate_validator_exit(rules, 127, 4, left.churn, five, FIVE);
    SAME(left.churn.exit_balance_to_consume, 64 * ETH);
    SAME(five[40 + ALTAIR_EXIT_EPOCH], 8), SAME(five[40 + ALTAIR_WITHDRAWABLE_EPOCH], 264);
    SAME(electra_initiate_validator_exit(rules, 127, 5, left.churn, five, FIVE).refusal, 1);

    fill(five, 5);
    five[ALTAIR_EFFECTIVE_BALANCE] = 16 * ETH;
    left = electra_process_registry_updates(rules, 127, 2, (altair_exit_churn){0, 0}, five, FIVE, closing, FIVE);
    SAME(left.refusal, 0), SAME(left.churn.exit_balance_to_consume, 112 * ETH), SAME(closing[ALTAIR_EXIT_EPOCH], 8);

    /* 3 * 32 ETH over 160 whole increments: 600000000 an increment, of which the slashed one has 32 */
    fill(five, 5);
    slashings[0] = 32 * ETH, five[ALTAIR_SLASHED] = 1, five[ALTAIR_WITHDRAWABLE_EPOCH] = 3 + 4096;
    SAME(electra_process_slashings(rules, 127, slashings, 8192, five, FIVE, closing, FIVE), 0);
    SAME(closing[ALTAIR_BALANCE], 32 * ETH - 32 * 600000000ull);

    /* a new key, whose effective balance is rounded down */
    fill(five, 5);
    const uint64_t deposit[ALTAIR_DEPOSIT_LENGTH] = {5, 1, 33 * ETH + 1, 64, 1};
    uint64_t rest[ALTAIR_DEPOSIT_LENGTH];
    const altair_deposits_answer deposited =
        electra_process_pending_deposits(rules, 127, 2, (altair_deposit_numbers){0, 6, 6}, five, FIVE, compounding, 5,
                                         deposit, 5, closing, FIVE + 10, marks, 6, rest, 5, places, 1);
    SAME(deposited.refusal, 0), SAME(deposited.validators, 6), SAME(deposited.deposits, 0);
    SAME(closing[50 + ALTAIR_EFFECTIVE_BALANCE], 33 * ETH), SAME(closing[50 + ALTAIR_BALANCE], 33 * ETH + 1), SAME(marks[5], 1);
    SAME(closing[50 + ALTAIR_ACTIVATION_EPOCH], FAR);

    /* a source that is withdrawable in the next epoch */
    const uint64_t pair[ALTAIR_CONSOLIDATION_LENGTH] = {0, 1};
    uint64_t pairs[ALTAIR_CONSOLIDATION_LENGTH];
    five[ALTAIR_EXIT_EPOCH] = 3, five[ALTAIR_WITHDRAWABLE_EPOCH] = 4;
    const altair_consolidations_answer merged =
        electra_process_pending_consolidations(rules, 127, five, FIVE, pair, 2, closing, FIVE, pairs, 2);
    SAME(merged.refusal, 0), SAME(merged.consolidations, 0);
    SAME(closing[ALTAIR_BALANCE], 0), SAME(closing[10 + ALTAIR_BALANCE], 64 * ETH);

    /* each by its own maximum */
    fill(five, 5);
    five[ALTAIR_BALANCE] = five[10 + ALTAIR_BALANCE] = 64 * ETH;
    SAME(electra_process_effective_balance_updates(rules, compounding, 5, five, FIVE, closing, FIVE), 0);
    SAME(closing[ALTAIR_EFFECTIVE_BALANCE], 64 * ETH), SAME(closing[10 + ALTAIR_EFFECTIVE_BALANCE], 32 * ETH);
}

/* Electra's close: a top-up, a new key, a deposit of one that leaves now, and a consolidation */
static void electra_whole(void) {
    const altair_electra_rules rules = {ALTAIR_MAINNET, ALTAIR_MAINNET_BELLATRIX, ALTAIR_MAINNET_ELECTRA};
    enum { DEPOSITS = 3, ROOM = 5 + DEPOSITS };
    uint64_t five[FIVE], closing[10 * ROOM], slashings[8192] = {0}, left[8192], compounding[5] = {1}, marks[ROOM];
    static uint8_t roots[32 * 8192];
    const uint64_t deposits[] = {3, 0, ETH, 0, 1, 5, 1, 33 * ETH + 1, 32, 1, 2, 0, 2 * ETH, 0, 1}, pair[] = {1, 0};
    uint64_t rest[5 * DEPOSITS], pairs[2], amounts[ALTAIR_ELECTRA_AMOUNTS_LENGTH * ROOM], places[DEPOSITS];
    fill(five, 5);
    five[10 + ALTAIR_EXIT_EPOCH] = 2, five[10 + ALTAIR_WITHDRAWABLE_EPOCH] = 4, five[10 + ALTAIR_BALANCE] = 31 * ETH;
    five[20 + ALTAIR_EFFECTIVE_BALANCE] = five[20 + ALTAIR_BALANCE] = 16 * ETH;
    const altair_finality finality = {.slot = 127, .finalized_checkpoint = {.epoch = 1}};
#define WHOLE(registry_length)                                                                                                    \
    electra_close(rules, finality, (altair_exit_churn){0, 0}, (altair_deposit_numbers){0, 6, 6}, five, registry_length, compounding, 5, slashings, \
                  8192, roots, sizeof roots, deposits, 5 * DEPOSITS, pair, 2, closing, 10 * ROOM, marks, ROOM, left, 8192, rest,  \
                  5 * DEPOSITS, pairs, 2, amounts, ALTAIR_ELECTRA_AMOUNTS_LENGTH * ROOM, places, DEPOSITS)
    const altair_electra_answer closed = WHOLE(FIVE);
    SAME(closed.refusal, 0), SAME(closed.validators, 6), SAME(closed.deposits, 1), SAME(closed.consolidations, 0);
    SAME(closed.churn.exit_balance_to_consume, 112 * ETH), SAME(closed.churn.earliest_exit_epoch, 8);
    SAME(closed.deposit_balance_to_consume, 0), SAME(closed.raised.active, 0);
    SAME(rest[ALTAIR_DEPOSIT_PUBKEY], 2), SAME(rest[ALTAIR_DEPOSIT_AMOUNT], 2 * ETH), SAME(marks[0], 1), SAME(marks[5], 1);
    SAME(closing[20 + ALTAIR_EXIT_EPOCH], 8), SAME(closing[50 + ALTAIR_EFFECTIVE_BALANCE], 33 * ETH);
    SAME(closing[ALTAIR_EFFECTIVE_BALANCE], 63 * ETH), SAME(closing[10 + ALTAIR_BALANCE], 0);
    for (size_t i = 0; i < 6; i++) {
        const uint64_t *a = amounts + ALTAIR_ELECTRA_AMOUNTS_LENGTH * i;
        uint64_t balance = i < 5 ? five[10 * i + ALTAIR_BALANCE] : 0;
        balance += a[0] - a[1] + a[2] - a[3] + a[4] - a[5] + a[6] - a[7] - a[ALTAIR_SLASHING_TAKEN];
        SAME(balance + a[ALTAIR_DEPOSITED] - a[ALTAIR_CONSOLIDATED_OUT] + a[ALTAIR_CONSOLIDATED_IN], closing[10 * i + ALTAIR_BALANCE]);
    }
    SAME(amounts[12 * 3 + ALTAIR_DEPOSITED], ETH), SAME(amounts[12 * 5 + ALTAIR_DEPOSITED], 33 * ETH + 1);
    SAME(amounts[12 + ALTAIR_CONSOLIDATED_OUT], 31 * ETH), SAME(amounts[ALTAIR_CONSOLIDATED_IN], 31 * ETH);
    const altair_electra_answer refused = WHOLE(FIVE - 1);
    SAME(refused.refusal, 1), SAME(refused.validators, 4), SAME(refused.deposits, DEPOSITS), SAME(refused.finality.slot, 127);
#undef WHOLE
}

/* five that wait, by their eligibility epochs: the last of them has four ahead, and a churn limit of 4 lets it in at the second close */
static void waiting(void) {
    uint64_t five[FIVE];
    fill(five, 5);
    for (size_t i = 0; i < 5; i++)
        five[10 * i + ALTAIR_ACTIVATION_ELIGIBILITY_EPOCH] = 1, five[10 * i + ALTAIR_ACTIVATION_EPOCH] = FAR;
    altair_wait_answer wait = altair_activation_wait(mainnet, 2, five, FIVE, 4);
    SAME(wait.refusal, 0), SAME(wait.waits, 1), SAME(wait.ahead, 4), SAME(wait.closes, 2);
    SAME(altair_activation_wait(mainnet, 2, five, FIVE, 0).closes, 1);
    SAME(altair_activation_wait(mainnet, 0, five, FIVE, 4).waits, 0);
    SAME(altair_activation_wait(mainnet, 2, five, FIVE, 5).refusal, 1);
}

int main(void) {
    slots_and_epochs();
    opening_hours();
    votes_not_yet_counted();
    one_validator();
    block_roots();
    the_registry();
    the_steps();
    the_file();
    the_store();
    by_steps();
    the_shelf();
    net_changes();
    deneb();
    electra();
    electra_whole();
    waiting();
    in_c();
    printf("%d figures agreed, %d did not\n", agreed, parted);
    return parted != 0;
}
