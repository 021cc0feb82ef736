/* What holds between functions, on a record that passes the tests: the eight steps in their order are the close, a file
 * leads back to its record and to its bytes, the listing has the record's numbers, and leaves agree with each other. */
#include "fuzz.h"

#include <stdlib.h>
#include <string.h>

enum { NUMBERS = 10 * 400, SLASHINGS = 65537 };

static bool same_finality(const altair_finality *a, const altair_finality *b) { return memcmp(a, b, sizeof *a) == 0; }

static bool same_raised(const altair_raised *a, const altair_raised *b) { return memcmp(a, b, sizeof *a) == 0; }

/* whether the plain sum of those that are active in the epoch, and where a column of flags is named, unslashed with its target flag,
 * is below one increment */
static uint64_t below_increment(const record *r, uint64_t epoch, int flags) {
    unsigned __int128 sum = 0;
    for (size_t i = 0; i < r->validators; i++) {
        const uint64_t *v = r->registry + 10 * i;
        const bool active = v[ALTAIR_ACTIVATION_EPOCH] <= epoch && epoch < v[ALTAIR_EXIT_EPOCH];
        if (active && (flags < 0 || (v[ALTAIR_SLASHED] == 0 && (v[flags] & 2))))
            sum += v[ALTAIR_EFFECTIVE_BALANCE];
    }
    return sum < r->s.effective_balance_increment;
}

static altair_raised count_raised(const record *r) {
    const uint64_t epoch = r->f.slot / r->s.slots_per_epoch;
    if (epoch <= 1)
        return (altair_raised){0, 0, 0};
    return (altair_raised){below_increment(r, epoch, -1),
                           below_increment(r, epoch - 1, ALTAIR_PREVIOUS_EPOCH_PARTICIPATION),
                           below_increment(r, epoch, ALTAIR_CURRENT_EPOCH_PARTICIPATION)};
}

/* The last of the four tests that the old checkpoints and the new bits pass, from epoch 2 on; or 0. */
static uint64_t last_test(const record *r, const altair_finality *after) {
    static const uint64_t wanted[] = {0, 14, 6, 7, 3}, back[] = {0, 3, 2, 2, 1};
    const uint64_t epoch = r->f.slot / r->s.slots_per_epoch, bits = after->justification_bits;
    uint64_t last = 0;
    for (uint64_t i = 1; i <= 4 && epoch > 1; i++) {
        const altair_checkpoint old =
            i <= 2 ? r->f.previous_justified_checkpoint : r->f.current_justified_checkpoint;
        if ((bits & wanted[i]) == wanted[i] && old.epoch + back[i] == epoch)
            last = i;
    }
    return last;
}

static bool same_queue(altair_queue a, altair_queue b) { return a.last_epoch == b.last_epoch && a.number == b.number; }

/* The amounts are the delta leaves' on the registry with the new scores, each cut where the balance ends; what slashing took is the
 * rest. So opening balance and rewards are closing balance and what was taken. */
static void the_amounts(const record *r, altair_rules rules, uint64_t finalized, const uint64_t *closing,
                        const uint64_t *amounts) {
    static uint64_t scored[NUMBERS];
    const size_t numbers = 10 * r->validators;
    const uint64_t slot = r->f.slot;
    altair_settings s = r->s; /* under fork 1 the pair stands in the place of the Altair two, which no flag's delta reads */
    MUST(altair_process_inactivity_updates(s, slot, finalized, r->registry, numbers, scored, numbers) == 0);
    for (size_t i = 0; i < r->validators; i++) {
        const uint64_t *booked = amounts + ALTAIR_AMOUNTS_LENGTH * i;
        unsigned __int128 balance = r->registry[10 * i + ALTAIR_BALANCE];
        for (uint64_t k = 0; k < 4; k++) {
            altair_deltas_answer d = {0, 0, 0};
            if (slot / s.slots_per_epoch > 0)
                d = k < 3 ? altair_get_flag_index_deltas(s, slot, finalized, k, i, scored, numbers)
                          : altair_get_inactivity_penalty_deltas(rules, slot, scored + 10 * i, 10);
            MUST(d.refusal == 0 && booked[2 * k] == d.reward);
            balance += d.reward;
            MUST(booked[2 * k + 1] == (d.penalty < balance ? d.penalty : balance));
            balance -= booked[2 * k + 1];
        }
        MUST(booked[ALTAIR_INACTIVITY_REWARD] == 0 && booked[ALTAIR_SLASHING_TAKEN] <= balance);
        MUST(balance - booked[ALTAIR_SLASHING_TAKEN] == closing[10 * i + ALTAIR_BALANCE]);
    }
}

/* The first refusal of the steps, each lent what the last one left; 0 and what all of them leave. */
static uint64_t steps(const record *r, altair_rules rules, altair_justification_answer *said, altair_queue *queue,
                      uint64_t *registry, uint64_t *slashings) {
    static uint64_t before[NUMBERS];
    const size_t numbers = 10 * r->validators;
    const altair_justification_answer justified =
        altair_process_justification_and_finalization(r->s, r->roots, r->roots_length, r->f, r->registry, numbers);
    if (justified.refusal != 0)
        return justified.refusal;
    *said = justified;
    const uint64_t slot = r->f.slot, finalized = justified.finality.finalized_checkpoint.epoch;
    altair_queue_answer queued;
    uint64_t number;
    memcpy(registry, r->registry, 8 * numbers);
#define STEP(call)                                                                                                     \
    memcpy(before, registry, 8 * numbers);                                                                             \
    if ((number = (call)) != 0)                                                                                        \
    return number
    STEP(altair_process_inactivity_updates(r->s, slot, finalized, before, numbers, registry, numbers));
    STEP(altair_process_rewards_and_penalties(rules, slot, finalized, before, numbers, registry, numbers));
    STEP((queued = altair_process_registry_updates(r->s, slot, finalized, count_queue(before, r->validators), before,
                                                   numbers, registry, numbers))
             .refusal);
    *queue = queued.queue;
    STEP(altair_process_slashings(rules, slot, r->slashings, r->slashings_length, before, numbers, registry, numbers));
    STEP(altair_process_effective_balance_updates(r->s, before, numbers, registry, numbers));
    number =
        altair_process_slashings_reset(r->s, slot, r->slashings, r->slashings_length, slashings, r->slashings_length);
    if (number != 0)
        return number;
    STEP(altair_process_participation_flag_updates(before, numbers, registry, numbers));
    return 0;
}

/* The registry step with a stop: the step's numbers, but from the stop up the opening's activation epochs. */
static void the_stop(const record *r) {
    static uint64_t whole[NUMBERS], stopped[NUMBERS];
    const size_t numbers = 10 * r->validators, stop = below(r->validators + 1);
    const uint64_t slot = r->f.slot, finalized = r->f.finalized_checkpoint.epoch;
    const altair_queue queue = count_queue(r->registry, r->validators);
    const altair_queue_answer step =
        altair_process_registry_updates(r->s, slot, finalized, queue, r->registry, numbers, whole, numbers);
    MUST(same_queue(step.queue, step.refusal == 0 ? count_queue(whole, r->validators) : queue));
    MUST(same_queue(queue, altair_exit_queue(r->registry, numbers).queue));
    for (size_t i = 10 * stop; i < numbers; i += 10)
        whole[i + ALTAIR_ACTIVATION_EPOCH] = r->registry[i + ALTAIR_ACTIVATION_EPOCH];
    const altair_queue_answer to =
        altair_process_registry_updates_to(stop, r->s, slot, finalized, queue, r->registry, numbers, stopped, numbers);
    MUST(to.refusal == step.refusal && same_queue(to.queue, step.queue));
    MUST(memcmp(whole, stopped, 8 * numbers) == 0);
}

/* closing minus opening in 128 bits */
static altair_change_answer changed(uint64_t opening, uint64_t closing) {
    const __int128 change = (__int128)closing - opening;
    const bool fits = INT64_MIN <= change && change <= INT64_MAX;
    return (altair_change_answer){fits ? 0 : 7, fits ? (int64_t)change : 0};
}

static void the_close(const record *r) {
    static uint64_t registry[NUMBERS], slashings[SLASHINGS], by_steps[NUMBERS], slashings_by_steps[SLASHINGS];
    static uint64_t amounts[NUMBERS / 10 * ALTAIR_AMOUNTS_LENGTH];
    const size_t numbers = 10 * r->validators;
    const altair_rules rules = {r->s, below(2), {1 + below(one_in(2) ? 100 : 1 << 24), below(5)}};
    uint64_t store[ALTAIR_ENTRY_LENGTH];
    altair_put_entry(store, below(r->f.slot / r->s.slots_per_epoch + 1), rules);
    const altair_full_answer closed =
        altair_close(store, ALTAIR_ENTRY_LENGTH, 1, r->f, count_queue(r->registry, r->validators), r->registry, numbers,
                     r->slashings, r->slashings_length, r->roots, r->roots_length, registry, numbers, slashings,
                     r->slashings_length, amounts, ALTAIR_AMOUNTS_LENGTH * r->validators);
    altair_justification_answer justified = {0};
    altair_queue queue = {0, 0};
    MUST(steps(r, rules, &justified, &queue, by_steps, slashings_by_steps) == closed.refusal);
    if (closed.refusal != 0)
        return;
    const altair_finality finality = justified.finality;
    MUST(same_finality(&finality, &closed.finality) && same_raised(&justified.raised, &closed.raised));
    MUST(closed.test == justified.test && closed.test == last_test(r, &closed.finality));
    MUST(same_queue(closed.queue, queue) && same_queue(queue, count_queue(registry, r->validators)));
    the_amounts(r, rules, finality.finalized_checkpoint.epoch, registry, amounts);
    const altair_raised counted = count_raised(r);
    MUST(same_raised(&counted, &closed.raised));
    MUST(memcmp(registry, by_steps, 8 * numbers) == 0);
    MUST(memcmp(slashings, slashings_by_steps, 8 * r->slashings_length) == 0);

    const altair_head head = altair_listing_head(r->s, r->f.slot, closed.finality, r->registry, numbers);
    MUST(head.refusal == 0 && head.epoch == r->f.slot / r->s.slots_per_epoch);
    MUST(head.justified_epoch == finality.current_justified_checkpoint.epoch);
    MUST(head.finalized_epoch == finality.finalized_checkpoint.epoch);
    MUST(head.justification_bits == finality.justification_bits);
    MUST(same_raised(&head.raised, &closed.raised));
    MUST(head.charged == altair_charged(r->s, r->f.slot, r->registry, numbers).value && head.charged <= r->validators);
    for (size_t i = 0; i < r->validators; i++) {
        const altair_line line = altair_listing_line(r->registry, numbers, registry, numbers, i);
        const uint64_t *before = r->registry + 10 * i, *after = registry + 10 * i;
        const altair_change_answer change = changed(before[ALTAIR_BALANCE], after[ALTAIR_BALANCE]);
        MUST(line.refusal == change.refusal && line.net_change == change.value);
        if (line.refusal != 0)
            continue;
        MUST(line.index == i);
        MUST(line.opening_balance == before[ALTAIR_BALANCE] && line.closing_balance == after[ALTAIR_BALANCE]);
        MUST(line.effective_balance == after[ALTAIR_EFFECTIVE_BALANCE]);
        MUST(line.inactivity_score == after[ALTAIR_INACTIVITY_SCORE]);
    }
}

static void the_file(const record *r) {
    static uint64_t registry[NUMBERS], slashings[SLASHINGS];
    record right = *r;
    right.queue = count_queue(r->registry, r->validators);
    const size_t numbers = 10 * r->validators, whole = file_length(r, 2);
    uint8_t *here = malloc(whole), *file = malloc(whole);
    MUST(here != NULL && file != NULL);
    write_bytes(&right, 2, here);
    MUST(altair_write_file(r->s, r->f, right.queue, r->registry, numbers, r->roots, r->roots_length, r->slashings,
                           r->slashings_length, file, whole) == 0);
    MUST(memcmp(file, here, whole) == 0);
    /* read back, and as often from version 1 */
    const uint64_t version = 1 + below(2);
    const size_t length = file_length(r, version);
    write_bytes(&right, version, file);
    const altair_header header = altair_read_header(file, length);
    MUST(header.refusal == 0 && header.validators == r->validators);
    MUST(32 * header.roots == r->roots_length && header.slashings == r->slashings_length);
    const altair_read_answer read = altair_read_file(file, length, registry, numbers, slashings, r->slashings_length);
    MUST(read.refusal == 0 && read.position == length && memcmp(&read.settings, &r->s, sizeof r->s) == 0);
    MUST(same_finality(&read.finality, &r->f) && memcmp(registry, r->registry, 8 * numbers) == 0);
    MUST(memcmp(slashings, r->slashings, 8 * r->slashings_length) == 0);
    MUST(memcmp(file + ALTAIR_ROOTS_AT(file[0], r->validators), r->roots, r->roots_length) == 0);
    MUST(same_queue(read.queue, right.queue));
    free(here), free(file);
}

/* three files closed together: each as by itself, from its own bytes, whatever stands beside it */
static void the_shelf(const record *r) {
    record right = *r;
    right.queue = count_queue(r->registry, r->validators);
    const size_t length = file_length(r, 2), numbers = 10 * r->validators;
    if (length > 100000)
        return;
    uint8_t *files = malloc(3 * length), *closing = malloc(3 * length), *alone = malloc(length);
    uint64_t *working = malloc(2 * (length + 8)), *registry = malloc(8 * numbers + 8), *slashings = malloc(8 * r->slashings_length);
    uint64_t *amounts = malloc(72 * r->validators + 8);
    MUST(files != NULL && closing != NULL && alone != NULL && working != NULL && registry != NULL && slashings != NULL && amounts != NULL);
    for (size_t i = 0; i < 3; i++)
        write_bytes(&right, 2, files + i * length);
    const size_t bad = below(4); /* 3: none */
    if (bad < 3)
        files[bad * length + below(one_in(2) ? 80 : length)] ^= (uint8_t)(1 + below(255));
    memset(closing, 0xa5, 3 * length);
    const altair_rules rules = {r->s, below(2), {1 + below(100), below(5)}};
    const size_t words = (length + 7) / 8;
    uint64_t lengths[] = {length, length, length}, answers[3], one[1], only[] = {length};
    MUST(altair_close_shelf(files, 3 * length, lengths, 3, closing, 3 * length, working, words, working + words, words,
                            answers, 3, rules.fork, rules.bellatrix) == 0);
    for (size_t i = 0; i < 3; i++) {
        memset(alone, 0xa5, length);
        MUST(altair_close_shelf(files + i * length, length, only, 1, alone, length, working, words, working + words, words,
                                one, 1, rules.fork, rules.bellatrix) == 0);
        MUST(answers[i] == one[0] && memcmp(closing + i * length, alone, length) == 0);
        if (i == bad)
            continue;
        uint64_t store[ALTAIR_ENTRY_LENGTH];
        altair_put_entry(store, 0, rules);
        const altair_full_answer closed =
            altair_close(store, ALTAIR_ENTRY_LENGTH, 1, r->f, right.queue, r->registry, numbers, r->slashings,
                         r->slashings_length, r->roots, r->roots_length, registry, numbers, slashings,
                         r->slashings_length, amounts, 9 * r->validators);
        MUST(closed.refusal == answers[i]);
        if (closed.refusal == 0)
            MUST(altair_write_file(r->s, closed.finality, closed.queue, registry, numbers, r->roots, r->roots_length,
                                   slashings, r->slashings_length, alone, length) == 0);
        else
            memcpy(alone, files + i * length, length);
        MUST(memcmp(closing + i * length, alone, length) == 0);
    }
    free(files), free(closing), free(alone), free(working), free(registry), free(slashings), free(amounts);
}

/* a slot or epoch to its seconds and back, wherever they are answered; neighbours; and the closing window */
static void the_clock(void) {
    const uint64_t genesis = odd_number(), seconds = 1 + below(1 << below(20)), slots = 1 + below(1 << below(20));
    const uint64_t n = one_in(2) ? odd_number() : below(1 << 20);
    const altair_clock clock = {genesis, seconds, slots};
    const altair_number_answer first = altair_first_second_of_slot(clock, n);
    const altair_number_answer last = altair_last_second_of_slot(clock, n);
    const altair_number_answer opens = altair_first_second_of_epoch(clock, n);
    const altair_number_answer shuts = altair_last_second_of_epoch(clock, n);
    MUST(first.refusal != 0 || altair_slot_at_time(clock, first.value).value == n);
    MUST(opens.refusal != 0 || altair_epoch_at_time(clock, opens.value).value == n);
    if (last.refusal == 0) {
        MUST(altair_slot_at_time(clock, last.value).value == n && last.value - first.value == seconds - 1);
        MUST(last.value == UINT64_MAX || altair_slot_at_time(clock, last.value + 1).value == n + 1);
    }
    if (shuts.refusal == 0) {
        MUST(altair_epoch_at_time(clock, shuts.value).value == n);
        MUST(shuts.value == UINT64_MAX || altair_epoch_at_time(clock, shuts.value + 1).value == n + 1);
        MUST(altair_is_in_closing_window(clock, shuts.value).value == 1);
        MUST(altair_is_in_closing_window(clock, shuts.value - (seconds - 1)).value == 1);
        MUST(slots == 1 || altair_is_in_closing_window(clock, shuts.value - seconds).value == 0);
    }
}

/* votes not yet counted: what the step finalizes with any filling is listed, and with every flag known it alone */
static void the_votes(const record *r) {
    static uint64_t marks[NUMBERS / 10], filled[NUMBERS];
    const size_t numbers = 10 * r->validators;
    memcpy(filled, r->registry, 8 * numbers);
    for (size_t i = 0; i < r->validators; i++) {
        marks[i] = one_in(2) ? 0 : below(4);
        if (marks[i] & ALTAIR_PREVIOUS_UNKNOWN)
            filled[10 * i + ALTAIR_PREVIOUS_EPOCH_PARTICIPATION] ^= 2 * below(2);
        if (marks[i] & ALTAIR_CURRENT_UNKNOWN)
            filled[10 * i + ALTAIR_CURRENT_EPOCH_PARTICIPATION] ^= 2 * below(2);
    }
    const altair_votes_answer votes =
        altair_unknown_votes(r->s, r->roots, r->roots_length, r->f, r->registry, numbers, marks, r->validators);
    const altair_justification_answer step =
        altair_process_justification_and_finalization(r->s, r->roots, r->roots_length, r->f, filled, numbers);
    const uint64_t finalized = step.finality.finalized_checkpoint.epoch;
    if (votes.refusal != 0) {
        MUST(votes.refusal == 4 || votes.refusal == 5);
        return;
    }
    MUST(step.refusal == 0 && 1 <= votes.count && votes.count <= 3);
    bool listed = false;
    for (size_t i = 0; i < votes.count; i++) {
        listed = listed || votes.finalized_epochs[i] == finalized;
        MUST(i == 0 || votes.finalized_epochs[i - 1] < votes.finalized_epochs[i]);
    }
    MUST(listed);
    memset(marks, 0, 8 * r->validators);
    const altair_votes_answer known =
        altair_unknown_votes(r->s, r->roots, r->roots_length, r->f, filled, numbers, marks, r->validators);
    MUST(known.refusal == 0 && known.count == 1 && known.finalized_epochs[0] == finalized);
    MUST(known.previous_target != ALTAIR_PASSES_IN_SOME && known.current_target != ALTAIR_PASSES_IN_SOME);
}

/* entries added one after the other: what was read below a new start is read as before, and from it on the new rules */
static void the_store(const record *r) {
    uint64_t store[4 * ALTAIR_ENTRY_LENGTH], before[4 * ALTAIR_ENTRY_LENGTH], count = 0, start = below(5);
    altair_rules rules = altair_under_altair(r->s);
    for (size_t i = 0; i < 4; i++, start += 1 + below(5)) {
        const uint64_t below_start = start == 0 ? 0 : below(start);
        const altair_rules_answer was = altair_read_rules(store, 4 * ALTAIR_ENTRY_LENGTH, count, below_start);
        rules.settings.base_reward_factor = i;
        memcpy(before, store, sizeof store);
        const altair_count_answer added = altair_add_rules(store, 4 * ALTAIR_ENTRY_LENGTH, count, start, rules);
        MUST(added.refusal == 0 && added.count == count + 1);
        MUST(memcmp(store, before, 8 * ALTAIR_ENTRY_LENGTH * count) == 0);
        count = added.count;
        const altair_rules_answer is = altair_read_rules(store, 4 * ALTAIR_ENTRY_LENGTH, count, below_start);
        MUST(start == 0 || memcmp(&is, &was, sizeof is) == 0);
        const altair_rules_answer from = altair_read_rules(store, 4 * ALTAIR_ENTRY_LENGTH, count, start + below(3));
        MUST(from.refusal == 0 && memcmp(&from.rules, &rules, sizeof rules) == 0);
        MUST(altair_add_rules(store, 4 * ALTAIR_ENTRY_LENGTH, count, start, rules).refusal == (i == 3 ? 1 : 12));
    }
}

static void the_leaves(const record *r) {
    const uint64_t slot = r->f.slot, epoch = slot / r->s.slots_per_epoch, n = odd_number(),
                   root = altair_integer_sqrt(n);
    MUST((unsigned __int128)root * root <= n && (unsigned __int128)(root + 1) * (root + 1) > n);
    MUST(altair_get_current_epoch(r->s, slot).value == epoch &&
         altair_compute_epoch_at_slot(r->s, slot).value == epoch);
    MUST(altair_get_previous_epoch(r->s, slot).value == (epoch == 0 ? 0 : epoch - 1));
    const altair_number_answer start = altair_compute_start_slot_at_epoch(r->s, epoch);
    MUST(start.refusal == 0 && altair_compute_epoch_at_slot(r->s, start.value).value == epoch);
    const altair_root_answer by_epoch = altair_get_block_root(r->s, r->roots, r->roots_length, slot, epoch);
    const altair_root_answer by_slot =
        altair_get_block_root_at_slot(r->s, r->roots, r->roots_length, slot, start.value);
    MUST(memcmp(&by_epoch, &by_slot, sizeof by_slot) == 0);
    MUST((by_slot.refusal == 4) == (start.value >= slot || slot > start.value + r->s.slots_per_historical_root));
    if (by_slot.refusal == 0)
        MUST(memcmp(by_slot.root, r->roots + 32 * (start.value % r->s.slots_per_historical_root), 32) == 0);

    const uint64_t opening = odd_number();
    const uint64_t closing = one_in(2) ? odd_number() : opening + (UINT64_C(1) << 63) + below(5) - 2;
    const altair_change_answer change = altair_net_change(opening, closing), wanted = changed(opening, closing);
    MUST(change.refusal == wanted.refusal && change.value == wanted.value);

    const uint8_t flags = (uint8_t)random_number();
    const uint64_t flag = below(8), delta = odd_number();
    const altair_number_answer added = altair_add_flag(flags, flag);
    MUST(added.value == (flags | 1u << flag) && altair_has_flag((uint8_t)added.value, flag).value == 1);
    MUST(altair_has_flag(flags, flag).value == (flags >> flag & 1));
    if (r->validators > 0) {
        uint64_t v[10];
        memcpy(v, r->registry, sizeof v);
        const uint64_t balance = v[ALTAIR_BALANCE];
        const uint64_t number = altair_increase_balance(v, 10, delta);
        MUST(number == (balance > UINT64_MAX - delta ? 5 : 0) &&
             v[ALTAIR_BALANCE] == (number == 0 ? balance + delta : balance));
        MUST(altair_decrease_balance(v, 10, delta) == 0);
        const uint64_t held = number == 0 ? balance + delta : balance;
        MUST(v[ALTAIR_BALANCE] == (held < delta ? 0 : held - delta));
    }
}

void rules_hold(const record *r) {
    the_clock();
    /* the tests of settings, finality and registry; roots and slashings have the lengths that the settings call for */
    if (altair_listing_head(r->s, r->f.slot, r->f, r->registry, 10 * r->validators).refusal != 0)
        return;
    the_close(r);
    the_stop(r);
    the_file(r);
    the_store(r);
    the_shelf(r);
    the_leaves(r);
    the_votes(r);
    electra_holds(r);
}
