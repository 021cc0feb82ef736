/* Written by bindings/generate, for altair.c alone: what it says of crates/exports' types and of bindings/words. */

static const char refusal_words[][85] = {
    [0] = "accepted",
    [1] = "a length, a vector's size or an index is not the one called for",
    [2] = "a setting is 0 where it divides, or 2^48 or more",
    [3] = "a slot, epoch, bit field or flag of the record is out of range",
    [4] = "a block root is wanted that the record does not keep",
    [5] = "a sum, product or difference that is evaluated leaves 64 bits",
    [6] = "a record file's header is not as it must be",
    [7] = "a net change, closing minus opening balance, does not fit signed 64 bits",
    [8] = "the exit queue's pair is not that of the registry",
    [9] = "an exit order's validator is unknown, not active or leaving already",
    [10] = "an exit order's start is ahead, or its validator has not been active for long enough",
    [11] = "the list of exit orders is full",
    [12] = "a new entry's start is not above that of the last entry",
    [13] = "the store has no entry for the epoch",
    [14] = "a second is before genesis",
    [15] = "seconds_per_slot is 0",
};

_Static_assert(sizeof(altair_settings) == 152, "altair_settings");
_Static_assert(sizeof(altair_bellatrix) == 16, "altair_bellatrix");
_Static_assert(sizeof(altair_rules) == 176, "altair_rules");
_Static_assert(sizeof(altair_rules_answer) == 184, "altair_rules_answer");
_Static_assert(sizeof(altair_count_answer) == 16, "altair_count_answer");
_Static_assert(sizeof(altair_clock) == 24, "altair_clock");
_Static_assert(sizeof(altair_checkpoint) == 40, "altair_checkpoint");
_Static_assert(sizeof(altair_finality) == 136, "altair_finality");
_Static_assert(sizeof(altair_queue) == 16, "altair_queue");
_Static_assert(sizeof(altair_queue_answer) == 24, "altair_queue_answer");
_Static_assert(sizeof(altair_finality_answer) == 144, "altair_finality_answer");
_Static_assert(sizeof(altair_raised) == 24, "altair_raised");
_Static_assert(sizeof(altair_justification_answer) == 176, "altair_justification_answer");
_Static_assert(sizeof(altair_full_answer) == 192, "altair_full_answer");
_Static_assert(sizeof(altair_running) == 208, "altair_running");
_Static_assert(sizeof(altair_running_answer) == 224, "altair_running_answer");
_Static_assert(sizeof(altair_wait_answer) == 32, "altair_wait_answer");
_Static_assert(sizeof(altair_total_answer) == 24, "altair_total_answer");
_Static_assert(sizeof(altair_number_answer) == 16, "altair_number_answer");
_Static_assert(sizeof(altair_truth_answer) == 16, "altair_truth_answer");
_Static_assert(sizeof(altair_deltas_answer) == 24, "altair_deltas_answer");
_Static_assert(sizeof(altair_change_answer) == 16, "altair_change_answer");
_Static_assert(sizeof(altair_root_answer) == 40, "altair_root_answer");
_Static_assert(sizeof(altair_header) == 32, "altair_header");
_Static_assert(sizeof(altair_read_answer) == 320, "altair_read_answer");
_Static_assert(sizeof(altair_head) == 72, "altair_head");
_Static_assert(sizeof(altair_line) == 56, "altair_line");
_Static_assert(sizeof(altair_votes_answer) == 56, "altair_votes_answer");
_Static_assert(sizeof(altair_deneb_rules) == 176, "altair_deneb_rules");
_Static_assert(sizeof(altair_electra) == 40, "altair_electra");
_Static_assert(sizeof(altair_electra_rules) == 208, "altair_electra_rules");
_Static_assert(sizeof(altair_exit_churn) == 16, "altair_exit_churn");
_Static_assert(sizeof(altair_exit_churn_answer) == 24, "altair_exit_churn_answer");
_Static_assert(sizeof(altair_deposit_numbers) == 24, "altair_deposit_numbers");
_Static_assert(sizeof(altair_deposits_answer) == 32, "altair_deposits_answer");
_Static_assert(sizeof(altair_consolidations_answer) == 16, "altair_consolidations_answer");
_Static_assert(sizeof(altair_electra_answer) == 224, "altair_electra_answer");

altair_full_answer altair_checked_close(const uint64_t *store, size_t store_length, uint64_t count,
                                        altair_finality finality, altair_queue queue, const uint64_t *registry,
                                        size_t registry_length, const uint64_t *slashings, size_t slashings_length,
                                        const uint8_t *roots, size_t roots_length, uint64_t *closing_registry,
                                        size_t closing_registry_length, uint64_t *closing_slashings,
                                        size_t closing_slashings_length, uint64_t *amounts, size_t amounts_length) {
    if (!APART(READ(store), READ(registry), READ(slashings), READ(roots), WRITTEN(closing_registry),
               WRITTEN(closing_slashings), WRITTEN(amounts)))
        return (altair_full_answer){.refusal = ALTAIR_BAD_SHAPE, .finality = finality, .queue = queue};
    return altair_close(store, store_length, count, finality, queue, registry, registry_length, slashings,
                        slashings_length, roots, roots_length, closing_registry, closing_registry_length,
                        closing_slashings, closing_slashings_length, amounts, amounts_length);
}

altair_read_answer altair_checked_read_file(const uint8_t *file, size_t file_length, uint64_t *registry,
                                            size_t registry_length, uint64_t *slashings, size_t slashings_length) {
    if (!APART(READ(file), WRITTEN(registry), WRITTEN(slashings)))
        return (altair_read_answer){.refusal = ALTAIR_BAD_SHAPE};
    return altair_read_file(file, file_length, registry, registry_length, slashings, slashings_length);
}

uint64_t altair_checked_write_file(altair_settings settings, altair_finality finality, altair_queue queue,
                                   const uint64_t *registry, size_t registry_length, const uint8_t *roots,
                                   size_t roots_length, const uint64_t *slashings, size_t slashings_length,
                                   uint8_t *file, size_t file_length) {
    if (!APART(READ(registry), READ(roots), READ(slashings), WRITTEN(file)))
        return ALTAIR_BAD_SHAPE;
    return altair_write_file(settings, finality, queue, registry, registry_length, roots, roots_length, slashings,
                             slashings_length, file, file_length);
}

uint64_t altair_checked_close_shelf(const uint8_t *files, size_t files_length, const uint64_t *lengths,
                                    size_t lengths_length, uint8_t *closing, size_t closing_length,
                                    uint64_t *opening_numbers, size_t opening_numbers_length,
                                    uint64_t *closing_numbers, size_t closing_numbers_length, uint64_t *answers,
                                    size_t answers_length, uint64_t fork, altair_bellatrix bellatrix) {
    if (!APART(READ(files), READ(lengths), WRITTEN(closing), WRITTEN(opening_numbers), WRITTEN(closing_numbers),
               WRITTEN(answers)))
        return ALTAIR_BAD_SHAPE;
    return altair_close_shelf(files, files_length, lengths, lengths_length, closing, closing_length, opening_numbers,
                              opening_numbers_length, closing_numbers, closing_numbers_length, answers,
                              answers_length, fork, bellatrix);
}

altair_running_answer altair_checked_close_step(uint64_t number, altair_running running, const uint64_t *store,
                                                size_t store_length, uint64_t count, altair_finality finality,
                                                altair_queue queue, const uint64_t *registry, size_t registry_length,
                                                const uint64_t *slashings, size_t slashings_length,
                                                const uint8_t *roots, size_t roots_length, uint64_t *closing_registry,
                                                size_t closing_registry_length, uint64_t *closing_slashings,
                                                size_t closing_slashings_length, uint64_t *amounts,
                                                size_t amounts_length) {
    if (running.done != 9 && !APART(READ(store), READ(registry), READ(slashings), READ(roots),
                                    WRITTEN(closing_registry), WRITTEN(closing_slashings), WRITTEN(amounts)))
        return (altair_running_answer){.refusal = ALTAIR_BAD_SHAPE, .running = running};
    return altair_close_step(number, running, store, store_length, count, finality, queue, registry, registry_length,
                             slashings, slashings_length, roots, roots_length, closing_registry,
                             closing_registry_length, closing_slashings, closing_slashings_length, amounts,
                             amounts_length);
}

altair_running_answer altair_checked_carry_out(const uint64_t *store, size_t store_length, uint64_t count,
                                               uint64_t shard_committee_period, altair_running running,
                                               uint64_t *closing_registry, size_t closing_registry_length,
                                               const uint64_t *orders, size_t orders_length, uint64_t *answers,
                                               size_t answers_length) {
    if (running.done != 9 && !APART(READ(store), WRITTEN(closing_registry), READ(orders), WRITTEN(answers)))
        return (altair_running_answer){.refusal = ALTAIR_BAD_SHAPE, .running = running};
    return altair_carry_out(store, store_length, count, shard_committee_period, running, closing_registry,
                            closing_registry_length, orders, orders_length, answers, answers_length);
}

uint64_t altair_checked_process_inactivity_updates(altair_settings settings, uint64_t state_slot,
                                                   uint64_t finalized_epoch, const uint64_t *opening,
                                                   size_t opening_length, uint64_t *closing, size_t closing_length) {
    if (!APART(READ(opening), WRITTEN(closing)))
        return ALTAIR_BAD_SHAPE;
    return altair_process_inactivity_updates(settings, state_slot, finalized_epoch, opening, opening_length, closing,
                                             closing_length);
}

uint64_t altair_checked_process_rewards_and_penalties(altair_rules rules, uint64_t state_slot,
                                                      uint64_t finalized_epoch, const uint64_t *opening,
                                                      size_t opening_length, uint64_t *closing,
                                                      size_t closing_length) {
    if (!APART(READ(opening), WRITTEN(closing)))
        return ALTAIR_BAD_SHAPE;
    return altair_process_rewards_and_penalties(rules, state_slot, finalized_epoch, opening, opening_length, closing,
                                                closing_length);
}

altair_queue_answer altair_checked_process_registry_updates(altair_settings settings, uint64_t state_slot,
                                                            uint64_t finalized_epoch, altair_queue queue,
                                                            const uint64_t *opening, size_t opening_length,
                                                            uint64_t *closing, size_t closing_length) {
    if (!APART(READ(opening), WRITTEN(closing)))
        return (altair_queue_answer){.refusal = ALTAIR_BAD_SHAPE, .queue = queue};
    return altair_process_registry_updates(settings, state_slot, finalized_epoch, queue, opening, opening_length,
                                           closing, closing_length);
}

altair_queue_answer altair_checked_process_registry_updates_to(uint64_t stop, altair_settings settings,
                                                               uint64_t state_slot, uint64_t finalized_epoch,
                                                               altair_queue queue, const uint64_t *opening,
                                                               size_t opening_length, uint64_t *closing,
                                                               size_t closing_length) {
    if (!APART(READ(opening), WRITTEN(closing)))
        return (altair_queue_answer){.refusal = ALTAIR_BAD_SHAPE, .queue = queue};
    return altair_process_registry_updates_to(stop, settings, state_slot, finalized_epoch, queue, opening,
                                              opening_length, closing, closing_length);
}

uint64_t altair_checked_process_slashings(altair_rules rules, uint64_t state_slot, const uint64_t *slashings,
                                          size_t slashings_length, const uint64_t *opening, size_t opening_length,
                                          uint64_t *closing, size_t closing_length) {
    if (!APART(READ(slashings), READ(opening), WRITTEN(closing)))
        return ALTAIR_BAD_SHAPE;
    return altair_process_slashings(rules, state_slot, slashings, slashings_length, opening, opening_length, closing,
                                    closing_length);
}

uint64_t altair_checked_process_effective_balance_updates(altair_settings settings, const uint64_t *opening,
                                                          size_t opening_length, uint64_t *closing,
                                                          size_t closing_length) {
    if (!APART(READ(opening), WRITTEN(closing)))
        return ALTAIR_BAD_SHAPE;
    return altair_process_effective_balance_updates(settings, opening, opening_length, closing, closing_length);
}

uint64_t altair_checked_process_slashings_reset(altair_settings settings, uint64_t state_slot,
                                                const uint64_t *opening, size_t opening_length, uint64_t *closing,
                                                size_t closing_length) {
    if (!APART(READ(opening), WRITTEN(closing)))
        return ALTAIR_BAD_SHAPE;
    return altair_process_slashings_reset(settings, state_slot, opening, opening_length, closing, closing_length);
}

uint64_t altair_checked_process_participation_flag_updates(const uint64_t *opening, size_t opening_length,
                                                           uint64_t *closing, size_t closing_length) {
    if (!APART(READ(opening), WRITTEN(closing)))
        return ALTAIR_BAD_SHAPE;
    return altair_process_participation_flag_updates(opening, opening_length, closing, closing_length);
}

altair_queue_answer altair_checked_deneb_process_registry_updates(altair_deneb_rules rules, uint64_t state_slot,
                                                                  uint64_t finalized_epoch, altair_queue queue,
                                                                  const uint64_t *opening, size_t opening_length,
                                                                  uint64_t *closing, size_t closing_length) {
    if (!APART(READ(opening), WRITTEN(closing)))
        return (altair_queue_answer){.refusal = ALTAIR_BAD_SHAPE, .queue = queue};
    return deneb_process_registry_updates(rules, state_slot, finalized_epoch, queue, opening, opening_length, closing,
                                          closing_length);
}

altair_full_answer altair_checked_deneb_close(altair_deneb_rules rules, altair_finality finality, altair_queue queue,
                                              const uint64_t *registry, size_t registry_length,
                                              const uint64_t *slashings, size_t slashings_length,
                                              const uint8_t *roots, size_t roots_length, uint64_t *closing_registry,
                                              size_t closing_registry_length, uint64_t *closing_slashings,
                                              size_t closing_slashings_length, uint64_t *amounts,
                                              size_t amounts_length) {
    if (!APART(READ(registry), READ(slashings), READ(roots), WRITTEN(closing_registry), WRITTEN(closing_slashings),
               WRITTEN(amounts)))
        return (altair_full_answer){.refusal = ALTAIR_BAD_SHAPE, .finality = finality, .queue = queue};
    return deneb_close(rules, finality, queue, registry, registry_length, slashings, slashings_length, roots,
                       roots_length, closing_registry, closing_registry_length, closing_slashings,
                       closing_slashings_length, amounts, amounts_length);
}

altair_electra_answer altair_checked_electra_close(altair_electra_rules rules, altair_finality finality,
                                                   altair_exit_churn churn, altair_deposit_numbers numbers,
                                                   const uint64_t *registry, size_t registry_length,
                                                   const uint64_t *compounding, size_t compounding_length,
                                                   const uint64_t *slashings, size_t slashings_length,
                                                   const uint8_t *roots, size_t roots_length,
                                                   const uint64_t *deposits, size_t deposits_length,
                                                   const uint64_t *consolidations, size_t consolidations_length,
                                                   uint64_t *closing_registry, size_t closing_registry_length,
                                                   uint64_t *closing_compounding, size_t closing_compounding_length,
                                                   uint64_t *closing_slashings, size_t closing_slashings_length,
                                                   uint64_t *closing_deposits, size_t closing_deposits_length,
                                                   uint64_t *closing_consolidations,
                                                   size_t closing_consolidations_length, uint64_t *amounts,
                                                   size_t amounts_length, uint64_t *places, size_t places_length) {
    if (!APART(READ(registry), READ(compounding), READ(slashings), READ(roots), READ(deposits), READ(consolidations),
               WRITTEN(closing_registry), WRITTEN(closing_compounding), WRITTEN(closing_slashings),
               WRITTEN(closing_deposits), WRITTEN(closing_consolidations), WRITTEN(amounts), WRITTEN(places)))
        return (altair_electra_answer){.refusal = ALTAIR_BAD_SHAPE, .finality = finality, .validators = registry_length / 10, .deposits = deposits_length / 5, .consolidations = consolidations_length / 2, .deposit_balance_to_consume = numbers.deposit_balance_to_consume, .churn = churn};
    return electra_close(rules, finality, churn, numbers, registry, registry_length, compounding, compounding_length,
                         slashings, slashings_length, roots, roots_length, deposits, deposits_length, consolidations,
                         consolidations_length, closing_registry, closing_registry_length, closing_compounding,
                         closing_compounding_length, closing_slashings, closing_slashings_length, closing_deposits,
                         closing_deposits_length, closing_consolidations, closing_consolidations_length, amounts,
                         amounts_length, places, places_length);
}

altair_exit_churn_answer altair_checked_electra_process_registry_updates(altair_electra_rules rules,
                                                                         uint64_t state_slot,
                                                                         uint64_t finalized_epoch,
                                                                         altair_exit_churn churn,
                                                                         const uint64_t *opening,
                                                                         size_t opening_length, uint64_t *closing,
                                                                         size_t closing_length) {
    if (!APART(READ(opening), WRITTEN(closing)))
        return (altair_exit_churn_answer){.refusal = ALTAIR_BAD_SHAPE, .churn = churn};
    return electra_process_registry_updates(rules, state_slot, finalized_epoch, churn, opening, opening_length,
                                            closing, closing_length);
}

uint64_t altair_checked_electra_process_slashings(altair_electra_rules rules, uint64_t state_slot,
                                                  const uint64_t *slashings, size_t slashings_length,
                                                  const uint64_t *opening, size_t opening_length, uint64_t *closing,
                                                  size_t closing_length) {
    if (!APART(READ(slashings), READ(opening), WRITTEN(closing)))
        return ALTAIR_BAD_SHAPE;
    return electra_process_slashings(rules, state_slot, slashings, slashings_length, opening, opening_length, closing,
                                     closing_length);
}

altair_deposits_answer altair_checked_electra_process_pending_deposits(altair_electra_rules rules,
                                                                       uint64_t state_slot, uint64_t finalized_epoch,
                                                                       altair_deposit_numbers numbers,
                                                                       const uint64_t *registry,
                                                                       size_t registry_length,
                                                                       const uint64_t *compounding,
                                                                       size_t compounding_length,
                                                                       const uint64_t *deposits,
                                                                       size_t deposits_length,
                                                                       uint64_t *closing_registry,
                                                                       size_t closing_registry_length,
                                                                       uint64_t *closing_compounding,
                                                                       size_t closing_compounding_length,
                                                                       uint64_t *closing_deposits,
                                                                       size_t closing_deposits_length,
                                                                       uint64_t *places, size_t places_length) {
    if (!APART(READ(registry), READ(compounding), READ(deposits), WRITTEN(closing_registry),
               WRITTEN(closing_compounding), WRITTEN(closing_deposits), WRITTEN(places)))
        return (altair_deposits_answer){.refusal = ALTAIR_BAD_SHAPE, .deposit_balance_to_consume = numbers.deposit_balance_to_consume, .validators = registry_length / 10, .deposits = deposits_length / 5};
    return electra_process_pending_deposits(rules, state_slot, finalized_epoch, numbers, registry, registry_length,
                                            compounding, compounding_length, deposits, deposits_length,
                                            closing_registry, closing_registry_length, closing_compounding,
                                            closing_compounding_length, closing_deposits, closing_deposits_length,
                                            places, places_length);
}

altair_consolidations_answer altair_checked_electra_process_pending_consolidations(altair_electra_rules rules,
                                                                                   uint64_t state_slot,
                                                                                   const uint64_t *registry,
                                                                                   size_t registry_length,
                                                                                   const uint64_t *consolidations,
                                                                                   size_t consolidations_length,
                                                                                   uint64_t *closing_registry,
                                                                                   size_t closing_registry_length,
                                                                                   uint64_t *closing_consolidations,
                                                                                   size_t closing_consolidations_length) {
    if (!APART(READ(registry), READ(consolidations), WRITTEN(closing_registry), WRITTEN(closing_consolidations)))
        return (altair_consolidations_answer){.refusal = ALTAIR_BAD_SHAPE, .consolidations = consolidations_length / 2};
    return electra_process_pending_consolidations(rules, state_slot, registry, registry_length, consolidations,
                                                  consolidations_length, closing_registry, closing_registry_length,
                                                  closing_consolidations, closing_consolidations_length);
}

uint64_t altair_checked_electra_process_effective_balance_updates(altair_electra_rules rules,
                                                                  const uint64_t *compounding,
                                                                  size_t compounding_length, const uint64_t *opening,
                                                                  size_t opening_length, uint64_t *closing,
                                                                  size_t closing_length) {
    if (!APART(READ(compounding), READ(opening), WRITTEN(closing)))
        return ALTAIR_BAD_SHAPE;
    return electra_process_effective_balance_updates(rules, compounding, compounding_length, opening, opening_length,
                                                     closing, closing_length);
}

altair_fault altair_why_close(const uint64_t *store, size_t store_length, uint64_t count, altair_finality finality,
                              altair_queue queue, const uint64_t *registry, size_t registry_length,
                              const uint64_t *slashings, size_t slashings_length, const uint8_t *roots,
                              size_t roots_length, uint64_t *closing_registry, size_t closing_registry_length,
                              uint64_t *closing_slashings, size_t closing_slashings_length, uint64_t *amounts,
                              size_t amounts_length) {
    (void)finality; (void)queue; (void)registry; (void)slashings; (void)roots; (void)closing_registry;
    (void)closing_slashings; (void)amounts;
    ASK(store_fault(store, store_length, count));
    FAULT(registry_length % 10 != 0, "registry", registry_length / 10 * 10, "ten numbers a validator");
    FAULT(registry_length / 10 > ALTAIR_MOST_VALIDATORS, "registry", 10 * ALTAIR_MOST_VALIDATORS,
          "ten numbers a validator, of at most 2^24");
    FAULT((count > 0) && slashings_length != store[ALTAIR_ENTRY_SETTINGS + 2], "slashings",
          store[ALTAIR_ENTRY_SETTINGS + 2], "as many numbers as epochs_per_slashings_vector");
    FAULT((count > 0) && roots_length != 32 * store[ALTAIR_ENTRY_SETTINGS + 1], "roots",
          32 * store[ALTAIR_ENTRY_SETTINGS + 1], "32 bytes a root, as many as slots_per_historical_root");
    FAULT(closing_registry_length != registry_length, "closing_registry", registry_length,
          "as many numbers as registry has");
    FAULT(closing_slashings_length != slashings_length, "closing_slashings", slashings_length,
          "as many numbers as slashings has");
    FAULT(amounts_length != 9 * (registry_length / 10), "amounts", 9 * (registry_length / 10),
          "nine numbers a validator");
    return fine;
}

altair_fault altair_why_read_rules(const uint64_t *store, size_t store_length, uint64_t count, uint64_t epoch) {
    (void)epoch;
    ASK(store_fault(store, store_length, count));
    return fine;
}

altair_fault altair_why_add_rules(uint64_t *store, size_t store_length, uint64_t count, uint64_t start,
                                  altair_rules rules) {
    (void)start;
    ASK(store_fault(store, store_length, count));
    FAULT(count == store_length / 23, "store", 23 * (count + 1), "room for an entry more");
    FAULT(!VECTOR(rules.settings.slots_per_historical_root), "rules", ALTAIR_LONGEST_VECTOR,
          "slots_per_historical_root from 1 to 65536");
    FAULT(!VECTOR(rules.settings.epochs_per_slashings_vector), "rules", ALTAIR_LONGEST_VECTOR,
          "epochs_per_slashings_vector from 1 to 65536");
    FAULT(rules.fork > 1, "rules", 1, "a fork that is 0 or 1");
    FAULT(count > 0 && !SAME(rules.settings, store), "rules", rules.settings.slots_per_historical_root,
          "the slots_per_epoch, S and L of the entries in use");
    return fine;
}

altair_fault altair_why_charged(altair_settings settings, uint64_t state_slot, const uint64_t *registry,
                                size_t registry_length) {
    (void)state_slot; (void)registry;
    FAULT(!VECTOR(settings.slots_per_historical_root), "settings", ALTAIR_LONGEST_VECTOR,
          "slots_per_historical_root from 1 to 65536");
    FAULT(!VECTOR(settings.epochs_per_slashings_vector), "settings", ALTAIR_LONGEST_VECTOR,
          "epochs_per_slashings_vector from 1 to 65536");
    FAULT(registry_length % 10 != 0, "registry", registry_length / 10 * 10, "ten numbers a validator");
    FAULT(registry_length / 10 > ALTAIR_MOST_VALIDATORS, "registry", 10 * ALTAIR_MOST_VALIDATORS,
          "ten numbers a validator, of at most 2^24");
    return fine;
}

altair_fault altair_why_activation_wait(altair_settings settings, uint64_t finalized_epoch, const uint64_t *registry,
                                        size_t registry_length, uint64_t index) {
    (void)finalized_epoch; (void)registry;
    FAULT(!VECTOR(settings.slots_per_historical_root), "settings", ALTAIR_LONGEST_VECTOR,
          "slots_per_historical_root from 1 to 65536");
    FAULT(!VECTOR(settings.epochs_per_slashings_vector), "settings", ALTAIR_LONGEST_VECTOR,
          "epochs_per_slashings_vector from 1 to 65536");
    FAULT(registry_length % 10 != 0, "registry", registry_length / 10 * 10, "ten numbers a validator");
    FAULT(registry_length / 10 > ALTAIR_MOST_VALIDATORS, "registry", 10 * ALTAIR_MOST_VALIDATORS,
          "ten numbers a validator, of at most 2^24");
    FAULT(index >= (registry_length / 10), "index", (registry_length / 10),
          "a validator's number, below the number of validators");
    return fine;
}

altair_fault altair_why_listing_head(altair_settings settings, uint64_t state_slot, altair_finality closing,
                                     const uint64_t *opening, size_t opening_length) {
    (void)state_slot; (void)closing; (void)opening;
    FAULT(!VECTOR(settings.slots_per_historical_root), "settings", ALTAIR_LONGEST_VECTOR,
          "slots_per_historical_root from 1 to 65536");
    FAULT(!VECTOR(settings.epochs_per_slashings_vector), "settings", ALTAIR_LONGEST_VECTOR,
          "epochs_per_slashings_vector from 1 to 65536");
    FAULT(opening_length % 10 != 0, "opening", opening_length / 10 * 10, "ten numbers a validator");
    FAULT(opening_length / 10 > ALTAIR_MOST_VALIDATORS, "opening", 10 * ALTAIR_MOST_VALIDATORS,
          "ten numbers a validator, of at most 2^24");
    return fine;
}

altair_fault altair_why_listing_line(const uint64_t *opening, size_t opening_length, const uint64_t *closing,
                                     size_t closing_length, uint64_t index) {
    (void)opening; (void)closing;
    FAULT(opening_length % 10 != 0, "opening", opening_length / 10 * 10, "ten numbers a validator");
    FAULT(opening_length / 10 > ALTAIR_MOST_VALIDATORS, "opening", 10 * ALTAIR_MOST_VALIDATORS,
          "ten numbers a validator, of at most 2^24");
    FAULT(closing_length != opening_length, "closing", opening_length, "as many numbers as opening has");
    FAULT(index >= (opening_length / 10), "index", (opening_length / 10),
          "a validator's number, below the number of validators");
    return fine;
}

altair_fault altair_why_read_file(const uint8_t *file, size_t file_length, uint64_t *registry, size_t registry_length,
                                  uint64_t *slashings, size_t slashings_length) {
    (void)registry; (void)slashings;
    ASK(file_fault(file, file_length, registry_length, slashings_length));
    return fine;
}

altair_fault altair_why_write_file(altair_settings settings, altair_finality finality, altair_queue queue,
                                   const uint64_t *registry, size_t registry_length, const uint8_t *roots,
                                   size_t roots_length, const uint64_t *slashings, size_t slashings_length,
                                   uint8_t *file, size_t file_length) {
    (void)finality; (void)queue; (void)registry; (void)roots; (void)slashings; (void)file;
    FAULT(!VECTOR(settings.slots_per_historical_root), "settings", ALTAIR_LONGEST_VECTOR,
          "slots_per_historical_root from 1 to 65536");
    FAULT(!VECTOR(settings.epochs_per_slashings_vector), "settings", ALTAIR_LONGEST_VECTOR,
          "epochs_per_slashings_vector from 1 to 65536");
    FAULT(registry_length % 10 != 0, "registry", registry_length / 10 * 10, "ten numbers a validator");
    FAULT(registry_length / 10 > ALTAIR_MOST_VALIDATORS, "registry", 10 * ALTAIR_MOST_VALIDATORS,
          "ten numbers a validator, of at most 2^24");
    FAULT(roots_length != 32 * settings.slots_per_historical_root, "roots", 32 * settings.slots_per_historical_root,
          "32 bytes a root, as many as slots_per_historical_root");
    FAULT(slashings_length != settings.epochs_per_slashings_vector, "slashings", settings.epochs_per_slashings_vector,
          "as many numbers as epochs_per_slashings_vector");
    FAULT(file_length != 384 + 80 * (registry_length / 10) + 32 * settings.slots_per_historical_root + 8 * settings.epochs_per_slashings_vector,
          "file",
          384 + 80 * (registry_length / 10) + 32 * settings.slots_per_historical_root + 8 * settings.epochs_per_slashings_vector,
          "the bytes of the record's file");
    return fine;
}

altair_fault altair_why_close_shelf(const uint8_t *files, size_t files_length, const uint64_t *lengths,
                                    size_t lengths_length, uint8_t *closing, size_t closing_length,
                                    uint64_t *opening_numbers, size_t opening_numbers_length,
                                    uint64_t *closing_numbers, size_t closing_numbers_length, uint64_t *answers,
                                    size_t answers_length, uint64_t fork, altair_bellatrix bellatrix) {
    (void)files; (void)closing; (void)opening_numbers; (void)closing_numbers; (void)answers; (void)fork;
    (void)bellatrix;
    FAULT(SUM(lengths) != files_length, "lengths", files_length, "lengths that add up to the bytes of files");
    FAULT(closing_length != files_length, "closing", files_length, "as many bytes as files has");
    FAULT(opening_numbers_length < (LONGEST(lengths) + 7) / 8, "opening_numbers", (LONGEST(lengths) + 7) / 8,
          "as many bytes as the longest file");
    FAULT(closing_numbers_length < (LONGEST(lengths) + 7) / 8, "closing_numbers", (LONGEST(lengths) + 7) / 8,
          "as many bytes as the longest file");
    FAULT(answers_length != lengths_length, "answers", lengths_length, "as many numbers as lengths has");
    return fine;
}

altair_fault altair_why_close_step(uint64_t number, altair_running running, const uint64_t *store,
                                   size_t store_length, uint64_t count, altair_finality finality, altair_queue queue,
                                   const uint64_t *registry, size_t registry_length, const uint64_t *slashings,
                                   size_t slashings_length, const uint8_t *roots, size_t roots_length,
                                   uint64_t *closing_registry, size_t closing_registry_length,
                                   uint64_t *closing_slashings, size_t closing_slashings_length, uint64_t *amounts,
                                   size_t amounts_length) {
    (void)finality; (void)queue; (void)registry; (void)slashings; (void)roots; (void)closing_registry;
    (void)closing_slashings; (void)amounts;
    if (running.done == 9)
        return fine;
    FAULT(running.done > 7 || number != running.done + 1, "number", running.done + 1,
          "the number of the step whose turn it is");
    ASK(store_fault(store, store_length, count));
    FAULT(registry_length % 10 != 0, "registry", registry_length / 10 * 10, "ten numbers a validator");
    FAULT(registry_length / 10 > ALTAIR_MOST_VALIDATORS, "registry", 10 * ALTAIR_MOST_VALIDATORS,
          "ten numbers a validator, of at most 2^24");
    FAULT((count > 0) && slashings_length != store[ALTAIR_ENTRY_SETTINGS + 2], "slashings",
          store[ALTAIR_ENTRY_SETTINGS + 2], "as many numbers as epochs_per_slashings_vector");
    FAULT((count > 0) && roots_length != 32 * store[ALTAIR_ENTRY_SETTINGS + 1], "roots",
          32 * store[ALTAIR_ENTRY_SETTINGS + 1], "32 bytes a root, as many as slots_per_historical_root");
    FAULT(closing_registry_length != registry_length, "closing_registry", registry_length,
          "as many numbers as registry has");
    FAULT(closing_slashings_length != slashings_length, "closing_slashings", slashings_length,
          "as many numbers as slashings has");
    FAULT(amounts_length != 9 * (registry_length / 10), "amounts", 9 * (registry_length / 10),
          "nine numbers a validator");
    return fine;
}

altair_fault altair_why_take_order(altair_running running, uint64_t validator, uint64_t start, uint64_t *orders,
                                   size_t orders_length) {
    (void)validator; (void)start; (void)orders;
    if (running.done == 9)
        return fine;
    FAULT(running.done < 1 || running.done > 8, "running", 1, "a close whose first step is done");
    FAULT(orders_length % 2 != 0, "orders", orders_length / 2 * 2, "two numbers an order");
    FAULT(running.orders > orders_length / 2, "orders", running.orders, "room for the orders that are in the list");
    return fine;
}

altair_fault altair_why_carry_out(const uint64_t *store, size_t store_length, uint64_t count,
                                  uint64_t shard_committee_period, altair_running running, uint64_t *closing_registry,
                                  size_t closing_registry_length, const uint64_t *orders, size_t orders_length,
                                  uint64_t *answers, size_t answers_length) {
    (void)shard_committee_period; (void)closing_registry; (void)orders; (void)answers;
    if (running.done == 9)
        return fine;
    FAULT(running.done != 8, "running", 8, "a close whose eight steps are done");
    ASK(store_fault(store, store_length, count));
    FAULT(closing_registry_length % 10 != 0, "closing_registry", closing_registry_length / 10 * 10,
          "ten numbers a validator");
    FAULT(closing_registry_length / 10 > ALTAIR_MOST_VALIDATORS, "closing_registry", 10 * ALTAIR_MOST_VALIDATORS,
          "ten numbers a validator, of at most 2^24");
    FAULT(orders_length % 2 != 0, "orders", orders_length / 2 * 2, "two numbers an order");
    FAULT(running.orders > orders_length / 2, "orders", running.orders, "room for the orders that are in the list");
    FAULT(answers_length != orders_length / 2, "answers", orders_length / 2, "a number an order");
    return fine;
}

altair_fault altair_why_process_justification_and_finalization(altair_settings settings, const uint8_t *roots,
                                                               size_t roots_length, altair_finality finality,
                                                               const uint64_t *registry, size_t registry_length) {
    (void)roots; (void)finality; (void)registry;
    FAULT(!VECTOR(settings.slots_per_historical_root), "settings", ALTAIR_LONGEST_VECTOR,
          "slots_per_historical_root from 1 to 65536");
    FAULT(!VECTOR(settings.epochs_per_slashings_vector), "settings", ALTAIR_LONGEST_VECTOR,
          "epochs_per_slashings_vector from 1 to 65536");
    FAULT(roots_length != 32 * settings.slots_per_historical_root, "roots", 32 * settings.slots_per_historical_root,
          "32 bytes a root, as many as slots_per_historical_root");
    FAULT(registry_length % 10 != 0, "registry", registry_length / 10 * 10, "ten numbers a validator");
    FAULT(registry_length / 10 > ALTAIR_MOST_VALIDATORS, "registry", 10 * ALTAIR_MOST_VALIDATORS,
          "ten numbers a validator, of at most 2^24");
    return fine;
}

altair_fault altair_why_process_inactivity_updates(altair_settings settings, uint64_t state_slot,
                                                   uint64_t finalized_epoch, const uint64_t *opening,
                                                   size_t opening_length, uint64_t *closing, size_t closing_length) {
    (void)state_slot; (void)finalized_epoch; (void)opening; (void)closing;
    FAULT(!VECTOR(settings.slots_per_historical_root), "settings", ALTAIR_LONGEST_VECTOR,
          "slots_per_historical_root from 1 to 65536");
    FAULT(!VECTOR(settings.epochs_per_slashings_vector), "settings", ALTAIR_LONGEST_VECTOR,
          "epochs_per_slashings_vector from 1 to 65536");
    FAULT(opening_length % 10 != 0, "opening", opening_length / 10 * 10, "ten numbers a validator");
    FAULT(opening_length / 10 > ALTAIR_MOST_VALIDATORS, "opening", 10 * ALTAIR_MOST_VALIDATORS,
          "ten numbers a validator, of at most 2^24");
    FAULT(closing_length != opening_length, "closing", opening_length, "as many numbers as opening has");
    return fine;
}

altair_fault altair_why_process_rewards_and_penalties(altair_rules rules, uint64_t state_slot,
                                                      uint64_t finalized_epoch, const uint64_t *opening,
                                                      size_t opening_length, uint64_t *closing,
                                                      size_t closing_length) {
    (void)state_slot; (void)finalized_epoch; (void)opening; (void)closing;
    FAULT(!VECTOR(rules.settings.slots_per_historical_root), "rules", ALTAIR_LONGEST_VECTOR,
          "slots_per_historical_root from 1 to 65536");
    FAULT(!VECTOR(rules.settings.epochs_per_slashings_vector), "rules", ALTAIR_LONGEST_VECTOR,
          "epochs_per_slashings_vector from 1 to 65536");
    FAULT(rules.fork > 1, "rules", 1, "a fork that is 0 or 1");
    FAULT(opening_length % 10 != 0, "opening", opening_length / 10 * 10, "ten numbers a validator");
    FAULT(opening_length / 10 > ALTAIR_MOST_VALIDATORS, "opening", 10 * ALTAIR_MOST_VALIDATORS,
          "ten numbers a validator, of at most 2^24");
    FAULT(closing_length != opening_length, "closing", opening_length, "as many numbers as opening has");
    return fine;
}

altair_fault altair_why_process_registry_updates(altair_settings settings, uint64_t state_slot,
                                                 uint64_t finalized_epoch, altair_queue queue,
                                                 const uint64_t *opening, size_t opening_length, uint64_t *closing,
                                                 size_t closing_length) {
    (void)state_slot; (void)finalized_epoch; (void)queue; (void)opening; (void)closing;
    FAULT(!VECTOR(settings.slots_per_historical_root), "settings", ALTAIR_LONGEST_VECTOR,
          "slots_per_historical_root from 1 to 65536");
    FAULT(!VECTOR(settings.epochs_per_slashings_vector), "settings", ALTAIR_LONGEST_VECTOR,
          "epochs_per_slashings_vector from 1 to 65536");
    FAULT(opening_length % 10 != 0, "opening", opening_length / 10 * 10, "ten numbers a validator");
    FAULT(opening_length / 10 > ALTAIR_MOST_VALIDATORS, "opening", 10 * ALTAIR_MOST_VALIDATORS,
          "ten numbers a validator, of at most 2^24");
    FAULT(closing_length != opening_length, "closing", opening_length, "as many numbers as opening has");
    return fine;
}

altair_fault altair_why_process_registry_updates_to(uint64_t stop, altair_settings settings, uint64_t state_slot,
                                                    uint64_t finalized_epoch, altair_queue queue,
                                                    const uint64_t *opening, size_t opening_length, uint64_t *closing,
                                                    size_t closing_length) {
    (void)state_slot; (void)finalized_epoch; (void)queue; (void)opening; (void)closing;
    FAULT(stop > (opening_length / 10), "stop", (opening_length / 10),
          "a validator's number, or the number of validators");
    FAULT(!VECTOR(settings.slots_per_historical_root), "settings", ALTAIR_LONGEST_VECTOR,
          "slots_per_historical_root from 1 to 65536");
    FAULT(!VECTOR(settings.epochs_per_slashings_vector), "settings", ALTAIR_LONGEST_VECTOR,
          "epochs_per_slashings_vector from 1 to 65536");
    FAULT(opening_length % 10 != 0, "opening", opening_length / 10 * 10, "ten numbers a validator");
    FAULT(opening_length / 10 > ALTAIR_MOST_VALIDATORS, "opening", 10 * ALTAIR_MOST_VALIDATORS,
          "ten numbers a validator, of at most 2^24");
    FAULT(closing_length != opening_length, "closing", opening_length, "as many numbers as opening has");
    return fine;
}

altair_fault altair_why_process_slashings(altair_rules rules, uint64_t state_slot, const uint64_t *slashings,
                                          size_t slashings_length, const uint64_t *opening, size_t opening_length,
                                          uint64_t *closing, size_t closing_length) {
    (void)state_slot; (void)slashings; (void)opening; (void)closing;
    FAULT(!VECTOR(rules.settings.slots_per_historical_root), "rules", ALTAIR_LONGEST_VECTOR,
          "slots_per_historical_root from 1 to 65536");
    FAULT(!VECTOR(rules.settings.epochs_per_slashings_vector), "rules", ALTAIR_LONGEST_VECTOR,
          "epochs_per_slashings_vector from 1 to 65536");
    FAULT(rules.fork > 1, "rules", 1, "a fork that is 0 or 1");
    FAULT(slashings_length != rules.settings.epochs_per_slashings_vector, "slashings",
          rules.settings.epochs_per_slashings_vector, "as many numbers as epochs_per_slashings_vector");
    FAULT(opening_length % 10 != 0, "opening", opening_length / 10 * 10, "ten numbers a validator");
    FAULT(opening_length / 10 > ALTAIR_MOST_VALIDATORS, "opening", 10 * ALTAIR_MOST_VALIDATORS,
          "ten numbers a validator, of at most 2^24");
    FAULT(closing_length != opening_length, "closing", opening_length, "as many numbers as opening has");
    return fine;
}

altair_fault altair_why_process_effective_balance_updates(altair_settings settings, const uint64_t *opening,
                                                          size_t opening_length, uint64_t *closing,
                                                          size_t closing_length) {
    (void)opening; (void)closing;
    FAULT(!VECTOR(settings.slots_per_historical_root), "settings", ALTAIR_LONGEST_VECTOR,
          "slots_per_historical_root from 1 to 65536");
    FAULT(!VECTOR(settings.epochs_per_slashings_vector), "settings", ALTAIR_LONGEST_VECTOR,
          "epochs_per_slashings_vector from 1 to 65536");
    FAULT(opening_length % 10 != 0, "opening", opening_length / 10 * 10, "ten numbers a validator");
    FAULT(opening_length / 10 > ALTAIR_MOST_VALIDATORS, "opening", 10 * ALTAIR_MOST_VALIDATORS,
          "ten numbers a validator, of at most 2^24");
    FAULT(closing_length != opening_length, "closing", opening_length, "as many numbers as opening has");
    return fine;
}

altair_fault altair_why_process_slashings_reset(altair_settings settings, uint64_t state_slot,
                                                const uint64_t *opening, size_t opening_length, uint64_t *closing,
                                                size_t closing_length) {
    (void)state_slot; (void)opening; (void)closing;
    FAULT(!VECTOR(settings.slots_per_historical_root), "settings", ALTAIR_LONGEST_VECTOR,
          "slots_per_historical_root from 1 to 65536");
    FAULT(!VECTOR(settings.epochs_per_slashings_vector), "settings", ALTAIR_LONGEST_VECTOR,
          "epochs_per_slashings_vector from 1 to 65536");
    FAULT(opening_length != settings.epochs_per_slashings_vector, "opening", settings.epochs_per_slashings_vector,
          "as many numbers as epochs_per_slashings_vector");
    FAULT(closing_length != opening_length, "closing", opening_length, "as many numbers as opening has");
    return fine;
}

altair_fault altair_why_process_participation_flag_updates(const uint64_t *opening, size_t opening_length,
                                                           uint64_t *closing, size_t closing_length) {
    (void)opening; (void)closing;
    FAULT(opening_length % 10 != 0, "opening", opening_length / 10 * 10, "ten numbers a validator");
    FAULT(opening_length / 10 > ALTAIR_MOST_VALIDATORS, "opening", 10 * ALTAIR_MOST_VALIDATORS,
          "ten numbers a validator, of at most 2^24");
    FAULT(closing_length != opening_length, "closing", opening_length, "as many numbers as opening has");
    return fine;
}

altair_fault altair_why_compute_epoch_at_slot(altair_settings settings, uint64_t slot) {
    (void)slot;
    FAULT(!VECTOR(settings.slots_per_historical_root), "settings", ALTAIR_LONGEST_VECTOR,
          "slots_per_historical_root from 1 to 65536");
    FAULT(!VECTOR(settings.epochs_per_slashings_vector), "settings", ALTAIR_LONGEST_VECTOR,
          "epochs_per_slashings_vector from 1 to 65536");
    return fine;
}

altair_fault altair_why_compute_start_slot_at_epoch(altair_settings settings, uint64_t epoch) {
    (void)epoch;
    FAULT(!VECTOR(settings.slots_per_historical_root), "settings", ALTAIR_LONGEST_VECTOR,
          "slots_per_historical_root from 1 to 65536");
    FAULT(!VECTOR(settings.epochs_per_slashings_vector), "settings", ALTAIR_LONGEST_VECTOR,
          "epochs_per_slashings_vector from 1 to 65536");
    return fine;
}

altair_fault altair_why_compute_activation_exit_epoch(altair_settings settings, uint64_t epoch) {
    (void)epoch;
    FAULT(!VECTOR(settings.slots_per_historical_root), "settings", ALTAIR_LONGEST_VECTOR,
          "slots_per_historical_root from 1 to 65536");
    FAULT(!VECTOR(settings.epochs_per_slashings_vector), "settings", ALTAIR_LONGEST_VECTOR,
          "epochs_per_slashings_vector from 1 to 65536");
    return fine;
}

altair_fault altair_why_get_current_epoch(altair_settings settings, uint64_t state_slot) {
    (void)state_slot;
    FAULT(!VECTOR(settings.slots_per_historical_root), "settings", ALTAIR_LONGEST_VECTOR,
          "slots_per_historical_root from 1 to 65536");
    FAULT(!VECTOR(settings.epochs_per_slashings_vector), "settings", ALTAIR_LONGEST_VECTOR,
          "epochs_per_slashings_vector from 1 to 65536");
    return fine;
}

altair_fault altair_why_get_previous_epoch(altair_settings settings, uint64_t state_slot) {
    (void)state_slot;
    FAULT(!VECTOR(settings.slots_per_historical_root), "settings", ALTAIR_LONGEST_VECTOR,
          "slots_per_historical_root from 1 to 65536");
    FAULT(!VECTOR(settings.epochs_per_slashings_vector), "settings", ALTAIR_LONGEST_VECTOR,
          "epochs_per_slashings_vector from 1 to 65536");
    return fine;
}

altair_fault altair_why_is_active_validator(const uint64_t *validator, size_t validator_length, uint64_t epoch) {
    (void)validator; (void)epoch;
    FAULT(validator_length != 10, "validator", 10, "the ten numbers of one validator");
    return fine;
}

altair_fault altair_why_is_eligible_for_activation_queue(altair_settings settings, const uint64_t *validator,
                                                         size_t validator_length) {
    (void)validator;
    FAULT(!VECTOR(settings.slots_per_historical_root), "settings", ALTAIR_LONGEST_VECTOR,
          "slots_per_historical_root from 1 to 65536");
    FAULT(!VECTOR(settings.epochs_per_slashings_vector), "settings", ALTAIR_LONGEST_VECTOR,
          "epochs_per_slashings_vector from 1 to 65536");
    FAULT(validator_length != 10, "validator", 10, "the ten numbers of one validator");
    return fine;
}

altair_fault altair_why_is_eligible_for_activation(uint64_t finalized_epoch, const uint64_t *validator,
                                                   size_t validator_length) {
    (void)finalized_epoch; (void)validator;
    FAULT(validator_length != 10, "validator", 10, "the ten numbers of one validator");
    return fine;
}

altair_fault altair_why_is_eligible(altair_settings settings, uint64_t state_slot, const uint64_t *validator,
                                    size_t validator_length) {
    (void)state_slot; (void)validator;
    FAULT(!VECTOR(settings.slots_per_historical_root), "settings", ALTAIR_LONGEST_VECTOR,
          "slots_per_historical_root from 1 to 65536");
    FAULT(!VECTOR(settings.epochs_per_slashings_vector), "settings", ALTAIR_LONGEST_VECTOR,
          "epochs_per_slashings_vector from 1 to 65536");
    FAULT(validator_length != 10, "validator", 10, "the ten numbers of one validator");
    return fine;
}

altair_fault altair_why_increase_balance(uint64_t *validator, size_t validator_length, uint64_t delta) {
    (void)validator; (void)delta;
    FAULT(validator_length != 10, "validator", 10, "the ten numbers of one validator");
    return fine;
}

altair_fault altair_why_decrease_balance(uint64_t *validator, size_t validator_length, uint64_t delta) {
    (void)validator; (void)delta;
    FAULT(validator_length != 10, "validator", 10, "the ten numbers of one validator");
    return fine;
}

altair_fault altair_why_has_flag(uint8_t flags, uint64_t flag_index) {
    (void)flags;
    FAULT(flag_index > 7, "flag_index", 7, "a flag index of 0 to 7");
    return fine;
}

altair_fault altair_why_add_flag(uint8_t flags, uint64_t flag_index) {
    (void)flags;
    FAULT(flag_index > 7, "flag_index", 7, "a flag index of 0 to 7");
    return fine;
}

altair_fault altair_why_is_unslashed_participating(altair_settings settings, uint64_t state_slot, uint64_t flag_index,
                                                   uint64_t epoch, const uint64_t *validator,
                                                   size_t validator_length) {
    (void)validator;
    FAULT(!VECTOR(settings.slots_per_historical_root), "settings", ALTAIR_LONGEST_VECTOR,
          "slots_per_historical_root from 1 to 65536");
    FAULT(!VECTOR(settings.epochs_per_slashings_vector), "settings", ALTAIR_LONGEST_VECTOR,
          "epochs_per_slashings_vector from 1 to 65536");
    FAULT(flag_index > 2, "flag_index", 2, "a flag index of 0 to 2");
    FAULT(settings.slots_per_epoch != 0 && epoch != (state_slot / settings.slots_per_epoch) && (epoch == UINT64_MAX || epoch + 1 != (state_slot / settings.slots_per_epoch)),
          "epoch", (state_slot / settings.slots_per_epoch), "the previous or the current epoch");
    FAULT(validator_length != 10, "validator", 10, "the ten numbers of one validator");
    return fine;
}

altair_fault altair_why_get_block_root_at_slot(altair_settings settings, const uint8_t *roots, size_t roots_length,
                                               uint64_t state_slot, uint64_t slot) {
    (void)roots; (void)state_slot; (void)slot;
    FAULT(!VECTOR(settings.slots_per_historical_root), "settings", ALTAIR_LONGEST_VECTOR,
          "slots_per_historical_root from 1 to 65536");
    FAULT(!VECTOR(settings.epochs_per_slashings_vector), "settings", ALTAIR_LONGEST_VECTOR,
          "epochs_per_slashings_vector from 1 to 65536");
    FAULT(roots_length != 32 * settings.slots_per_historical_root, "roots", 32 * settings.slots_per_historical_root,
          "32 bytes a root, as many as slots_per_historical_root");
    return fine;
}

altair_fault altair_why_get_block_root(altair_settings settings, const uint8_t *roots, size_t roots_length,
                                       uint64_t state_slot, uint64_t epoch) {
    (void)roots; (void)state_slot; (void)epoch;
    FAULT(!VECTOR(settings.slots_per_historical_root), "settings", ALTAIR_LONGEST_VECTOR,
          "slots_per_historical_root from 1 to 65536");
    FAULT(!VECTOR(settings.epochs_per_slashings_vector), "settings", ALTAIR_LONGEST_VECTOR,
          "epochs_per_slashings_vector from 1 to 65536");
    FAULT(roots_length != 32 * settings.slots_per_historical_root, "roots", 32 * settings.slots_per_historical_root,
          "32 bytes a root, as many as slots_per_historical_root");
    return fine;
}

altair_fault altair_why_get_total_active_balance(altair_settings settings, uint64_t state_slot,
                                                 const uint64_t *registry, size_t registry_length) {
    (void)state_slot; (void)registry;
    FAULT(!VECTOR(settings.slots_per_historical_root), "settings", ALTAIR_LONGEST_VECTOR,
          "slots_per_historical_root from 1 to 65536");
    FAULT(!VECTOR(settings.epochs_per_slashings_vector), "settings", ALTAIR_LONGEST_VECTOR,
          "epochs_per_slashings_vector from 1 to 65536");
    FAULT(registry_length % 10 != 0, "registry", registry_length / 10 * 10, "ten numbers a validator");
    FAULT(registry_length / 10 > ALTAIR_MOST_VALIDATORS, "registry", 10 * ALTAIR_MOST_VALIDATORS,
          "ten numbers a validator, of at most 2^24");
    return fine;
}

altair_fault altair_why_get_participating_balance(altair_settings settings, uint64_t state_slot, uint64_t flag_index,
                                                  uint64_t epoch, const uint64_t *registry, size_t registry_length) {
    (void)registry;
    FAULT(!VECTOR(settings.slots_per_historical_root), "settings", ALTAIR_LONGEST_VECTOR,
          "slots_per_historical_root from 1 to 65536");
    FAULT(!VECTOR(settings.epochs_per_slashings_vector), "settings", ALTAIR_LONGEST_VECTOR,
          "epochs_per_slashings_vector from 1 to 65536");
    FAULT(flag_index > 2, "flag_index", 2, "a flag index of 0 to 2");
    FAULT(settings.slots_per_epoch != 0 && epoch != (state_slot / settings.slots_per_epoch) && (epoch == UINT64_MAX || epoch + 1 != (state_slot / settings.slots_per_epoch)),
          "epoch", (state_slot / settings.slots_per_epoch), "the previous or the current epoch");
    FAULT(registry_length % 10 != 0, "registry", registry_length / 10 * 10, "ten numbers a validator");
    FAULT(registry_length / 10 > ALTAIR_MOST_VALIDATORS, "registry", 10 * ALTAIR_MOST_VALIDATORS,
          "ten numbers a validator, of at most 2^24");
    return fine;
}

altair_fault altair_why_get_validator_churn_limit(altair_settings settings, uint64_t state_slot,
                                                  const uint64_t *registry, size_t registry_length) {
    (void)state_slot; (void)registry;
    FAULT(!VECTOR(settings.slots_per_historical_root), "settings", ALTAIR_LONGEST_VECTOR,
          "slots_per_historical_root from 1 to 65536");
    FAULT(!VECTOR(settings.epochs_per_slashings_vector), "settings", ALTAIR_LONGEST_VECTOR,
          "epochs_per_slashings_vector from 1 to 65536");
    FAULT(registry_length % 10 != 0, "registry", registry_length / 10 * 10, "ten numbers a validator");
    FAULT(registry_length / 10 > ALTAIR_MOST_VALIDATORS, "registry", 10 * ALTAIR_MOST_VALIDATORS,
          "ten numbers a validator, of at most 2^24");
    return fine;
}

altair_fault altair_why_exit_queue(const uint64_t *registry, size_t registry_length) {
    (void)registry;
    FAULT(registry_length % 10 != 0, "registry", registry_length / 10 * 10, "ten numbers a validator");
    FAULT(registry_length / 10 > ALTAIR_MOST_VALIDATORS, "registry", 10 * ALTAIR_MOST_VALIDATORS,
          "ten numbers a validator, of at most 2^24");
    return fine;
}

altair_fault altair_why_initiate_validator_exit(altair_settings settings, uint64_t state_slot, uint64_t index,
                                                altair_queue queue, uint64_t *registry, size_t registry_length) {
    (void)state_slot; (void)queue; (void)registry;
    FAULT(!VECTOR(settings.slots_per_historical_root), "settings", ALTAIR_LONGEST_VECTOR,
          "slots_per_historical_root from 1 to 65536");
    FAULT(!VECTOR(settings.epochs_per_slashings_vector), "settings", ALTAIR_LONGEST_VECTOR,
          "epochs_per_slashings_vector from 1 to 65536");
    FAULT(index >= (registry_length / 10), "index", (registry_length / 10),
          "a validator's number, below the number of validators");
    FAULT(registry_length % 10 != 0, "registry", registry_length / 10 * 10, "ten numbers a validator");
    FAULT(registry_length / 10 > ALTAIR_MOST_VALIDATORS, "registry", 10 * ALTAIR_MOST_VALIDATORS,
          "ten numbers a validator, of at most 2^24");
    return fine;
}

altair_fault altair_why_get_base_reward_per_increment(altair_settings settings, uint64_t total) {
    FAULT(!VECTOR(settings.slots_per_historical_root), "settings", ALTAIR_LONGEST_VECTOR,
          "slots_per_historical_root from 1 to 65536");
    FAULT(!VECTOR(settings.epochs_per_slashings_vector), "settings", ALTAIR_LONGEST_VECTOR,
          "epochs_per_slashings_vector from 1 to 65536");
    FAULT(total == 0, "total", 1, "a total to divide by that is not 0");
    return fine;
}

altair_fault altair_why_get_base_reward(altair_settings settings, uint64_t total, const uint64_t *validator,
                                        size_t validator_length) {
    (void)validator;
    FAULT(!VECTOR(settings.slots_per_historical_root), "settings", ALTAIR_LONGEST_VECTOR,
          "slots_per_historical_root from 1 to 65536");
    FAULT(!VECTOR(settings.epochs_per_slashings_vector), "settings", ALTAIR_LONGEST_VECTOR,
          "epochs_per_slashings_vector from 1 to 65536");
    FAULT(total == 0, "total", 1, "a total to divide by that is not 0");
    FAULT(validator_length != 10, "validator", 10, "the ten numbers of one validator");
    return fine;
}

altair_fault altair_why_get_flag_index_deltas(altair_settings settings, uint64_t state_slot, uint64_t finalized_epoch,
                                              uint64_t flag_index, uint64_t index, const uint64_t *registry,
                                              size_t registry_length) {
    (void)state_slot; (void)finalized_epoch; (void)registry;
    FAULT(!VECTOR(settings.slots_per_historical_root), "settings", ALTAIR_LONGEST_VECTOR,
          "slots_per_historical_root from 1 to 65536");
    FAULT(!VECTOR(settings.epochs_per_slashings_vector), "settings", ALTAIR_LONGEST_VECTOR,
          "epochs_per_slashings_vector from 1 to 65536");
    FAULT(flag_index > 2, "flag_index", 2, "a flag index of 0 to 2");
    FAULT(index >= (registry_length / 10), "index", (registry_length / 10),
          "a validator's number, below the number of validators");
    FAULT(registry_length % 10 != 0, "registry", registry_length / 10 * 10, "ten numbers a validator");
    FAULT(registry_length / 10 > ALTAIR_MOST_VALIDATORS, "registry", 10 * ALTAIR_MOST_VALIDATORS,
          "ten numbers a validator, of at most 2^24");
    return fine;
}

altair_fault altair_why_get_inactivity_penalty_deltas(altair_rules rules, uint64_t state_slot,
                                                      const uint64_t *validator, size_t validator_length) {
    (void)state_slot; (void)validator;
    FAULT(!VECTOR(rules.settings.slots_per_historical_root), "rules", ALTAIR_LONGEST_VECTOR,
          "slots_per_historical_root from 1 to 65536");
    FAULT(!VECTOR(rules.settings.epochs_per_slashings_vector), "rules", ALTAIR_LONGEST_VECTOR,
          "epochs_per_slashings_vector from 1 to 65536");
    FAULT(rules.fork > 1, "rules", 1, "a fork that is 0 or 1");
    FAULT(validator_length != 10, "validator", 10, "the ten numbers of one validator");
    return fine;
}

altair_fault altair_why_get_finality_delay(altair_settings settings, uint64_t state_slot, uint64_t finalized_epoch) {
    (void)state_slot; (void)finalized_epoch;
    FAULT(!VECTOR(settings.slots_per_historical_root), "settings", ALTAIR_LONGEST_VECTOR,
          "slots_per_historical_root from 1 to 65536");
    FAULT(!VECTOR(settings.epochs_per_slashings_vector), "settings", ALTAIR_LONGEST_VECTOR,
          "epochs_per_slashings_vector from 1 to 65536");
    return fine;
}

altair_fault altair_why_is_in_inactivity_leak(altair_settings settings, uint64_t state_slot,
                                              uint64_t finalized_epoch) {
    (void)state_slot; (void)finalized_epoch;
    FAULT(!VECTOR(settings.slots_per_historical_root), "settings", ALTAIR_LONGEST_VECTOR,
          "slots_per_historical_root from 1 to 65536");
    FAULT(!VECTOR(settings.epochs_per_slashings_vector), "settings", ALTAIR_LONGEST_VECTOR,
          "epochs_per_slashings_vector from 1 to 65536");
    return fine;
}

altair_fault altair_why_weigh_justification_and_finalization(altair_settings settings, const uint8_t *roots,
                                                             size_t roots_length, altair_finality finality,
                                                             uint64_t total, uint64_t previous, uint64_t current) {
    (void)roots; (void)finality; (void)total; (void)previous; (void)current;
    FAULT(!VECTOR(settings.slots_per_historical_root), "settings", ALTAIR_LONGEST_VECTOR,
          "slots_per_historical_root from 1 to 65536");
    FAULT(!VECTOR(settings.epochs_per_slashings_vector), "settings", ALTAIR_LONGEST_VECTOR,
          "epochs_per_slashings_vector from 1 to 65536");
    FAULT(roots_length != 32 * settings.slots_per_historical_root, "roots", 32 * settings.slots_per_historical_root,
          "32 bytes a root, as many as slots_per_historical_root");
    return fine;
}

altair_fault altair_why_unknown_votes(altair_settings settings, const uint8_t *roots, size_t roots_length,
                                      altair_finality finality, const uint64_t *registry, size_t registry_length,
                                      const uint64_t *marks, size_t marks_length) {
    (void)roots; (void)finality; (void)registry; (void)marks;
    FAULT(!VECTOR(settings.slots_per_historical_root), "settings", ALTAIR_LONGEST_VECTOR,
          "slots_per_historical_root from 1 to 65536");
    FAULT(!VECTOR(settings.epochs_per_slashings_vector), "settings", ALTAIR_LONGEST_VECTOR,
          "epochs_per_slashings_vector from 1 to 65536");
    FAULT(roots_length != 32 * settings.slots_per_historical_root, "roots", 32 * settings.slots_per_historical_root,
          "32 bytes a root, as many as slots_per_historical_root");
    FAULT(registry_length % 10 != 0, "registry", registry_length / 10 * 10, "ten numbers a validator");
    FAULT(registry_length / 10 > ALTAIR_MOST_VALIDATORS, "registry", 10 * ALTAIR_MOST_VALIDATORS,
          "ten numbers a validator, of at most 2^24");
    FAULT(marks_length != (registry_length / 10), "marks", (registry_length / 10), "a number a validator");
    return fine;
}

altair_fault altair_why_deneb_process_registry_updates(altair_deneb_rules rules, uint64_t state_slot,
                                                       uint64_t finalized_epoch, altair_queue queue,
                                                       const uint64_t *opening, size_t opening_length,
                                                       uint64_t *closing, size_t closing_length) {
    (void)state_slot; (void)finalized_epoch; (void)queue; (void)opening; (void)closing;
    FAULT(!VECTOR(rules.settings.slots_per_historical_root), "rules", ALTAIR_LONGEST_VECTOR,
          "slots_per_historical_root from 1 to 65536");
    FAULT(!VECTOR(rules.settings.epochs_per_slashings_vector), "rules", ALTAIR_LONGEST_VECTOR,
          "epochs_per_slashings_vector from 1 to 65536");
    FAULT(opening_length % 10 != 0, "opening", opening_length / 10 * 10, "ten numbers a validator");
    FAULT(opening_length / 10 > ALTAIR_MOST_VALIDATORS, "opening", 10 * ALTAIR_MOST_VALIDATORS,
          "ten numbers a validator, of at most 2^24");
    FAULT(closing_length != opening_length, "closing", opening_length, "as many numbers as opening has");
    return fine;
}

altair_fault altair_why_deneb_close(altair_deneb_rules rules, altair_finality finality, altair_queue queue,
                                    const uint64_t *registry, size_t registry_length, const uint64_t *slashings,
                                    size_t slashings_length, const uint8_t *roots, size_t roots_length,
                                    uint64_t *closing_registry, size_t closing_registry_length,
                                    uint64_t *closing_slashings, size_t closing_slashings_length, uint64_t *amounts,
                                    size_t amounts_length) {
    (void)finality; (void)queue; (void)registry; (void)slashings; (void)roots; (void)closing_registry;
    (void)closing_slashings; (void)amounts;
    FAULT(!VECTOR(rules.settings.slots_per_historical_root), "rules", ALTAIR_LONGEST_VECTOR,
          "slots_per_historical_root from 1 to 65536");
    FAULT(!VECTOR(rules.settings.epochs_per_slashings_vector), "rules", ALTAIR_LONGEST_VECTOR,
          "epochs_per_slashings_vector from 1 to 65536");
    FAULT(registry_length % 10 != 0, "registry", registry_length / 10 * 10, "ten numbers a validator");
    FAULT(registry_length / 10 > ALTAIR_MOST_VALIDATORS, "registry", 10 * ALTAIR_MOST_VALIDATORS,
          "ten numbers a validator, of at most 2^24");
    FAULT(slashings_length != rules.settings.epochs_per_slashings_vector, "slashings",
          rules.settings.epochs_per_slashings_vector, "as many numbers as epochs_per_slashings_vector");
    FAULT(roots_length != 32 * rules.settings.slots_per_historical_root, "roots",
          32 * rules.settings.slots_per_historical_root, "32 bytes a root, as many as slots_per_historical_root");
    FAULT(closing_registry_length != registry_length, "closing_registry", registry_length,
          "as many numbers as registry has");
    FAULT(closing_slashings_length != slashings_length, "closing_slashings", slashings_length,
          "as many numbers as slashings has");
    FAULT(amounts_length != 9 * (registry_length / 10), "amounts", 9 * (registry_length / 10),
          "nine numbers a validator");
    return fine;
}

altair_fault altair_why_electra_close(altair_electra_rules rules, altair_finality finality, altair_exit_churn churn,
                                      altair_deposit_numbers numbers, const uint64_t *registry,
                                      size_t registry_length, const uint64_t *compounding, size_t compounding_length,
                                      const uint64_t *slashings, size_t slashings_length, const uint8_t *roots,
                                      size_t roots_length, const uint64_t *deposits, size_t deposits_length,
                                      const uint64_t *consolidations, size_t consolidations_length,
                                      uint64_t *closing_registry, size_t closing_registry_length,
                                      uint64_t *closing_compounding, size_t closing_compounding_length,
                                      uint64_t *closing_slashings, size_t closing_slashings_length,
                                      uint64_t *closing_deposits, size_t closing_deposits_length,
                                      uint64_t *closing_consolidations, size_t closing_consolidations_length,
                                      uint64_t *amounts, size_t amounts_length, uint64_t *places,
                                      size_t places_length) {
    (void)finality; (void)churn; (void)numbers; (void)registry; (void)compounding; (void)slashings; (void)roots;
    (void)closing_registry; (void)closing_compounding; (void)closing_slashings; (void)closing_deposits;
    (void)closing_consolidations; (void)amounts; (void)places;
    FAULT(!VECTOR(rules.settings.slots_per_historical_root), "rules", ALTAIR_LONGEST_VECTOR,
          "slots_per_historical_root from 1 to 65536");
    FAULT(!VECTOR(rules.settings.epochs_per_slashings_vector), "rules", ALTAIR_LONGEST_VECTOR,
          "epochs_per_slashings_vector from 1 to 65536");
    FAULT(registry_length % 10 != 0, "registry", registry_length / 10 * 10, "ten numbers a validator");
    FAULT(registry_length / 10 > ALTAIR_MOST_VALIDATORS, "registry", 10 * ALTAIR_MOST_VALIDATORS,
          "ten numbers a validator, of at most 2^24");
    FAULT(compounding_length != (registry_length / 10), "compounding", (registry_length / 10),
          "a number a validator");
    FAULT(slashings_length != rules.settings.epochs_per_slashings_vector, "slashings",
          rules.settings.epochs_per_slashings_vector, "as many numbers as epochs_per_slashings_vector");
    FAULT(roots_length != 32 * rules.settings.slots_per_historical_root, "roots",
          32 * rules.settings.slots_per_historical_root, "32 bytes a root, as many as slots_per_historical_root");
    FAULT(deposits_length % 5 != 0, "deposits", deposits_length / 5 * 5, "five numbers a deposit");
    FAULT((deposits_length / 5) > ALTAIR_MOST_VALIDATORS, "deposits", 5 * ALTAIR_MOST_VALIDATORS,
          "five numbers a deposit, of at most 2^24");
    FAULT(REACHES(deposits, 5, 0, (registry_length / 10) + (deposits_length / 5)), "deposits",
          (registry_length / 10) + (deposits_length / 5), "keys below the number of validators and deposits");
    FAULT(consolidations_length % 2 != 0, "consolidations", consolidations_length / 2 * 2,
          "two numbers a consolidation");
    FAULT((consolidations_length / 2) > ALTAIR_MOST_VALIDATORS, "consolidations", 2 * ALTAIR_MOST_VALIDATORS,
          "two numbers a consolidation, of at most 2^24");
    FAULT(REACHES(consolidations, 1, 0, (registry_length / 10)), "consolidations", (registry_length / 10),
          "validators' numbers, below the number of validators");
    FAULT(closing_registry_length != 10 * ((registry_length / 10) + (deposits_length / 5)), "closing_registry",
          10 * ((registry_length / 10) + (deposits_length / 5)), "ten numbers a validator and a deposit");
    FAULT(closing_compounding_length != (registry_length / 10) + (deposits_length / 5), "closing_compounding",
          (registry_length / 10) + (deposits_length / 5), "a number a validator and a deposit");
    FAULT(closing_slashings_length != slashings_length, "closing_slashings", slashings_length,
          "as many numbers as slashings has");
    FAULT(closing_deposits_length != deposits_length, "closing_deposits", deposits_length,
          "as many numbers as deposits has");
    FAULT(closing_consolidations_length != consolidations_length, "closing_consolidations", consolidations_length,
          "as many numbers as consolidations has");
    FAULT(amounts_length != 12 * ((registry_length / 10) + (deposits_length / 5)), "amounts",
          12 * ((registry_length / 10) + (deposits_length / 5)), "twelve numbers a validator and a deposit");
    FAULT(places_length != (deposits_length / 5), "places", (deposits_length / 5), "a number a deposit");
    return fine;
}

altair_fault altair_why_electra_process_registry_updates(altair_electra_rules rules, uint64_t state_slot,
                                                         uint64_t finalized_epoch, altair_exit_churn churn,
                                                         const uint64_t *opening, size_t opening_length,
                                                         uint64_t *closing, size_t closing_length) {
    (void)state_slot; (void)finalized_epoch; (void)churn; (void)opening; (void)closing;
    FAULT(!VECTOR(rules.settings.slots_per_historical_root), "rules", ALTAIR_LONGEST_VECTOR,
          "slots_per_historical_root from 1 to 65536");
    FAULT(!VECTOR(rules.settings.epochs_per_slashings_vector), "rules", ALTAIR_LONGEST_VECTOR,
          "epochs_per_slashings_vector from 1 to 65536");
    FAULT(opening_length % 10 != 0, "opening", opening_length / 10 * 10, "ten numbers a validator");
    FAULT(opening_length / 10 > ALTAIR_MOST_VALIDATORS, "opening", 10 * ALTAIR_MOST_VALIDATORS,
          "ten numbers a validator, of at most 2^24");
    FAULT(closing_length != opening_length, "closing", opening_length, "as many numbers as opening has");
    return fine;
}

altair_fault altair_why_electra_process_slashings(altair_electra_rules rules, uint64_t state_slot,
                                                  const uint64_t *slashings, size_t slashings_length,
                                                  const uint64_t *opening, size_t opening_length, uint64_t *closing,
                                                  size_t closing_length) {
    (void)state_slot; (void)slashings; (void)opening; (void)closing;
    FAULT(!VECTOR(rules.settings.slots_per_historical_root), "rules", ALTAIR_LONGEST_VECTOR,
          "slots_per_historical_root from 1 to 65536");
    FAULT(!VECTOR(rules.settings.epochs_per_slashings_vector), "rules", ALTAIR_LONGEST_VECTOR,
          "epochs_per_slashings_vector from 1 to 65536");
    FAULT(slashings_length != rules.settings.epochs_per_slashings_vector, "slashings",
          rules.settings.epochs_per_slashings_vector, "as many numbers as epochs_per_slashings_vector");
    FAULT(opening_length % 10 != 0, "opening", opening_length / 10 * 10, "ten numbers a validator");
    FAULT(opening_length / 10 > ALTAIR_MOST_VALIDATORS, "opening", 10 * ALTAIR_MOST_VALIDATORS,
          "ten numbers a validator, of at most 2^24");
    FAULT(closing_length != opening_length, "closing", opening_length, "as many numbers as opening has");
    return fine;
}

altair_fault altair_why_electra_process_pending_deposits(altair_electra_rules rules, uint64_t state_slot,
                                                         uint64_t finalized_epoch, altair_deposit_numbers numbers,
                                                         const uint64_t *registry, size_t registry_length,
                                                         const uint64_t *compounding, size_t compounding_length,
                                                         const uint64_t *deposits, size_t deposits_length,
                                                         uint64_t *closing_registry, size_t closing_registry_length,
                                                         uint64_t *closing_compounding,
                                                         size_t closing_compounding_length,
                                                         uint64_t *closing_deposits, size_t closing_deposits_length,
                                                         uint64_t *places, size_t places_length) {
    (void)state_slot; (void)finalized_epoch; (void)numbers; (void)registry; (void)compounding; (void)closing_registry;
    (void)closing_compounding; (void)closing_deposits; (void)places;
    FAULT(!VECTOR(rules.settings.slots_per_historical_root), "rules", ALTAIR_LONGEST_VECTOR,
          "slots_per_historical_root from 1 to 65536");
    FAULT(!VECTOR(rules.settings.epochs_per_slashings_vector), "rules", ALTAIR_LONGEST_VECTOR,
          "epochs_per_slashings_vector from 1 to 65536");
    FAULT(registry_length % 10 != 0, "registry", registry_length / 10 * 10, "ten numbers a validator");
    FAULT(registry_length / 10 > ALTAIR_MOST_VALIDATORS, "registry", 10 * ALTAIR_MOST_VALIDATORS,
          "ten numbers a validator, of at most 2^24");
    FAULT(compounding_length != (registry_length / 10), "compounding", (registry_length / 10),
          "a number a validator");
    FAULT(deposits_length % 5 != 0, "deposits", deposits_length / 5 * 5, "five numbers a deposit");
    FAULT((deposits_length / 5) > ALTAIR_MOST_VALIDATORS, "deposits", 5 * ALTAIR_MOST_VALIDATORS,
          "five numbers a deposit, of at most 2^24");
    FAULT(REACHES(deposits, 5, 0, (registry_length / 10) + (deposits_length / 5)), "deposits",
          (registry_length / 10) + (deposits_length / 5), "keys below the number of validators and deposits");
    FAULT(closing_registry_length != 10 * ((registry_length / 10) + (deposits_length / 5)), "closing_registry",
          10 * ((registry_length / 10) + (deposits_length / 5)), "ten numbers a validator and a deposit");
    FAULT(closing_compounding_length != (registry_length / 10) + (deposits_length / 5), "closing_compounding",
          (registry_length / 10) + (deposits_length / 5), "a number a validator and a deposit");
    FAULT(closing_deposits_length != deposits_length, "closing_deposits", deposits_length,
          "as many numbers as deposits has");
    FAULT(places_length != (deposits_length / 5), "places", (deposits_length / 5), "a number a deposit");
    return fine;
}

altair_fault altair_why_electra_process_pending_consolidations(altair_electra_rules rules, uint64_t state_slot,
                                                               const uint64_t *registry, size_t registry_length,
                                                               const uint64_t *consolidations,
                                                               size_t consolidations_length,
                                                               uint64_t *closing_registry,
                                                               size_t closing_registry_length,
                                                               uint64_t *closing_consolidations,
                                                               size_t closing_consolidations_length) {
    (void)state_slot; (void)registry; (void)closing_registry; (void)closing_consolidations;
    FAULT(!VECTOR(rules.settings.slots_per_historical_root), "rules", ALTAIR_LONGEST_VECTOR,
          "slots_per_historical_root from 1 to 65536");
    FAULT(!VECTOR(rules.settings.epochs_per_slashings_vector), "rules", ALTAIR_LONGEST_VECTOR,
          "epochs_per_slashings_vector from 1 to 65536");
    FAULT(registry_length % 10 != 0, "registry", registry_length / 10 * 10, "ten numbers a validator");
    FAULT(registry_length / 10 > ALTAIR_MOST_VALIDATORS, "registry", 10 * ALTAIR_MOST_VALIDATORS,
          "ten numbers a validator, of at most 2^24");
    FAULT(consolidations_length % 2 != 0, "consolidations", consolidations_length / 2 * 2,
          "two numbers a consolidation");
    FAULT((consolidations_length / 2) > ALTAIR_MOST_VALIDATORS, "consolidations", 2 * ALTAIR_MOST_VALIDATORS,
          "two numbers a consolidation, of at most 2^24");
    FAULT(REACHES(consolidations, 1, 0, (registry_length / 10)), "consolidations", (registry_length / 10),
          "validators' numbers, below the number of validators");
    FAULT(closing_registry_length != registry_length, "closing_registry", registry_length,
          "as many numbers as registry has");
    FAULT(closing_consolidations_length != consolidations_length, "closing_consolidations", consolidations_length,
          "as many numbers as consolidations has");
    return fine;
}

altair_fault altair_why_electra_process_effective_balance_updates(altair_electra_rules rules,
                                                                  const uint64_t *compounding,
                                                                  size_t compounding_length, const uint64_t *opening,
                                                                  size_t opening_length, uint64_t *closing,
                                                                  size_t closing_length) {
    (void)compounding; (void)opening; (void)closing;
    FAULT(!VECTOR(rules.settings.slots_per_historical_root), "rules", ALTAIR_LONGEST_VECTOR,
          "slots_per_historical_root from 1 to 65536");
    FAULT(!VECTOR(rules.settings.epochs_per_slashings_vector), "rules", ALTAIR_LONGEST_VECTOR,
          "epochs_per_slashings_vector from 1 to 65536");
    FAULT(compounding_length != (opening_length / 10), "compounding", (opening_length / 10), "a number a validator");
    FAULT(opening_length % 10 != 0, "opening", opening_length / 10 * 10, "ten numbers a validator");
    FAULT(opening_length / 10 > ALTAIR_MOST_VALIDATORS, "opening", 10 * ALTAIR_MOST_VALIDATORS,
          "ten numbers a validator, of at most 2^24");
    FAULT(closing_length != opening_length, "closing", opening_length, "as many numbers as opening has");
    return fine;
}

altair_fault altair_why_electra_get_balance_churn_limit(altair_electra_rules rules, uint64_t state_slot,
                                                        const uint64_t *registry, size_t registry_length) {
    (void)state_slot; (void)registry;
    FAULT(!VECTOR(rules.settings.slots_per_historical_root), "rules", ALTAIR_LONGEST_VECTOR,
          "slots_per_historical_root from 1 to 65536");
    FAULT(!VECTOR(rules.settings.epochs_per_slashings_vector), "rules", ALTAIR_LONGEST_VECTOR,
          "epochs_per_slashings_vector from 1 to 65536");
    FAULT(registry_length % 10 != 0, "registry", registry_length / 10 * 10, "ten numbers a validator");
    FAULT(registry_length / 10 > ALTAIR_MOST_VALIDATORS, "registry", 10 * ALTAIR_MOST_VALIDATORS,
          "ten numbers a validator, of at most 2^24");
    return fine;
}

altair_fault altair_why_electra_get_activation_exit_churn_limit(altair_electra_rules rules, uint64_t state_slot,
                                                                const uint64_t *registry, size_t registry_length) {
    (void)state_slot; (void)registry;
    FAULT(!VECTOR(rules.settings.slots_per_historical_root), "rules", ALTAIR_LONGEST_VECTOR,
          "slots_per_historical_root from 1 to 65536");
    FAULT(!VECTOR(rules.settings.epochs_per_slashings_vector), "rules", ALTAIR_LONGEST_VECTOR,
          "epochs_per_slashings_vector from 1 to 65536");
    FAULT(registry_length % 10 != 0, "registry", registry_length / 10 * 10, "ten numbers a validator");
    FAULT(registry_length / 10 > ALTAIR_MOST_VALIDATORS, "registry", 10 * ALTAIR_MOST_VALIDATORS,
          "ten numbers a validator, of at most 2^24");
    return fine;
}

altair_fault altair_why_electra_get_max_effective_balance(altair_electra_rules rules, uint64_t compounding) {
    (void)compounding;
    FAULT(!VECTOR(rules.settings.slots_per_historical_root), "rules", ALTAIR_LONGEST_VECTOR,
          "slots_per_historical_root from 1 to 65536");
    FAULT(!VECTOR(rules.settings.epochs_per_slashings_vector), "rules", ALTAIR_LONGEST_VECTOR,
          "epochs_per_slashings_vector from 1 to 65536");
    return fine;
}

altair_fault altair_why_electra_compute_exit_epoch_and_update_churn(altair_electra_rules rules, uint64_t state_slot,
                                                                    altair_exit_churn churn, uint64_t exit_balance,
                                                                    const uint64_t *registry,
                                                                    size_t registry_length) {
    (void)state_slot; (void)churn; (void)exit_balance; (void)registry;
    FAULT(!VECTOR(rules.settings.slots_per_historical_root), "rules", ALTAIR_LONGEST_VECTOR,
          "slots_per_historical_root from 1 to 65536");
    FAULT(!VECTOR(rules.settings.epochs_per_slashings_vector), "rules", ALTAIR_LONGEST_VECTOR,
          "epochs_per_slashings_vector from 1 to 65536");
    FAULT(registry_length % 10 != 0, "registry", registry_length / 10 * 10, "ten numbers a validator");
    FAULT(registry_length / 10 > ALTAIR_MOST_VALIDATORS, "registry", 10 * ALTAIR_MOST_VALIDATORS,
          "ten numbers a validator, of at most 2^24");
    return fine;
}

altair_fault altair_why_electra_initiate_validator_exit(altair_electra_rules rules, uint64_t state_slot,
                                                        uint64_t index, altair_exit_churn churn, uint64_t *registry,
                                                        size_t registry_length) {
    (void)state_slot; (void)churn; (void)registry;
    FAULT(!VECTOR(rules.settings.slots_per_historical_root), "rules", ALTAIR_LONGEST_VECTOR,
          "slots_per_historical_root from 1 to 65536");
    FAULT(!VECTOR(rules.settings.epochs_per_slashings_vector), "rules", ALTAIR_LONGEST_VECTOR,
          "epochs_per_slashings_vector from 1 to 65536");
    FAULT(index >= (registry_length / 10), "index", (registry_length / 10),
          "a validator's number, below the number of validators");
    FAULT(registry_length % 10 != 0, "registry", registry_length / 10 * 10, "ten numbers a validator");
    FAULT(registry_length / 10 > ALTAIR_MOST_VALIDATORS, "registry", 10 * ALTAIR_MOST_VALIDATORS,
          "ten numbers a validator, of at most 2^24");
    return fine;
}
