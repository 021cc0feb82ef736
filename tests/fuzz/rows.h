/* Written by bindings/generate from crates/exports and bindings/words. Of each function: what it answers, its buffers and tests
 * (the letters of calls.c), the refusals that it names, which buffer is the opening of each that is written, how long each must be, what it
 * answers beside a refusal, what says why, and the words of its call. */
X(altair_version, ITSELF, uint64_t, "", "", 0, LIST(-1), LIST(ANY(8)), LIST(0), nothing_wrong)
X(altair_close, VALUES, altair_full_answer, "TRSB>RSA", "fq",
  1u << 1 | 1u << 2 | 1u << 13 | 1u << 3 | 1u << 8 | 1u << 4 | 1u << 5, LIST(1, 2, -1), LIST(ANY(8), ANY(8),
  OF_STORE(8, c->s.epochs_per_slashings_vector), OF_STORE(1, 32 * c->s.slots_per_historical_root),
  EXACT(8, c->in[1].length), EXACT(8, c->in[2].length), EXACT(8, 9 * (c->in[1].length / 10))), LIST(.refusal = 0,
  .finality = c->f, .queue = c->queue), altair_why_close, IN(0), c->count, c->f, c->queue, IN(1), IN(2), IN(3),
  OUT(0), OUT(1), OUT(2))
X(altair_read_rules, VALUES, altair_rules_answer, "T", "x", 1u << 1 | 1u << 2 | 1u << 13, LIST(-1), LIST(ANY(8)),
  LIST(.refusal = 0), altair_why_read_rules, IN(0), c->count, c->epoch)
X(altair_add_rules, VALUES, altair_count_answer, ">u", "nsk", 1u << 1 | 1u << 2 | 1u << 12, LIST(-1), LIST(ANY(8)),
  LIST(.refusal = 0, .count = c->count), altair_why_add_rules, OUT(0), c->count, c->epoch, c->rules)
X(altair_charged, VALUES, altair_number_answer, "R", "st", 1u << 1 | 1u << 2 | 1u << 3, LIST(-1), LIST(ANY(8)),
  LIST(.refusal = 0), altair_why_charged, c->s, c->slot, IN(0))
X(altair_activation_wait, VALUES, altair_wait_answer, "R", "szi", 1u << 1 | 1u << 2 | 1u << 3, LIST(-1), LIST(ANY(8)),
  LIST(.refusal = 0), altair_why_activation_wait, c->s, c->finalized, IN(0), c->index)
X(altair_listing_head, VALUES, altair_head, "R", "stf", 1u << 1 | 1u << 2 | 1u << 3, LIST(-1), LIST(ANY(8)),
  LIST(.refusal = 0), altair_why_listing_head, c->s, c->slot, c->f, IN(0))
X(altair_listing_line, VALUES, altair_line, "PQ", "li", 1u << 1 | 1u << 3 | 1u << 7, LIST(-1), LIST(ANY(8),
  EXACT(8, c->in[0].length)), LIST(.refusal = 0), altair_why_listing_line, IN(0), IN(1), c->index)
X(altair_net_change, VALUES, altair_change_answer, "", "", 1u << 7, LIST(-1), LIST(ANY(8)), LIST(.refusal = 0),
  nothing_wrong, c->number, c->totals[0])
X(altair_read_header, VALUES, altair_header, "F", "", 1u << 6, LIST(-1), LIST(ANY(1)), LIST(.refusal = 0),
  nothing_wrong, IN(0))
X(altair_read_file, READ, altair_read_answer, "F>RS", "", 1u << 6 | 1u << 1 | 1u << 2 | 1u << 3 | 1u << 8, LIST(-1,
  -1), LIST(ANY(1), ANY(8), ANY(8)), LIST(.refusal = 0), altair_why_read_file, IN(0), OUT(0), OUT(1))
X(altair_write_file, NUMBER, uint64_t, "RBS>F", "sfq", 1u << 1 | 1u << 2 | 1u << 3 | 1u << 8, LIST(-1), LIST(ANY(8),
  EXACT(1, 32 * c->s.slots_per_historical_root), EXACT(8, c->s.epochs_per_slashings_vector),
  EXACT(1, 384 + 80 * (c->in[0].length / 10) + 32 * c->s.slots_per_historical_root + 8 * c->s.epochs_per_slashings_vector)),
  LIST(0), altair_why_write_file, c->s, c->f, c->queue, IN(0), IN(1), IN(2), OUT(0))
X(altair_close_shelf, NUMBER, uint64_t, "HL>CZZX", "", 1u << 1, LIST(0, -1, -1, 1), LIST(ANY(1), ANY(8),
  EXACT(1, c->in[0].length), LEAST(8, (longest(&c->in[1]) + 7) / 8), LEAST(8, (longest(&c->in[1]) + 7) / 8),
  EXACT(8, c->in[1].length)), LIST(0), altair_why_close_shelf, IN(0), IN(1), OUT(0), OUT(1), OUT(2), OUT(3),
  c->rules.fork, c->rules.bellatrix)
X(altair_close_step, RUNNING, altair_running_answer, "TRSB>rsa", "jfq",
  1u << 1 | 1u << 2 | 1u << 13 | 1u << 3 | 1u << 8 | 1u << 4 | 1u << 5, LIST(1, 2, -1), LIST(ANY(8), ANY(8),
  OF_STORE(8, c->s.epochs_per_slashings_vector), OF_STORE(1, 32 * c->s.slots_per_historical_root),
  EXACT(8, c->in[1].length), EXACT(8, c->in[2].length), EXACT(8, 9 * (c->in[1].length / 10))), LIST(.refusal = 0,
  .running = c->running), altair_why_close_step, c->number, c->running, IN(0), c->count, c->f, c->queue, IN(1), IN(2),
  IN(3), OUT(0), OUT(1), OUT(2))
X(altair_take_order, RUNNING, altair_running_answer, ">o", "p", 1u << 1 | 1u << 11, LIST(-1), LIST(ANY(8)),
  LIST(.refusal = 0, .running = c->running), altair_why_take_order, c->running, c->number, c->epoch, OUT(0))
X(altair_carry_out, RUNNING, altair_running_answer, "TO>rm", "fqy", 1u << 1 | 1u << 2 | 1u << 13 | 1u << 3 | 1u << 8,
  LIST(-1, -1), LIST(ANY(8), ANY(8), ANY(8), EXACT(8, c->in[1].length / 2)), LIST(.refusal = 0,
  .running = c->running), altair_why_carry_out, IN(0), c->count, c->number, c->running, OUT(0), IN(1), OUT(1))
X(altair_process_justification_and_finalization, VALUES, altair_justification_answer, "BR", "sf",
  1u << 1 | 1u << 2 | 1u << 3 | 1u << 4 | 1u << 5, LIST(-1), LIST(EXACT(1, 32 * c->s.slots_per_historical_root),
  ANY(8)), LIST(.refusal = 0, .finality = c->f), altair_why_process_justification_and_finalization, c->s, IN(0), c->f,
  IN(1))
X(altair_process_inactivity_updates, NUMBER, uint64_t, "R>R", "stz", 1u << 1 | 1u << 2 | 1u << 3 | 1u << 5, LIST(0),
  LIST(ANY(8), EXACT(8, c->in[0].length)), LIST(0), altair_why_process_inactivity_updates, c->s, c->slot,
  c->finalized, IN(0), OUT(0))
X(altair_process_rewards_and_penalties, NUMBER, uint64_t, "R>R", "sktz", 1u << 1 | 1u << 2 | 1u << 3 | 1u << 5,
  LIST(0), LIST(ANY(8), EXACT(8, c->in[0].length)), LIST(0), altair_why_process_rewards_and_penalties, c->rules,
  c->slot, c->finalized, IN(0), OUT(0))
X(altair_process_registry_updates, VALUES, altair_queue_answer, "R>R", "stzq",
  1u << 1 | 1u << 2 | 1u << 3 | 1u << 8 | 1u << 5, LIST(0), LIST(ANY(8), EXACT(8, c->in[0].length)),
  LIST(.refusal = 0, .queue = c->queue), altair_why_process_registry_updates, c->s, c->slot, c->finalized, c->queue,
  IN(0), OUT(0))
X(altair_process_registry_updates_to, VALUES, altair_queue_answer, "R>R", "ostzq",
  1u << 1 | 1u << 2 | 1u << 3 | 1u << 8 | 1u << 5, LIST(0), LIST(ANY(8), EXACT(8, c->in[0].length)),
  LIST(.refusal = 0, .queue = c->queue), altair_why_process_registry_updates_to, c->index, c->s, c->slot,
  c->finalized, c->queue, IN(0), OUT(0))
X(altair_process_slashings, NUMBER, uint64_t, "SR>R", "skt", 1u << 1 | 1u << 2 | 1u << 3 | 1u << 5, LIST(1),
  LIST(EXACT(8, c->s.epochs_per_slashings_vector), ANY(8), EXACT(8, c->in[1].length)), LIST(0),
  altair_why_process_slashings, c->rules, c->slot, IN(0), IN(1), OUT(0))
X(altair_process_effective_balance_updates, NUMBER, uint64_t, "R>R", "s", 1u << 1 | 1u << 2 | 1u << 3 | 1u << 5,
  LIST(0), LIST(ANY(8), EXACT(8, c->in[0].length)), LIST(0), altair_why_process_effective_balance_updates, c->s,
  IN(0), OUT(0))
X(altair_process_slashings_reset, NUMBER, uint64_t, "S>S", "st", 1u << 1 | 1u << 2 | 1u << 3, LIST(0),
  LIST(EXACT(8, c->s.epochs_per_slashings_vector), EXACT(8, c->in[0].length)), LIST(0),
  altair_why_process_slashings_reset, c->s, c->slot, IN(0), OUT(0))
X(altair_process_participation_flag_updates, NUMBER, uint64_t, "R>R", "", 1u << 1 | 1u << 3, LIST(0), LIST(ANY(8),
  EXACT(8, c->in[0].length)), LIST(0), altair_why_process_participation_flag_updates, IN(0), OUT(0))
X(altair_integer_sqrt, ITSELF, uint64_t, "", "", 0, LIST(-1), LIST(ANY(8)), LIST(0), nothing_wrong, c->number)
X(altair_compute_epoch_at_slot, VALUES, altair_number_answer, "", "s", 1u << 1 | 1u << 2, LIST(-1), LIST(ANY(8)),
  LIST(.refusal = 0), altair_why_compute_epoch_at_slot, c->s, c->number)
X(altair_compute_start_slot_at_epoch, VALUES, altair_number_answer, "", "s", 1u << 1 | 1u << 2 | 1u << 5, LIST(-1),
  LIST(ANY(8)), LIST(.refusal = 0), altair_why_compute_start_slot_at_epoch, c->s, c->number)
X(altair_compute_activation_exit_epoch, VALUES, altair_number_answer, "", "s", 1u << 1 | 1u << 2 | 1u << 5, LIST(-1),
  LIST(ANY(8)), LIST(.refusal = 0), altair_why_compute_activation_exit_epoch, c->s, c->number)
X(altair_get_current_epoch, VALUES, altair_number_answer, "", "st", 1u << 1 | 1u << 2 | 1u << 3, LIST(-1),
  LIST(ANY(8)), LIST(.refusal = 0), altair_why_get_current_epoch, c->s, c->slot)
X(altair_get_previous_epoch, VALUES, altair_number_answer, "", "st", 1u << 1 | 1u << 2 | 1u << 3, LIST(-1),
  LIST(ANY(8)), LIST(.refusal = 0), altair_why_get_previous_epoch, c->s, c->slot)
X(altair_slot_at_time, VALUES, altair_number_answer, "", "cw", 1u << 15 | 1u << 2 | 1u << 14, LIST(-1), LIST(ANY(8)),
  LIST(.refusal = 0), nothing_wrong, c->clock, c->number)
X(altair_epoch_at_time, VALUES, altair_number_answer, "", "cw", 1u << 15 | 1u << 2 | 1u << 14, LIST(-1), LIST(ANY(8)),
  LIST(.refusal = 0), nothing_wrong, c->clock, c->number)
X(altair_is_in_closing_window, VALUES, altair_truth_answer, "", "cw", 1u << 15 | 1u << 2 | 1u << 14, LIST(-1),
  LIST(ANY(8)), LIST(.refusal = 0), nothing_wrong, c->clock, c->number)
X(altair_first_second_of_slot, VALUES, altair_number_answer, "", "c", 1u << 15 | 1u << 2 | 1u << 5, LIST(-1),
  LIST(ANY(8)), LIST(.refusal = 0), nothing_wrong, c->clock, c->number)
X(altair_last_second_of_slot, VALUES, altair_number_answer, "", "c", 1u << 15 | 1u << 2 | 1u << 5, LIST(-1),
  LIST(ANY(8)), LIST(.refusal = 0), nothing_wrong, c->clock, c->number)
X(altair_first_second_of_epoch, VALUES, altair_number_answer, "", "c", 1u << 15 | 1u << 2 | 1u << 5, LIST(-1),
  LIST(ANY(8)), LIST(.refusal = 0), nothing_wrong, c->clock, c->number)
X(altair_last_second_of_epoch, VALUES, altair_number_answer, "", "c", 1u << 15 | 1u << 2 | 1u << 5, LIST(-1),
  LIST(ANY(8)), LIST(.refusal = 0), nothing_wrong, c->clock, c->number)
X(altair_is_active_validator, VALUES, altair_truth_answer, "V", "", 1u << 1 | 1u << 3, LIST(-1), LIST(EXACT(8, 10)),
  LIST(.refusal = 0), altair_why_is_active_validator, IN(0), c->number)
X(altair_is_eligible_for_activation_queue, VALUES, altair_truth_answer, "V", "s", 1u << 1 | 1u << 2 | 1u << 3,
  LIST(-1), LIST(EXACT(8, 10)), LIST(.refusal = 0), altair_why_is_eligible_for_activation_queue, c->s, IN(0))
X(altair_is_eligible_for_activation, VALUES, altair_truth_answer, "V", "z", 1u << 1 | 1u << 3, LIST(-1),
  LIST(EXACT(8, 10)), LIST(.refusal = 0), altair_why_is_eligible_for_activation, c->finalized, IN(0))
X(altair_is_eligible, VALUES, altair_truth_answer, "V", "st", 1u << 1 | 1u << 2 | 1u << 3, LIST(-1),
  LIST(EXACT(8, 10)), LIST(.refusal = 0), altair_why_is_eligible, c->s, c->slot, IN(0))
X(altair_increase_balance, NUMBER, uint64_t, ">v", "", 1u << 1 | 1u << 3 | 1u << 5, LIST(-1), LIST(EXACT(8, 10)),
  LIST(0), altair_why_increase_balance, OUT(0), c->number)
X(altair_decrease_balance, NUMBER, uint64_t, ">v", "", 1u << 1 | 1u << 3, LIST(-1), LIST(EXACT(8, 10)), LIST(0),
  altair_why_decrease_balance, OUT(0), c->number)
X(altair_has_flag, VALUES, altair_truth_answer, "", "G", 1u << 1, LIST(-1), LIST(ANY(8)), LIST(.refusal = 0),
  altair_why_has_flag, c->flags, c->flag_index)
X(altair_add_flag, VALUES, altair_number_answer, "", "G", 1u << 1, LIST(-1), LIST(ANY(8)), LIST(.refusal = 0),
  altair_why_add_flag, c->flags, c->flag_index)
X(altair_is_unslashed_participating, VALUES, altair_truth_answer, "V", "stge", 1u << 1 | 1u << 2 | 1u << 3, LIST(-1),
  LIST(EXACT(8, 10)), LIST(.refusal = 0), altair_why_is_unslashed_participating, c->s, c->slot, c->flag_index,
  c->epoch, IN(0))
X(altair_get_block_root_at_slot, VALUES, altair_root_answer, "B", "st", 1u << 1 | 1u << 2 | 1u << 3 | 1u << 4,
  LIST(-1), LIST(EXACT(1, 32 * c->s.slots_per_historical_root)), LIST(.refusal = 0),
  altair_why_get_block_root_at_slot, c->s, IN(0), c->slot, c->number)
X(altair_get_block_root, VALUES, altair_root_answer, "B", "st", 1u << 1 | 1u << 2 | 1u << 3 | 1u << 4 | 1u << 5,
  LIST(-1), LIST(EXACT(1, 32 * c->s.slots_per_historical_root)), LIST(.refusal = 0), altair_why_get_block_root, c->s,
  IN(0), c->slot, c->epoch)
X(altair_get_total_active_balance, VALUES, altair_total_answer, "R", "st", 1u << 1 | 1u << 2 | 1u << 3 | 1u << 5,
  LIST(-1), LIST(ANY(8)), LIST(.refusal = 0), altair_why_get_total_active_balance, c->s, c->slot, IN(0))
X(altair_get_participating_balance, VALUES, altair_total_answer, "R", "stge", 1u << 1 | 1u << 2 | 1u << 3 | 1u << 5,
  LIST(-1), LIST(ANY(8)), LIST(.refusal = 0), altair_why_get_participating_balance, c->s, c->slot, c->flag_index,
  c->epoch, IN(0))
X(altair_get_validator_churn_limit, VALUES, altair_number_answer, "R", "st", 1u << 1 | 1u << 2 | 1u << 3, LIST(-1),
  LIST(ANY(8)), LIST(.refusal = 0), altair_why_get_validator_churn_limit, c->s, c->slot, IN(0))
X(altair_exit_queue, VALUES, altair_queue_answer, "R", "", 1u << 1 | 1u << 3, LIST(-1), LIST(ANY(8)),
  LIST(.refusal = 0), altair_why_exit_queue, IN(0))
X(altair_initiate_validator_exit, VALUES, altair_queue_answer, ">r", "stiq",
  1u << 1 | 1u << 2 | 1u << 3 | 1u << 8 | 1u << 5, LIST(-1), LIST(ANY(8)), LIST(.refusal = 0, .queue = c->queue),
  altair_why_initiate_validator_exit, c->s, c->slot, c->index, c->queue, OUT(0))
X(altair_get_base_reward_per_increment, VALUES, altair_number_answer, "", "sd", 1u << 1 | 1u << 2 | 1u << 5, LIST(-1),
  LIST(ANY(8)), LIST(.refusal = 0), altair_why_get_base_reward_per_increment, c->s, c->totals[0])
X(altair_get_base_reward, VALUES, altair_number_answer, "V", "sd", 1u << 1 | 1u << 2 | 1u << 3 | 1u << 5, LIST(-1),
  LIST(EXACT(8, 10)), LIST(.refusal = 0), altair_why_get_base_reward, c->s, c->totals[0], IN(0))
X(altair_get_flag_index_deltas, VALUES, altair_deltas_answer, "R", "stzgi", 1u << 1 | 1u << 2 | 1u << 3 | 1u << 5,
  LIST(-1), LIST(ANY(8)), LIST(.refusal = 0), altair_why_get_flag_index_deltas, c->s, c->slot, c->finalized,
  c->flag_index, c->index, IN(0))
X(altair_get_inactivity_penalty_deltas, VALUES, altair_deltas_answer, "V", "skt",
  1u << 1 | 1u << 2 | 1u << 3 | 1u << 5, LIST(-1), LIST(EXACT(8, 10)), LIST(.refusal = 0),
  altair_why_get_inactivity_penalty_deltas, c->rules, c->slot, IN(0))
X(altair_get_finality_delay, VALUES, altair_number_answer, "", "stz", 1u << 1 | 1u << 2 | 1u << 3 | 1u << 5, LIST(-1),
  LIST(ANY(8)), LIST(.refusal = 0), altair_why_get_finality_delay, c->s, c->slot, c->finalized)
X(altair_is_in_inactivity_leak, VALUES, altair_truth_answer, "", "stz", 1u << 1 | 1u << 2 | 1u << 3 | 1u << 5,
  LIST(-1), LIST(ANY(8)), LIST(.refusal = 0), altair_why_is_in_inactivity_leak, c->s, c->slot, c->finalized)
X(altair_weigh_justification_and_finalization, VALUES, altair_finality_answer, "B", "sf",
  1u << 1 | 1u << 2 | 1u << 3 | 1u << 4 | 1u << 5, LIST(-1), LIST(EXACT(1, 32 * c->s.slots_per_historical_root)),
  LIST(.refusal = 0, .finality = c->f), altair_why_weigh_justification_and_finalization, c->s, IN(0), c->f,
  c->totals[0], c->totals[1], c->totals[2])
X(altair_unknown_votes, VALUES, altair_votes_answer, "BRM", "sf", 1u << 1 | 1u << 2 | 1u << 3 | 1u << 4 | 1u << 5,
  LIST(-1), LIST(EXACT(1, 32 * c->s.slots_per_historical_root), ANY(8), EXACT(8, (c->in[1].length / 10))),
  LIST(.refusal = 0), altair_why_unknown_votes, c->s, IN(0), c->f, IN(1), IN(2))
X(deneb_process_registry_updates, VALUES, altair_queue_answer, "R>R", "sBmtzq",
  1u << 1 | 1u << 2 | 1u << 3 | 1u << 8 | 1u << 5, LIST(0), LIST(ANY(8), EXACT(8, c->in[0].length)),
  LIST(.refusal = 0, .queue = c->queue), altair_why_deneb_process_registry_updates,
  ((altair_deneb_rules){.settings = c->s, .bellatrix = c->rules.bellatrix, .max_per_epoch_activation_churn_limit = c->activation_churn}),
  c->slot, c->finalized, c->queue, IN(0), OUT(0))
X(deneb_close, VALUES, altair_full_answer, "RSB>RSA", "sBmfq",
  1u << 1 | 1u << 2 | 1u << 3 | 1u << 8 | 1u << 4 | 1u << 5, LIST(0, 1, -1), LIST(ANY(8),
  EXACT(8, c->s.epochs_per_slashings_vector), EXACT(1, 32 * c->s.slots_per_historical_root),
  EXACT(8, c->in[0].length), EXACT(8, c->in[1].length), EXACT(8, 9 * (c->in[0].length / 10))), LIST(.refusal = 0,
  .finality = c->f, .queue = c->queue), altair_why_deneb_close,
  ((altair_deneb_rules){.settings = c->s, .bellatrix = c->rules.bellatrix, .max_per_epoch_activation_churn_limit = c->activation_churn}),
  c->f, c->queue, IN(0), IN(1), IN(2), OUT(0), OUT(1), OUT(2))
X(electra_close, VALUES, altair_electra_answer, "RKSBDE>YYSYYWZ", "sbf",
  1u << 1 | 1u << 2 | 1u << 3 | 1u << 4 | 1u << 5, LIST(0, 1, 2, 4, 5, -1, -1), LIST(ANY(8),
  EXACT(8, (c->in[0].length / 10)), EXACT(8, c->s.epochs_per_slashings_vector),
  EXACT(1, 32 * c->s.slots_per_historical_root), ANY(8), ANY(8),
  EXACT(8, 10 * ((c->in[0].length / 10) + (c->in[4].length / 5))),
  EXACT(8, (c->in[0].length / 10) + (c->in[4].length / 5)), EXACT(8, c->in[2].length), EXACT(8, c->in[4].length),
  EXACT(8, c->in[5].length), EXACT(8, 12 * ((c->in[0].length / 10) + (c->in[4].length / 5))),
  EXACT(8, (c->in[4].length / 5))), LIST(.refusal = 0, .finality = c->f, .validators = c->in[0].length / 10,
  .deposits = c->in[4].length / 5, .consolidations = c->in[5].length / 2,
  .deposit_balance_to_consume = c->deposits.deposit_balance_to_consume, .churn = c->churn), altair_why_electra_close,
  c->electra, c->f, c->churn, c->deposits, IN(0), IN(1), IN(2), IN(3), IN(4), IN(5), OUT(0), OUT(1), OUT(2), OUT(3),
  OUT(4), OUT(5), OUT(6))
X(electra_process_registry_updates, VALUES, altair_exit_churn_answer, "R>R", "sbtz",
  1u << 1 | 1u << 2 | 1u << 3 | 1u << 5, LIST(0), LIST(ANY(8), EXACT(8, c->in[0].length)), LIST(.refusal = 0,
  .churn = c->churn), altair_why_electra_process_registry_updates, c->electra, c->slot, c->finalized, c->churn, IN(0),
  OUT(0))
X(electra_process_slashings, NUMBER, uint64_t, "SR>R", "sbt", 1u << 1 | 1u << 2 | 1u << 3 | 1u << 5, LIST(1),
  LIST(EXACT(8, c->s.epochs_per_slashings_vector), ANY(8), EXACT(8, c->in[1].length)), LIST(0),
  altair_why_electra_process_slashings, c->electra, c->slot, IN(0), IN(1), OUT(0))
X(electra_process_pending_deposits, VALUES, altair_deposits_answer, "RKD>YYYZ", "sbtz",
  1u << 1 | 1u << 2 | 1u << 3 | 1u << 5, LIST(0, 1, 2, -1), LIST(ANY(8), EXACT(8, (c->in[0].length / 10)), ANY(8),
  EXACT(8, 10 * ((c->in[0].length / 10) + (c->in[2].length / 5))),
  EXACT(8, (c->in[0].length / 10) + (c->in[2].length / 5)), EXACT(8, c->in[2].length),
  EXACT(8, (c->in[2].length / 5))), LIST(.refusal = 0,
  .deposit_balance_to_consume = c->deposits.deposit_balance_to_consume, .validators = c->in[0].length / 10,
  .deposits = c->in[2].length / 5), altair_why_electra_process_pending_deposits, c->electra, c->slot, c->finalized,
  c->deposits, IN(0), IN(1), IN(2), OUT(0), OUT(1), OUT(2), OUT(3))
X(electra_process_pending_consolidations, VALUES, altair_consolidations_answer, "RE>RY", "sbt",
  1u << 1 | 1u << 2 | 1u << 3 | 1u << 5, LIST(0, 1), LIST(ANY(8), ANY(8), EXACT(8, c->in[0].length),
  EXACT(8, c->in[1].length)), LIST(.refusal = 0, .consolidations = c->in[1].length / 2),
  altair_why_electra_process_pending_consolidations, c->electra, c->slot, IN(0), IN(1), OUT(0), OUT(1))
X(electra_process_effective_balance_updates, NUMBER, uint64_t, "KR>R", "sb", 1u << 1 | 1u << 2 | 1u << 3 | 1u << 5,
  LIST(1), LIST(EXACT(8, (c->in[1].length / 10)), ANY(8), EXACT(8, c->in[1].length)), LIST(0),
  altair_why_electra_process_effective_balance_updates, c->electra, IN(0), IN(1), OUT(0))
X(electra_get_balance_churn_limit, VALUES, altair_number_answer, "R", "sbt", 1u << 1 | 1u << 2 | 1u << 3 | 1u << 5,
  LIST(-1), LIST(ANY(8)), LIST(.refusal = 0), altair_why_electra_get_balance_churn_limit, c->electra, c->slot, IN(0))
X(electra_get_activation_exit_churn_limit, VALUES, altair_number_answer, "R", "sbt",
  1u << 1 | 1u << 2 | 1u << 3 | 1u << 5, LIST(-1), LIST(ANY(8)), LIST(.refusal = 0),
  altair_why_electra_get_activation_exit_churn_limit, c->electra, c->slot, IN(0))
X(electra_get_max_effective_balance, VALUES, altair_number_answer, "", "sbh", 1u << 1 | 1u << 2 | 1u << 3, LIST(-1),
  LIST(ANY(8)), LIST(.refusal = 0), altair_why_electra_get_max_effective_balance, c->electra, c->number)
X(electra_compute_exit_epoch_and_update_churn, VALUES, altair_exit_churn_answer, "R", "sbt",
  1u << 1 | 1u << 2 | 1u << 3 | 1u << 5, LIST(-1), LIST(ANY(8)), LIST(.refusal = 0, .churn = c->churn),
  altair_why_electra_compute_exit_epoch_and_update_churn, c->electra, c->slot, c->churn, c->number, IN(0))
X(electra_initiate_validator_exit, VALUES, altair_exit_churn_answer, ">r", "sbti",
  1u << 1 | 1u << 2 | 1u << 3 | 1u << 5, LIST(-1), LIST(ANY(8)), LIST(.refusal = 0, .churn = c->churn),
  altair_why_electra_initiate_validator_exit, c->electra, c->slot, c->index, c->churn, OUT(0))
X(altair_checked_close, VALUES, altair_full_answer, "TRSB>RSA", "fq",
  1u << 1 | 1u << 2 | 1u << 13 | 1u << 3 | 1u << 8 | 1u << 4 | 1u << 5, LIST(1, 2, -1), LIST(ANY(8), ANY(8),
  OF_STORE(8, c->s.epochs_per_slashings_vector), OF_STORE(1, 32 * c->s.slots_per_historical_root),
  EXACT(8, c->in[1].length), EXACT(8, c->in[2].length), EXACT(8, 9 * (c->in[1].length / 10))), LIST(.refusal = 0,
  .finality = c->f, .queue = c->queue), altair_why_close, IN(0), c->count, c->f, c->queue, IN(1), IN(2), IN(3),
  OUT(0), OUT(1), OUT(2))
X(altair_checked_read_file, READ, altair_read_answer, "F>RS", "", 1u << 6 | 1u << 1 | 1u << 2 | 1u << 3 | 1u << 8,
  LIST(-1, -1), LIST(ANY(1), ANY(8), ANY(8)), LIST(.refusal = 0), altair_why_read_file, IN(0), OUT(0), OUT(1))
X(altair_checked_write_file, NUMBER, uint64_t, "RBS>F", "sfq", 1u << 1 | 1u << 2 | 1u << 3 | 1u << 8, LIST(-1),
  LIST(ANY(8), EXACT(1, 32 * c->s.slots_per_historical_root), EXACT(8, c->s.epochs_per_slashings_vector),
  EXACT(1, 384 + 80 * (c->in[0].length / 10) + 32 * c->s.slots_per_historical_root + 8 * c->s.epochs_per_slashings_vector)),
  LIST(0), altair_why_write_file, c->s, c->f, c->queue, IN(0), IN(1), IN(2), OUT(0))
X(altair_checked_close_shelf, NUMBER, uint64_t, "HL>CZZX", "", 1u << 1, LIST(0, -1, -1, 1), LIST(ANY(1), ANY(8),
  EXACT(1, c->in[0].length), LEAST(8, (longest(&c->in[1]) + 7) / 8), LEAST(8, (longest(&c->in[1]) + 7) / 8),
  EXACT(8, c->in[1].length)), LIST(0), altair_why_close_shelf, IN(0), IN(1), OUT(0), OUT(1), OUT(2), OUT(3),
  c->rules.fork, c->rules.bellatrix)
X(altair_checked_close_step, RUNNING, altair_running_answer, "TRSB>rsa", "jfq",
  1u << 1 | 1u << 2 | 1u << 13 | 1u << 3 | 1u << 8 | 1u << 4 | 1u << 5, LIST(1, 2, -1), LIST(ANY(8), ANY(8),
  OF_STORE(8, c->s.epochs_per_slashings_vector), OF_STORE(1, 32 * c->s.slots_per_historical_root),
  EXACT(8, c->in[1].length), EXACT(8, c->in[2].length), EXACT(8, 9 * (c->in[1].length / 10))), LIST(.refusal = 0,
  .running = c->running), altair_why_close_step, c->number, c->running, IN(0), c->count, c->f, c->queue, IN(1), IN(2),
  IN(3), OUT(0), OUT(1), OUT(2))
X(altair_checked_carry_out, RUNNING, altair_running_answer, "TO>rm", "fqy",
  1u << 1 | 1u << 2 | 1u << 13 | 1u << 3 | 1u << 8, LIST(-1, -1), LIST(ANY(8), ANY(8), ANY(8),
  EXACT(8, c->in[1].length / 2)), LIST(.refusal = 0, .running = c->running), altair_why_carry_out, IN(0), c->count,
  c->number, c->running, OUT(0), IN(1), OUT(1))
X(altair_checked_process_inactivity_updates, NUMBER, uint64_t, "R>R", "stz", 1u << 1 | 1u << 2 | 1u << 3 | 1u << 5,
  LIST(0), LIST(ANY(8), EXACT(8, c->in[0].length)), LIST(0), altair_why_process_inactivity_updates, c->s, c->slot,
  c->finalized, IN(0), OUT(0))
X(altair_checked_process_rewards_and_penalties, NUMBER, uint64_t, "R>R", "sktz",
  1u << 1 | 1u << 2 | 1u << 3 | 1u << 5, LIST(0), LIST(ANY(8), EXACT(8, c->in[0].length)), LIST(0),
  altair_why_process_rewards_and_penalties, c->rules, c->slot, c->finalized, IN(0), OUT(0))
X(altair_checked_process_registry_updates, VALUES, altair_queue_answer, "R>R", "stzq",
  1u << 1 | 1u << 2 | 1u << 3 | 1u << 8 | 1u << 5, LIST(0), LIST(ANY(8), EXACT(8, c->in[0].length)),
  LIST(.refusal = 0, .queue = c->queue), altair_why_process_registry_updates, c->s, c->slot, c->finalized, c->queue,
  IN(0), OUT(0))
X(altair_checked_process_registry_updates_to, VALUES, altair_queue_answer, "R>R", "ostzq",
  1u << 1 | 1u << 2 | 1u << 3 | 1u << 8 | 1u << 5, LIST(0), LIST(ANY(8), EXACT(8, c->in[0].length)),
  LIST(.refusal = 0, .queue = c->queue), altair_why_process_registry_updates_to, c->index, c->s, c->slot,
  c->finalized, c->queue, IN(0), OUT(0))
X(altair_checked_process_slashings, NUMBER, uint64_t, "SR>R", "skt", 1u << 1 | 1u << 2 | 1u << 3 | 1u << 5, LIST(1),
  LIST(EXACT(8, c->s.epochs_per_slashings_vector), ANY(8), EXACT(8, c->in[1].length)), LIST(0),
  altair_why_process_slashings, c->rules, c->slot, IN(0), IN(1), OUT(0))
X(altair_checked_process_effective_balance_updates, NUMBER, uint64_t, "R>R", "s",
  1u << 1 | 1u << 2 | 1u << 3 | 1u << 5, LIST(0), LIST(ANY(8), EXACT(8, c->in[0].length)), LIST(0),
  altair_why_process_effective_balance_updates, c->s, IN(0), OUT(0))
X(altair_checked_process_slashings_reset, NUMBER, uint64_t, "S>S", "st", 1u << 1 | 1u << 2 | 1u << 3, LIST(0),
  LIST(EXACT(8, c->s.epochs_per_slashings_vector), EXACT(8, c->in[0].length)), LIST(0),
  altair_why_process_slashings_reset, c->s, c->slot, IN(0), OUT(0))
X(altair_checked_process_participation_flag_updates, NUMBER, uint64_t, "R>R", "", 1u << 1 | 1u << 3, LIST(0),
  LIST(ANY(8), EXACT(8, c->in[0].length)), LIST(0), altair_why_process_participation_flag_updates, IN(0), OUT(0))
X(altair_checked_deneb_process_registry_updates, VALUES, altair_queue_answer, "R>R", "sBmtzq",
  1u << 1 | 1u << 2 | 1u << 3 | 1u << 8 | 1u << 5, LIST(0), LIST(ANY(8), EXACT(8, c->in[0].length)),
  LIST(.refusal = 0, .queue = c->queue), altair_why_deneb_process_registry_updates,
  ((altair_deneb_rules){.settings = c->s, .bellatrix = c->rules.bellatrix, .max_per_epoch_activation_churn_limit = c->activation_churn}),
  c->slot, c->finalized, c->queue, IN(0), OUT(0))
X(altair_checked_deneb_close, VALUES, altair_full_answer, "RSB>RSA", "sBmfq",
  1u << 1 | 1u << 2 | 1u << 3 | 1u << 8 | 1u << 4 | 1u << 5, LIST(0, 1, -1), LIST(ANY(8),
  EXACT(8, c->s.epochs_per_slashings_vector), EXACT(1, 32 * c->s.slots_per_historical_root),
  EXACT(8, c->in[0].length), EXACT(8, c->in[1].length), EXACT(8, 9 * (c->in[0].length / 10))), LIST(.refusal = 0,
  .finality = c->f, .queue = c->queue), altair_why_deneb_close,
  ((altair_deneb_rules){.settings = c->s, .bellatrix = c->rules.bellatrix, .max_per_epoch_activation_churn_limit = c->activation_churn}),
  c->f, c->queue, IN(0), IN(1), IN(2), OUT(0), OUT(1), OUT(2))
X(altair_checked_electra_close, VALUES, altair_electra_answer, "RKSBDE>YYSYYWZ", "sbf",
  1u << 1 | 1u << 2 | 1u << 3 | 1u << 4 | 1u << 5, LIST(0, 1, 2, 4, 5, -1, -1), LIST(ANY(8),
  EXACT(8, (c->in[0].length / 10)), EXACT(8, c->s.epochs_per_slashings_vector),
  EXACT(1, 32 * c->s.slots_per_historical_root), ANY(8), ANY(8),
  EXACT(8, 10 * ((c->in[0].length / 10) + (c->in[4].length / 5))),
  EXACT(8, (c->in[0].length / 10) + (c->in[4].length / 5)), EXACT(8, c->in[2].length), EXACT(8, c->in[4].length),
  EXACT(8, c->in[5].length), EXACT(8, 12 * ((c->in[0].length / 10) + (c->in[4].length / 5))),
  EXACT(8, (c->in[4].length / 5))), LIST(.refusal = 0, .finality = c->f, .validators = c->in[0].length / 10,
  .deposits = c->in[4].length / 5, .consolidations = c->in[5].length / 2,
  .deposit_balance_to_consume = c->deposits.deposit_balance_to_consume, .churn = c->churn), altair_why_electra_close,
  c->electra, c->f, c->churn, c->deposits, IN(0), IN(1), IN(2), IN(3), IN(4), IN(5), OUT(0), OUT(1), OUT(2), OUT(3),
  OUT(4), OUT(5), OUT(6))
X(altair_checked_electra_process_registry_updates, VALUES, altair_exit_churn_answer, "R>R", "sbtz",
  1u << 1 | 1u << 2 | 1u << 3 | 1u << 5, LIST(0), LIST(ANY(8), EXACT(8, c->in[0].length)), LIST(.refusal = 0,
  .churn = c->churn), altair_why_electra_process_registry_updates, c->electra, c->slot, c->finalized, c->churn, IN(0),
  OUT(0))
X(altair_checked_electra_process_slashings, NUMBER, uint64_t, "SR>R", "sbt", 1u << 1 | 1u << 2 | 1u << 3 | 1u << 5,
  LIST(1), LIST(EXACT(8, c->s.epochs_per_slashings_vector), ANY(8), EXACT(8, c->in[1].length)), LIST(0),
  altair_why_electra_process_slashings, c->electra, c->slot, IN(0), IN(1), OUT(0))
X(altair_checked_electra_process_pending_deposits, VALUES, altair_deposits_answer, "RKD>YYYZ", "sbtz",
  1u << 1 | 1u << 2 | 1u << 3 | 1u << 5, LIST(0, 1, 2, -1), LIST(ANY(8), EXACT(8, (c->in[0].length / 10)), ANY(8),
  EXACT(8, 10 * ((c->in[0].length / 10) + (c->in[2].length / 5))),
  EXACT(8, (c->in[0].length / 10) + (c->in[2].length / 5)), EXACT(8, c->in[2].length),
  EXACT(8, (c->in[2].length / 5))), LIST(.refusal = 0,
  .deposit_balance_to_consume = c->deposits.deposit_balance_to_consume, .validators = c->in[0].length / 10,
  .deposits = c->in[2].length / 5), altair_why_electra_process_pending_deposits, c->electra, c->slot, c->finalized,
  c->deposits, IN(0), IN(1), IN(2), OUT(0), OUT(1), OUT(2), OUT(3))
X(altair_checked_electra_process_pending_consolidations, VALUES, altair_consolidations_answer, "RE>RY", "sbt",
  1u << 1 | 1u << 2 | 1u << 3 | 1u << 5, LIST(0, 1), LIST(ANY(8), ANY(8), EXACT(8, c->in[0].length),
  EXACT(8, c->in[1].length)), LIST(.refusal = 0, .consolidations = c->in[1].length / 2),
  altair_why_electra_process_pending_consolidations, c->electra, c->slot, IN(0), IN(1), OUT(0), OUT(1))
X(altair_checked_electra_process_effective_balance_updates, NUMBER, uint64_t, "KR>R", "sb",
  1u << 1 | 1u << 2 | 1u << 3 | 1u << 5, LIST(1), LIST(EXACT(8, (c->in[1].length / 10)), ANY(8),
  EXACT(8, c->in[1].length)), LIST(0), altair_why_electra_process_effective_balance_updates, c->electra, IN(0), IN(1),
  OUT(0))
