"""Slips: the model with one rule wrong. Each names the call at which it must be noticed, and then pieces of text.py or calls.py and what
replaces them; a piece stands there once."""
REGISTRY, SLASHINGS, DEPOSITS = "electra_process_registry_updates", "electra_process_slashings", "electra_process_pending_deposits"
CONSOLIDATIONS, EFFECTIVE, EXIT = "electra_process_pending_consolidations", "electra_process_effective_balance_updates", "electra_initiate_validator_exit"
DENEB, DENEB_CLOSE, CLOSE, COMPUTE = "deneb_process_registry_updates", "deneb_close", "electra_close", "electra_compute_exit_epoch_and_update_churn"
BALANCE_LIMIT, EXIT_LIMIT, MAXIMUM = "electra_get_balance_churn_limit", "electra_get_activation_exit_churn_limit", "electra_get_max_effective_balance"
ALTAIR_CLOSE = "altair_close"

SLIPS = {
    # Altair's and Bellatrix's
    "three quarters justify": (ALTAIR_CLOSE, "u64(previous_target * 3) >= u64(total * 2)", "u64(previous_target * 4) >= u64(total * 3)"),
    "an empty target is 0": (
        ALTAIR_CLOSE,
        "current_target = total_balance(state, current_indices)",
        "current_target = plain_total(state, current_indices)"),
    "the finality tests read the new checkpoints": (
        ALTAIR_CLOSE,
        "if all(bits[0:2]) and u64(old_current[0] + 1) == current:\n        state.finalized = old_current",
        "if all(bits[0:2]) and u64(old_current[0] + 1) == current:\n        state.finalized = state.current_justified"),
    "rewards before all penalties": (
        "altair_process_rewards_and_penalties",
        "in zip((0, 2, 4, 6), deltas):",
        "in [(0, (rewards, [0 for _ in rewards])) for rewards, _ in deltas] + [(0, ([0 for _ in penalties], penalties)) for _, penalties in "
        "deltas]:"),
    "the four pairs from the last": (ALTAIR_CLOSE, "in zip((0, 2, 4, 6), deltas):", "in zip((6, 4, 2, 0), deltas[::-1]):"),
    "the leak is read only under a hit": (
        "altair_process_rewards_and_penalties",
        "    leak = is_in_inactivity_leak(state)  # row `nobody_hits`: before the loop\n",
        "",
        "            if not leak:\n                numerator",
        "            if not is_in_inactivity_leak(state):\n                numerator"),
    "the leak is read only where somebody is eligible": (
        "altair_process_inactivity_updates",
        "    leak = is_in_inactivity_leak(state)  # row `nobody_eligible`: before the loop\n",
        "",
        "        if not leak:\n            recovery",
        "        if not is_in_inactivity_leak(state):\n            recovery"),
    "thresholds only where somebody is": (
        "altair_process_effective_balance_updates",
        "    downward = u64(hysteresis * rules.hysteresis_downward_multiplier)  # row",
        "    if not state.validators:\n        return\n    downward = u64(hysteresis * rules.hysteresis_downward_multiplier)  # row"),
    "a slashing penalty divides last": (
        ALTAIR_CLOSE,
        "u64(numerator // total * rules.effective_balance_increment)",
        "u64(numerator * rules.effective_balance_increment) // total"),
    # Deneb's
    "ejections by the smaller limit": (DENEB, "exit_queue_churn >= churn_limit(state)", "exit_queue_churn >= activation_churn_limit(state)"),
    "the limit before the minimum": (
        DENEB,
        "min(state.rules.max_per_epoch_activation_churn_limit, churn_limit(state))",
        "state.rules.max_per_epoch_activation_churn_limit"),
    "the limit inside the maximum": (
        DENEB,
        "min(state.rules.max_per_epoch_activation_churn_limit, churn_limit(state))",
        "max(state.rules.min_per_epoch_churn_limit, min(state.rules.max_per_epoch_activation_churn_limit, len(active_indices(state, "
        "current_epoch(state))) // state.rules.churn_limit_quotient))"),
    "0 taken for no limit": (
        DENEB,
        "min(state.rules.max_per_epoch_activation_churn_limit, churn_limit(state))",
        "min(state.rules.max_per_epoch_activation_churn_limit or churn_limit(state), churn_limit(state))"),
    "Deneb's limit is not tested": (
        DENEB,
        "    if any(number >= SMALL for number in named.values())",
        "    named.pop('max_per_epoch_activation_churn_limit', 0)\n    if any(number >= SMALL for number in named.values())"),
    "a Deneb close by Altair's limit": (DENEB_CLOSE, 'if state.rules.fork == "deneb":', 'if state.rules.fork == "none":'),
    "a Deneb close by Altair's pair": (DENEB_CLOSE, 'altair = fork == "altair"', 'altair = fork in ("altair", "deneb")'),
    "any pair of the exit queue": (DENEB_CLOSE, ", (8, paired))", ")"),
    # Electra's steps
    "exits by count": (
        REGISTRY,
        "compute_exit_epoch_and_update_churn(state, validator.effective_balance)",
        "compute_exit_epoch_and_update_churn(state, state.rules.effective_balance_increment)"),
    "every exit from the opening's two churn numbers": (
        REGISTRY,
        "    state.earliest_exit_epoch = earliest\n    return state.earliest_exit_epoch",
        "    return earliest"),
    "an exit that fits exactly takes another epoch": (
        COMPUTE,
        "u64(u64(balance_to_process - 1) // per_epoch_churn + 1)",
        "u64(balance_to_process // per_epoch_churn + 1)"),
    "an exit of just what is left does not fit": (REGISTRY, "if exit_balance > to_consume:", "if exit_balance >= to_consume and exit_balance:"),
    "what is left of an old epoch is carried": (
        EXIT,
        "        to_consume = per_epoch_churn\n",
        "        to_consume = state.exit_balance_to_consume\n"),
    "an exit is moved that is set": (
        EXIT,
        "    if validator.exit_epoch != FAR:\n        return\n    exit_queue_epoch = compute",
        "    exit_queue_epoch = compute"),
    "the churn limit is not rounded": (BALANCE_LIMIT, "return u64(churn - churn % rules.effective_balance_increment)", "return churn"),
    "the churn limit has no maximum": (
        EXIT_LIMIT,
        "min(state.rules.max_per_epoch_activation_exit_churn_limit, get_balance_churn_limit(state))",
        "get_balance_churn_limit(state)"),
    "the maximum before the rounding": (
        EXIT_LIMIT,
        "churn = max(rules.min_per_epoch_churn_limit_electra, total_active_balance(state) // rules.churn_limit_quotient)",
        "churn = min(rules.max_per_epoch_activation_exit_churn_limit, max(rules.min_per_epoch_churn_limit_electra, total_active_balance(state) "
        "// rules.churn_limit_quotient))"),
    "credentials change places": (MAXIMUM, "    if compounding:\n", "    if not compounding:\n"),
    "the three cases are tried one after the other": (
        REGISTRY,
        "        elif is_eligible_for_activation(state, validator):",
        "        if is_eligible_for_activation(state, validator):"),
    "ejected although just queued": (REGISTRY, "        elif is_active(validator, current) and", "        if is_active(validator, current) and"),
    "ejected only below the ejection balance": (
        REGISTRY,
        "        elif is_active(validator, current) and validator.effective_balance <= state.rules.ejection_balance",
        "        elif is_active(validator, current) and validator.effective_balance < state.rules.ejection_balance"),
    "queued at the maximum alone": (
        REGISTRY,
        "validator.effective_balance >= state.rules.min_activation_balance",
        "validator.effective_balance == state.rules.min_activation_balance"),
    "the total is summed also where nobody leaves": (
        REGISTRY,
        "    activation_epoch = activation_exit_epoch(state)\n",
        "    activation_epoch = activation_exit_epoch(state)\n    total_active_balance(state)\n"),
    "the slashing penalty is Bellatrix's": (
        SLASHINGS,
        "u64(penalty_per_increment * increments)",
        "increments * adjusted // total * rules.effective_balance_increment"),
    "a slashing is due one epoch later": (
        SLASHINGS,
        "u64(epoch + rules.epochs_per_slashings_vector // 2) == validator.withdrawable_epoch:\n            increments",
        "u64(epoch + 1 + rules.epochs_per_slashings_vector // 2) == validator.withdrawable_epoch:\n            increments"),
    "a postponed deposit keeps its place": (DEPOSITS, "[*state.deposits[next_deposit:], *postponed]", "[*postponed, *state.deposits[next_deposit:]]"),
    "churn for a validator that has left": (
        DEPOSITS,
        "        if withdrawn:\n",
        "        if withdrawn:\n            processed = u64(processed + amount)\n"),
    "what was carried is kept": (DEPOSITS, "        state.deposit_balance_to_consume = 0\n", "        pass\n"),
    "what was carried is forgotten": (
        DEPOSITS,
        "u64(state.deposit_balance_to_consume + get_activation_exit_churn_limit(state))",
        "get_activation_exit_churn_limit(state)"),
    "an invalid new key consumes no churn": (
        DEPOSITS,
        "            processed = u64(processed + amount)\n",
        "            processed = u64(processed + (amount if validator is not None or deposit[4] else 0))\n"),
    "a deposit of just what is left reaches the limit": (DEPOSITS, "u64(processed + amount) > available", "u64(processed + amount) >= available"),
    "a deposit at the finalized slot waits": (DEPOSITS, "slot > finalized_slot", "slot >= finalized_slot"),
    "the bridge's end is one later": (
        DEPOSITS,
        "state.eth1_deposit_index < state.deposit_requests_start_index",
        "state.eth1_deposit_index <= state.deposit_requests_start_index"),
    "deposits of slot 0 wait for the bridge": (DEPOSITS, "if slot > 0 and state.eth1", "if state.eth1"),
    "one deposit more an epoch": (DEPOSITS, "next_deposit >= state.rules.max", "next_deposit > state.rules.max"),
    "postponed deposits are not counted": (
        DEPOSITS,
        "        next_deposit = u64(next_deposit + 1)\n    state.taken",
        "        next_deposit = u64(next_deposit + 1)\n        counted = counted if exited and not withdrawn else counted + 1\n    state.taken",
        "        if next_deposit >= state.rules.max",
        "        if counted >= state.rules.max",
        "    finalized_slot = u64(",
        "    counted = 0\n    finalized_slot = u64("),
    "withdrawable at the next epoch has left": (
        DEPOSITS,
        "withdrawn = validator.withdrawable_epoch < next_epoch",
        "withdrawn = validator.withdrawable_epoch <= next_epoch"),
    "the last deposit first": (DEPOSITS, "for deposit in state.deposits:", "for deposit in state.deposits[::-1]:"),
    "the queue is never worked off": (DEPOSITS, "        if slot > finalized_slot:\n", "        if slot > finalized_slot or True:\n"),
    "the same new key becomes two validators": (
        DEPOSITS,
        "    validator = validator_of(state, key)\n    if validator is None:",
        "    validator = validator_of(state, key) if key in state.known else None\n    if validator is None:",
        "    processed, next_deposit, postponed, limit_reached = 0, 0, [], False\n",
        "    processed, next_deposit, postponed, limit_reached = 0, 0, [], False\n"
        "    state.known = {validator.key for validator in state.validators}\n"),
    "a known key's deposit needs a valid signature": (
        DEPOSITS,
        "        increase_balance(validator, amount)\n        validator.amounts[9]",
        "        increase_balance(validator, amount if valid else 0)\n        validator.amounts[9]"),
    "a known key's deposit sets its credentials": (
        DEPOSITS,
        "        increase_balance(validator, amount)\n        validator.amounts[9]",
        "        increase_balance(validator, amount)\n        validator.compounding = compounding\n        validator.amounts[9]"),
    "an empty queue works out nothing": (
        DEPOSITS,
        "    next_epoch = u64(current_epoch(state) + 1)\n    available",
        "    if not state.deposits:\n        state.deposit_balance_to_consume = 0\n        return\n    next_epoch = u64(current_epoch(state) + 1)\n"
        "    available"),
    "the finalized slot may leave 64 bits": (
        DEPOSITS,
        "u64(state.finalized[0] * state.rules.slots_per_epoch)",
        "state.finalized[0] * state.rules.slots_per_epoch"),
    "a new validator's balance is all effective": (
        DEPOSITS,
        "min(u64(amount - amount % state.rules.effective_balance_increment), maximum)",
        "min(amount, maximum)"),
    "one maximum for new validators": (
        DEPOSITS,
        "maximum = get_max_effective_balance(state.rules, compounding)",
        "maximum = state.rules.max_effective_balance_electra"),
    "a source that is its own target loses": (
        CONSOLIDATIONS,
        "        increase_balance(target, moved)\n",
        "        increase_balance(target, moved if target is not source else 0)\n"),
    "a slashed source stops the queue": (
        CONSOLIDATIONS,
        "            continue\n        if source.withdrawable",
        "            break\n        if source.withdrawable"),
    "a slashed target stops the queue": (
        CONSOLIDATIONS,
        "        moved = min(",
        "        if state.validators[target_index].slashed:\n            break\n        moved = min("),
    "the whole balance is moved": (CONSOLIDATIONS, "min(source.balance, source.effective_balance)", "source.balance"),
    "withdrawable at the next epoch stops": (CONSOLIDATIONS, "source.withdrawable_epoch > next_epoch", "source.withdrawable_epoch >= next_epoch"),
    "one maximum for all": (EFFECTIVE, "get_max_effective_balance(rules, validator.compounding)", "rules.max_effective_balance_electra"),
    "a threshold that is met is passed": (
        EFFECTIVE,
        "u64(validator.effective_balance + upward) < balance",
        "u64(validator.effective_balance + upward) <= balance"),
    "thresholds also of nobody": (
        EFFECTIVE,
        "    rules = state.rules\n    for validator in state.validators:\n        hysteresis",
        "    rules = state.rules\n    u64(rules.effective_balance_increment // rules.hysteresis_quotient * rules.hysteresis_upward_multiplier)\n"
        "    for validator in state.validators:\n        hysteresis"),
    # of the tests, and of what is left in the closing buffers
    "a key of N + D passes": (DEPOSITS, "deposit[0] >= n + len(deposits) // 5", "deposit[0] > n + len(deposits) // 5"),
    "a valid of 2 passes": (DEPOSITS, "valid <= 1", "valid <= 2"),
    "a deposit's slot of 2^48 passes": (DEPOSITS, "slot < SMALL for", "slot <= SMALL for"),
    "half a consolidation passes": (CONSOLIDATIONS, " or len(consolidations) % 2 or", " or"),
    "a validator with no credentials passes": (
        EFFECTIVE,
        '        "compounding": n,\n',
        '        "compounding": min(n, len(call["compounding"])) if isinstance(call.get("compounding"), list) else n,\n'),
    "the least churn may be below the increment": (
        BALANCE_LIMIT,
        '        if named["min_per_epoch_churn_limit_electra"] < named["effective_balance_increment"]:\n            return False\n',
        ""),
    "the most churn may be 0": (EXIT_LIMIT, '        if named["max_per_epoch_activation_exit_churn_limit"] == 0:\n            return False\n', ""),
    "the record is tested before the settings": (REGISTRY, "(2, settings_good), (3, recorded)", "(3, recorded), (2, settings_good)"),
    "what stands behind is cleared": (DEPOSITS, "[*written, *buffer[len(written) :]]", "[*written, *(0 for _ in buffer[len(written) :])]"),
    "refused by 5, a closing buffer is left alone": (
        CONSOLIDATIONS,
        "{closing: over(opened[closing], call[closing]) for closing in made.closings}",
        "{closing: call[closing] for closing in made.closings}"),
    "refused by a test, a closing buffer has the opening": (
        SLASHINGS,
        "            return [number, *made.kept(call)], {closing: call[closing] for closing in made.closings}",
        "            return [number, *made.kept(call)], {closing: over(call[opening] if opening else [], call[closing]) for closing, opening in "
        "made.closings.items()}"),
    # Electra's whole close
    "the opening's finalized epoch": (
        CLOSE,
        "    process_justification_and_finalization(state)\n    process_inactivity_updates(state)\n    process_rewards_and_penalties(state)\n"
        "    process_registry_updates(state)\n    process_slashings(state)",
        "    before = state.finalized\n    process_justification_and_finalization(state)\n    process_inactivity_updates(state)\n"
        "    process_rewards_and_penalties(state)\n    after, state.finalized = state.finalized, before\n    process_registry_updates(state)\n"
        "    state.finalized = after\n    process_slashings(state)"),
    "deposits before slashings": (
        CLOSE,
        "    process_slashings(state)\n    process_pending_deposits(state)\n",
        "    process_pending_deposits(state)\n    process_slashings(state)\n"),
    "deposits before the registry": (
        CLOSE,
        "    process_registry_updates(state)\n    process_slashings(state)\n    process_pending_deposits(state)\n",
        "    process_pending_deposits(state)\n    process_registry_updates(state)\n    process_slashings(state)\n"),
    "consolidations before deposits": (
        CLOSE,
        "    process_pending_deposits(state)\n    process_pending_consolidations(state)\n",
        "    process_pending_consolidations(state)\n    process_pending_deposits(state)\n"),
    "effective balances before consolidations": (
        CLOSE,
        "    process_pending_consolidations(state)\n    process_effective_balance_updates(state)\n",
        "    process_effective_balance_updates(state)\n    process_pending_consolidations(state)\n"),
    "effective balances before deposits": (
        CLOSE,
        "    process_pending_deposits(state)\n    process_pending_consolidations(state)\n    process_effective_balance_updates(state)\n",
        "    process_effective_balance_updates(state)\n    process_pending_deposits(state)\n    process_pending_consolidations(state)\n"),
    "new validators keep their first effective balance": (
        CLOSE,
        "    process_pending_deposits(state)\n    process_pending_consolidations(state)\n    process_effective_balance_updates(state)\n",
        "    opened = len(state.validators)\n    process_pending_deposits(state)\n    process_pending_consolidations(state)\n"
        "    added = state.validators[opened:]\n    del state.validators[opened:]\n    process_effective_balance_updates(state)\n"
        "    state.validators.extend(added)\n"),
    "inactivity by Altair's quotient": (CLOSE, 'altair = fork == "altair"', 'altair = fork in ("altair", "electra")'),
    "rewards after the registry": (
        CLOSE,
        "    process_rewards_and_penalties(state)\n    process_registry_updates(state)\n    process_slashings(state)\n    process_pending",
        "    process_registry_updates(state)\n    process_slashings(state)\n    process_rewards_and_penalties(state)\n    process_pending"),
    "the flags are not rotated": (
        CLOSE,
        "    process_effective_balance_updates(state)\n    process_slashings_reset(state)\n    process_participation_flag_updates(state)\n",
        "    process_effective_balance_updates(state)\n    process_slashings_reset(state)\n"),
    "the slashings are not reset": (
        CLOSE,
        "    process_effective_balance_updates(state)\n    process_slashings_reset(state)\n",
        "    process_effective_balance_updates(state)\n"),
    "nothing deposited with a new validator": (CLOSE, "            validator.amounts[9] = amount\n", ""),
    "only the last deposit is booked": (CLOSE, "validator.amounts[9] = u64(validator.amounts[9] + amount)", "validator.amounts[9] = amount"),
    "out and in change places": (
        CLOSE,
        "source.amounts[10] = sum([source.amounts[10], taken]) % 2**64\n        target.amounts[11] = sum([target.amounts[11], moved])",
        "source.amounts[11] = sum([source.amounts[11], taken]) % 2**64\n        target.amounts[10] = sum([target.amounts[10], moved])"),
    "nothing is booked of a source that is its own target": (
        CLOSE,
        "        source.amounts[10] = sum(",
        "        if source is target:\n            next_consolidation = u64(next_consolidation + 1)\n            continue\n"
        "        source.amounts[10] = sum("),
    "only the last consolidation is booked": (CLOSE, "sum([target.amounts[11], moved]) % 2**64", "moved"),
    "a slashing is booked before it is cut": (
        CLOSE,
        "            validator.amounts[8] = decrease_balance(validator, u64(penalty_per_increment * increments))",
        "            decrease_balance(validator, u64(penalty_per_increment * increments))\n"
        "            validator.amounts[8] = penalty_per_increment * increments"),
    "the amounts stay after a refusal": (CLOSE, '[0] * (12 if "deposits" in call else 9) * n if opening is None', "[] if opening is None"),
    "zeros for every deposit after a refusal": (
        CLOSE,
        '[0] * (12 if "deposits" in call else 9) * n if opening is None',
        "[0] * len(call[closing]) if opening is None"),
    "a new validator's effective balance refuses nothing": (
        CLOSE,
        "    process_pending_deposits(state)\n    process_pending_consolidations(state)\n    process_effective_balance_updates(state)\n",
        "    opened = len(state.validators)\n    process_pending_deposits(state)\n    process_pending_consolidations(state)\n"
        "    everyone = state.validators\n    state.validators = everyone[:opened]\n    process_effective_balance_updates(state)\n"
        "    state.validators = everyone[opened:]\n    try:\n        process_effective_balance_updates(state)\n    except Refused:\n        pass\n"
        "    state.validators = everyone\n"),
    "refused, what stands behind is cleared": (
        CLOSE,
        "{closing: over(opened[closing], call[closing]) for closing in made.closings}",
        "{closing: [*opened[closing], *(0 for _ in call[closing][len(opened[closing]) :])] for closing in made.closings}"),
    "the answer counts the opening's validators": (
        CLOSE,
        "    left = [len(state.validators), len(state.deposits)",
        '    left = [len(call["registry"]) // 10, len(state.deposits)'),
    "the totals raised at any epoch": (
        CLOSE,
        "    if current <= 1:\n        return\n    previous_indices",
        "    if current <= 1:\n        state.raised = (1, 1, 1)\n        return\n    previous_indices"),
}
