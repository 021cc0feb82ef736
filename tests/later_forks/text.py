"""The epoch close from Altair to Fulu in unbounded integers, evaluated in 64 bits.

Written from the public text, phase0 to fulu beacon-chain.md as of version 1.5.0, from knowledge, and from documents 00 to 03 and the rows of
docs/DIFFERENCES.md. Whoever wrote it had read no definition, code or proof of this project, nor the model that stood here before.

Each function is the text's of that name, in its order of evaluation. u64 stands around every sum, difference and product: what leaves 64 bits
is refusal 5; a root out of range is 4. Capella's steps are Bellatrix's and Fulu's are Electra's. The amounts (02, R-4; 03, F-3), the raised
totals (R-7), the pair of the exit queue (R-8) and the finalizing test's number are kept beside the text's lines."""
from math import isqrt

FAR = 0xFFFFFFFFFFFFFFFF
SOURCE, TARGET, HEAD = 0, 1, 2
WEIGHTS = (14, 26, 14)
DENOMINATOR = 64

SETTINGS = """slots_per_epoch slots_per_historical_root epochs_per_slashings_vector effective_balance_increment max_effective_balance
hysteresis_quotient hysteresis_downward_multiplier hysteresis_upward_multiplier base_reward_factor min_epochs_to_inactivity_penalty
inactivity_score_bias inactivity_score_recovery_rate inactivity_penalty_quotient_altair proportional_slashing_multiplier_altair
max_seed_lookahead min_validator_withdrawability_delay ejection_balance min_per_epoch_churn_limit churn_limit_quotient""".split()
PAIR = ["inactivity_penalty_quotient_bellatrix", "proportional_slashing_multiplier_bellatrix"]
DENEB = ["max_per_epoch_activation_churn_limit"]
ELECTRA = """min_activation_balance max_effective_balance_electra min_per_epoch_churn_limit_electra
max_per_epoch_activation_exit_churn_limit max_pending_deposits_per_epoch""".split()
COLUMNS = """effective_balance slashed activation_eligibility_epoch activation_epoch exit_epoch withdrawable_epoch balance previous_flags
current_flags inactivity_score""".split()


class Refused(Exception):
    """4 or 5."""

    def __init__(self, number):
        super().__init__(number)
        self.number = number


def u64(number):
    if not 0 <= number < 2**64:
        raise Refused(5)
    return number


class Rules:
    """A fork's name and its numbers by name."""

    def __init__(self, fork, numbers):
        self.fork = fork
        self.__dict__.update(numbers)
        altair = fork == "altair"
        self.penalty_quotient = self.inactivity_penalty_quotient_altair if altair else self.inactivity_penalty_quotient_bellatrix
        self.multiplier = self.proportional_slashing_multiplier_altair if altair else self.proportional_slashing_multiplier_bellatrix


class Validator:
    """The ten numbers, whether its credentials are compounding, its key, and its twelve amounts."""

    __slots__ = (*COLUMNS, "compounding", "key", "amounts")

    def __init__(self, numbers, compounding, key):
        (self.effective_balance, self.slashed, self.activation_eligibility_epoch, self.activation_epoch, self.exit_epoch,
         self.withdrawable_epoch, self.balance, self.previous_flags, self.current_flags, self.inactivity_score) = numbers
        self.compounding, self.key, self.amounts = compounding, key, [0 for _ in range(12)]

    def numbers(self):
        return [getattr(self, name) for name in COLUMNS]


class State:
    """A record. Checkpoints are pairs (epoch, root), the bits a list of four, deposits lists (key, compounding, amount, slot, valid)."""

    def __init__(self, rules, slot, bits, checkpoints, validators, slashings, roots, churn=(0, 0), numbers=(0, 0, 0), deposits=(), consolidations=()):
        self.rules, self.slot, self.bits = rules, slot, [bits >> i & 1 for i in range(4)]
        self.previous_justified, self.current_justified, self.finalized = checkpoints
        self.validators, self.slashings, self.roots = validators, list(slashings), roots
        self.exit_balance_to_consume, self.earliest_exit_epoch = churn
        self.deposit_balance_to_consume, self.eth1_deposit_index, self.deposit_requests_start_index = numbers
        self.deposits, self.consolidations = list(deposits), list(consolidations)
        self.raised, self.test, self.taken = (0, 0, 0), 0, 0


# phase0: helpers


def current_epoch(state):
    return state.slot // state.rules.slots_per_epoch


def previous_epoch(state):
    current = current_epoch(state)
    if current == 0:
        return 0
    return u64(current - 1)


def is_active(validator, epoch):
    return validator.activation_epoch <= epoch < validator.exit_epoch


def is_eligible(validator, previous):
    if is_active(validator, previous):
        return True
    return bool(validator.slashed) and u64(previous + 1) < validator.withdrawable_epoch


def sum_of(numbers):
    total = 0
    for number in numbers:
        total = u64(total + number)
    return total


def plain_total(state, chosen):
    return sum_of(state.validators[i].effective_balance for i in chosen)


def total_balance(state, chosen):
    return max(state.rules.effective_balance_increment, plain_total(state, chosen))


def active_indices(state, epoch):
    return [i for i, validator in enumerate(state.validators) if is_active(validator, epoch)]


def total_active_balance(state):
    return total_balance(state, active_indices(state, current_epoch(state)))


def activation_exit_epoch(state):
    return u64(u64(current_epoch(state) + 1) + state.rules.max_seed_lookahead)


def churn_limit(state):
    count = len(active_indices(state, current_epoch(state)))
    return max(state.rules.min_per_epoch_churn_limit, count // state.rules.churn_limit_quotient)


def root_at_slot(state, slot):
    if slot >= state.slot:
        raise Refused(4)
    if state.slot > u64(slot + state.rules.slots_per_historical_root):
        raise Refused(4)
    return state.roots[slot % state.rules.slots_per_historical_root]


def root_of_epoch(state, epoch):
    return root_at_slot(state, u64(epoch * state.rules.slots_per_epoch))


def increase_balance(validator, amount):
    validator.balance = u64(validator.balance + amount)


def decrease_balance(validator, amount):
    """The amount really taken is answered."""
    if amount > validator.balance:
        taken = validator.balance
        validator.balance = 0
        return taken
    validator.balance = u64(validator.balance - amount)
    return amount


def finality_delay(state):
    return u64(previous_epoch(state) - state.finalized[0])


def is_in_inactivity_leak(state):
    return finality_delay(state) > state.rules.min_epochs_to_inactivity_penalty


# Altair: helpers


def unslashed_participating(state, flag, epoch):
    current = epoch == current_epoch(state)
    chosen = set()
    for i, validator in enumerate(state.validators):
        flags = validator.current_flags if current else validator.previous_flags
        if is_active(validator, epoch) and flags >> flag & 1 and not validator.slashed:
            chosen.add(i)
    return chosen


def base_reward_per_increment(state):
    rules = state.rules
    return u64(rules.effective_balance_increment * rules.base_reward_factor) // isqrt(total_active_balance(state))


def base_reward(state, validator):
    return u64(validator.effective_balance // state.rules.effective_balance_increment * base_reward_per_increment(state))


def flag_index_deltas(state, flag):
    rewards, penalties = [0 for _ in state.validators], [0 for _ in state.validators]
    previous = previous_epoch(state)
    participating = unslashed_participating(state, flag, previous)
    participating_increments = total_balance(state, participating) // state.rules.effective_balance_increment
    active_increments = total_active_balance(state) // state.rules.effective_balance_increment
    leak = is_in_inactivity_leak(state)  # row `nobody_hits`: before the loop
    for i, validator in enumerate(state.validators):
        if not is_eligible(validator, previous):
            continue
        base = base_reward(state, validator)
        if i in participating:
            if not leak:
                numerator = u64(u64(base * WEIGHTS[flag]) * participating_increments)
                rewards[i] = numerator // u64(active_increments * DENOMINATOR)
        elif flag != HEAD:
            penalties[i] = u64(base * WEIGHTS[flag]) // DENOMINATOR
    return rewards, penalties


def inactivity_penalty_deltas(state):
    rewards, penalties = [0 for _ in state.validators], [0 for _ in state.validators]
    previous = previous_epoch(state)
    matching = unslashed_participating(state, TARGET, previous)
    for i, validator in enumerate(state.validators):
        if is_eligible(validator, previous) and i not in matching:
            numerator = u64(validator.effective_balance * validator.inactivity_score)
            denominator = u64(state.rules.inactivity_score_bias * state.rules.penalty_quotient)
            penalties[i] = numerator // denominator
    return rewards, penalties


# Altair: the eight steps


def process_justification_and_finalization(state):
    state.raised, state.test = (0, 0, 0), 0
    current, previous = current_epoch(state), previous_epoch(state)
    if current <= 1:
        return
    previous_indices = unslashed_participating(state, TARGET, previous)
    current_indices = unslashed_participating(state, TARGET, current)
    total = total_active_balance(state)
    previous_target = total_balance(state, previous_indices)
    current_target = total_balance(state, current_indices)
    weigh_justification_and_finalization(state, total, previous_target, current_target)
    increment = state.rules.effective_balance_increment
    sums = [plain_total(state, chosen) for chosen in (active_indices(state, current), previous_indices, current_indices)]
    state.raised = tuple(int(plain < increment) for plain in sums)


def weigh_justification_and_finalization(state, total, previous_target, current_target):
    current, previous = current_epoch(state), previous_epoch(state)
    old_previous, old_current = state.previous_justified, state.current_justified
    state.previous_justified = state.current_justified
    bits = state.bits = [0, *state.bits[:3]]
    if u64(previous_target * 3) >= u64(total * 2):
        state.current_justified = (previous, root_of_epoch(state, previous))
        bits[1] = 1
    if u64(current_target * 3) >= u64(total * 2):
        state.current_justified = (current, root_of_epoch(state, current))
        bits[0] = 1
    if all(bits[1:4]) and u64(old_previous[0] + 3) == current:
        state.finalized = old_previous
        state.test = 1
    if all(bits[1:3]) and u64(old_previous[0] + 2) == current:
        state.finalized = old_previous
        state.test = 2
    if all(bits[0:3]) and u64(old_current[0] + 2) == current:
        state.finalized = old_current
        state.test = 3
    if all(bits[0:2]) and u64(old_current[0] + 1) == current:
        state.finalized = old_current
        state.test = 4


def process_inactivity_updates(state):
    if current_epoch(state) == 0:
        return
    previous = previous_epoch(state)
    participating = unslashed_participating(state, TARGET, previous)
    leak = is_in_inactivity_leak(state)  # row `nobody_eligible`: before the loop
    for i, validator in enumerate(state.validators):
        if not is_eligible(validator, previous):
            continue
        if i in participating:
            validator.inactivity_score = u64(validator.inactivity_score - min(1, validator.inactivity_score))
        else:
            validator.inactivity_score = u64(validator.inactivity_score + state.rules.inactivity_score_bias)
        if not leak:
            recovery = min(state.rules.inactivity_score_recovery_rate, validator.inactivity_score)
            validator.inactivity_score = u64(validator.inactivity_score - recovery)


def process_rewards_and_penalties(state):
    if current_epoch(state) == 0:
        return
    deltas = [flag_index_deltas(state, flag) for flag in (SOURCE, TARGET, HEAD)]
    deltas.append(inactivity_penalty_deltas(state))
    for place, (rewards, penalties) in zip((0, 2, 4, 6), deltas):
        for i, validator in enumerate(state.validators):
            increase_balance(validator, rewards[i])
            validator.amounts[place] = rewards[i]
            validator.amounts[place | 1] = decrease_balance(validator, penalties[i])


def initiate_validator_exit_by_count(state, validator):
    if validator.exit_epoch != FAR:
        return
    exit_epochs = [other.exit_epoch for other in state.validators if other.exit_epoch != FAR]
    exit_queue_epoch = max([*exit_epochs, activation_exit_epoch(state)])
    exit_queue_churn = len([other for other in state.validators if other.exit_epoch == exit_queue_epoch])
    if exit_queue_churn >= churn_limit(state):
        exit_queue_epoch = u64(exit_queue_epoch + 1)
    validator.exit_epoch = exit_queue_epoch
    validator.withdrawable_epoch = u64(validator.exit_epoch + state.rules.min_validator_withdrawability_delay)


def activation_churn_limit(state):
    """Deneb's; before it the churn limit."""
    if state.rules.fork == "deneb":
        return min(state.rules.max_per_epoch_activation_churn_limit, churn_limit(state))
    return churn_limit(state)


def process_registry_updates_by_count(state):
    """phase0's, and Deneb's."""
    current = current_epoch(state)
    for validator in state.validators:
        if validator.activation_eligibility_epoch == FAR and validator.effective_balance == state.rules.max_effective_balance:
            validator.activation_eligibility_epoch = u64(current + 1)
        if is_active(validator, current) and validator.effective_balance <= state.rules.ejection_balance:
            initiate_validator_exit_by_count(state, validator)
    queue = [i for i, validator in enumerate(state.validators) if is_eligible_for_activation(state, validator)]
    queue.sort(key=lambda i: (state.validators[i].activation_eligibility_epoch, i))
    for i in queue[: activation_churn_limit(state)]:
        state.validators[i].activation_epoch = activation_exit_epoch(state)


def is_eligible_for_activation(state, validator):
    return validator.activation_eligibility_epoch <= state.finalized[0] and validator.activation_epoch == FAR


def process_slashings_by_balance(state):
    """Altair's and Bellatrix's: the total divides before the increment multiplies."""
    rules, epoch = state.rules, current_epoch(state)
    total = total_active_balance(state)
    adjusted = min(u64(sum_of(state.slashings) * rules.multiplier), total)
    for validator in state.validators:
        if validator.slashed and u64(epoch + rules.epochs_per_slashings_vector // 2) == validator.withdrawable_epoch:
            numerator = u64(validator.effective_balance // rules.effective_balance_increment * adjusted)
            penalty = u64(numerator // total * rules.effective_balance_increment)
            validator.amounts[8] = decrease_balance(validator, penalty)


def process_effective_balance_updates_one_maximum(state):
    """phase0's."""
    rules = state.rules
    hysteresis = rules.effective_balance_increment // rules.hysteresis_quotient
    downward = u64(hysteresis * rules.hysteresis_downward_multiplier)  # row `no_validators`: before the loop
    upward = u64(hysteresis * rules.hysteresis_upward_multiplier)
    for validator in state.validators:
        move_effective_balance(rules, validator, downward, upward, rules.max_effective_balance)


def move_effective_balance(rules, validator, downward, upward, maximum):
    balance = validator.balance
    if u64(balance + downward) < validator.effective_balance:
        moves = True
    else:
        moves = u64(validator.effective_balance + upward) < balance
    if moves:
        validator.effective_balance = min(u64(balance - balance % rules.effective_balance_increment), maximum)


def process_slashings_reset(state):
    next_epoch = u64(current_epoch(state) + 1)
    state.slashings[next_epoch % state.rules.epochs_per_slashings_vector] = 0


def process_participation_flag_updates(state):
    for validator in state.validators:
        validator.previous_flags = validator.current_flags
        validator.current_flags = 0


def exit_queue(validators):
    """R-8: the largest exit epoch below FAR, or 0, and how many have it."""
    epochs = [validator.exit_epoch for validator in validators if validator.exit_epoch != FAR]
    if not epochs:
        return 0, 0
    return max(epochs), epochs.count(max(epochs))


# Electra: helpers


def get_balance_churn_limit(state):
    rules = state.rules
    churn = max(rules.min_per_epoch_churn_limit_electra, total_active_balance(state) // rules.churn_limit_quotient)
    return u64(churn - churn % rules.effective_balance_increment)


def get_activation_exit_churn_limit(state):
    return min(state.rules.max_per_epoch_activation_exit_churn_limit, get_balance_churn_limit(state))


def get_max_effective_balance(rules, compounding):
    if compounding:
        return rules.max_effective_balance_electra
    return rules.min_activation_balance


def compute_exit_epoch_and_update_churn(state, exit_balance):
    earliest = max(state.earliest_exit_epoch, activation_exit_epoch(state))
    per_epoch_churn = get_activation_exit_churn_limit(state)
    if state.earliest_exit_epoch < earliest:
        to_consume = per_epoch_churn
    else:
        to_consume = state.exit_balance_to_consume
    if exit_balance > to_consume:
        balance_to_process = u64(exit_balance - to_consume)
        additional_epochs = u64(u64(balance_to_process - 1) // per_epoch_churn + 1)
        earliest = u64(earliest + additional_epochs)
        to_consume = u64(to_consume + u64(additional_epochs * per_epoch_churn))
    state.exit_balance_to_consume = u64(to_consume - exit_balance)
    state.earliest_exit_epoch = earliest
    return state.earliest_exit_epoch


def initiate_validator_exit(state, validator):
    if validator.exit_epoch != FAR:
        return
    exit_queue_epoch = compute_exit_epoch_and_update_churn(state, validator.effective_balance)
    validator.exit_epoch = exit_queue_epoch
    validator.withdrawable_epoch = u64(validator.exit_epoch + state.rules.min_validator_withdrawability_delay)


# Electra: the five steps


def process_registry_updates(state):
    current = current_epoch(state)
    activation_epoch = activation_exit_epoch(state)
    for validator in state.validators:
        if validator.activation_eligibility_epoch == FAR and validator.effective_balance >= state.rules.min_activation_balance:
            validator.activation_eligibility_epoch = u64(current + 1)
        elif is_active(validator, current) and validator.effective_balance <= state.rules.ejection_balance:
            initiate_validator_exit(state, validator)
        elif is_eligible_for_activation(state, validator):
            validator.activation_epoch = activation_epoch


def process_slashings(state):
    rules, epoch = state.rules, current_epoch(state)
    total = total_active_balance(state)
    adjusted = min(u64(sum_of(state.slashings) * rules.multiplier), total)
    penalty_per_increment = adjusted // (total // rules.effective_balance_increment)
    for validator in state.validators:
        if validator.slashed and u64(epoch + rules.epochs_per_slashings_vector // 2) == validator.withdrawable_epoch:
            increments = validator.effective_balance // rules.effective_balance_increment
            validator.amounts[8] = decrease_balance(validator, u64(penalty_per_increment * increments))


def process_pending_deposits(state):
    next_epoch = u64(current_epoch(state) + 1)
    available = u64(state.deposit_balance_to_consume + get_activation_exit_churn_limit(state))
    processed, next_deposit, postponed, limit_reached = 0, 0, [], False
    finalized_slot = u64(state.finalized[0] * state.rules.slots_per_epoch)
    for deposit in state.deposits:
        key, _, amount, slot, _ = deposit
        if slot > 0 and state.eth1_deposit_index < state.deposit_requests_start_index:
            break
        if slot > finalized_slot:
            break
        if next_deposit >= state.rules.max_pending_deposits_per_epoch:
            break
        exited = withdrawn = False
        validator = validator_of(state, key)
        if validator is not None:
            exited = validator.exit_epoch < FAR
            withdrawn = validator.withdrawable_epoch < next_epoch
        if withdrawn:
            apply_pending_deposit(state, deposit)
        elif exited:
            postponed.append(deposit)
        else:
            limit_reached = u64(processed + amount) > available
            if limit_reached:
                break
            processed = u64(processed + amount)
            apply_pending_deposit(state, deposit)
        next_deposit = u64(next_deposit + 1)
    state.taken = next_deposit  # for the claim on deposits
    state.deposits = [*state.deposits[next_deposit:], *postponed]
    if limit_reached:
        state.deposit_balance_to_consume = u64(available - processed)
    else:
        state.deposit_balance_to_consume = 0


def validator_of(state, key):
    for validator in state.validators:
        if validator.key == key:
            return validator
    return None


def apply_pending_deposit(state, deposit):
    key, compounding, amount, _, valid = deposit
    validator = validator_of(state, key)
    if validator is None:
        if valid:
            maximum = get_max_effective_balance(state.rules, compounding)
            effective_balance = min(u64(amount - amount % state.rules.effective_balance_increment), maximum)
            validator = Validator([effective_balance, 0, FAR, FAR, FAR, FAR, amount, 0, 0, 0], compounding, key)
            state.validators.append(validator)
            validator.amounts[9] = amount
    else:
        increase_balance(validator, amount)
        validator.amounts[9] = u64(validator.amounts[9] + amount)


def process_pending_consolidations(state):
    next_epoch = u64(current_epoch(state) + 1)
    next_consolidation = 0
    for source_index, target_index in state.consolidations:
        source = state.validators[source_index]
        if source.slashed:
            next_consolidation = u64(next_consolidation + 1)
            continue
        if source.withdrawable_epoch > next_epoch:
            break
        moved = min(source.balance, source.effective_balance)
        taken = decrease_balance(source, moved)
        target = state.validators[target_index]
        increase_balance(target, moved)
        # The amounts are sums kept modulo 2^64: a queue may go back and forth.
        source.amounts[10] = sum([source.amounts[10], taken]) % 2**64
        target.amounts[11] = sum([target.amounts[11], moved]) % 2**64
        next_consolidation = u64(next_consolidation + 1)
    state.consolidations = state.consolidations[next_consolidation:]


def process_effective_balance_updates(state):
    rules = state.rules
    for validator in state.validators:
        hysteresis = rules.effective_balance_increment // rules.hysteresis_quotient
        downward = u64(hysteresis * rules.hysteresis_downward_multiplier)
        upward = u64(hysteresis * rules.hysteresis_upward_multiplier)
        move_effective_balance(rules, validator, downward, upward, get_max_effective_balance(rules, validator.compounding))


# The whole close


def close(state):
    """The eight steps of Altair to Deneb."""
    process_justification_and_finalization(state)
    process_inactivity_updates(state)
    process_rewards_and_penalties(state)
    process_registry_updates_by_count(state)
    process_slashings_by_balance(state)
    process_effective_balance_updates_one_maximum(state)
    process_slashings_reset(state)
    process_participation_flag_updates(state)


def electra_close(state):
    """The ten steps of Electra and Fulu."""
    process_justification_and_finalization(state)
    process_inactivity_updates(state)
    process_rewards_and_penalties(state)
    process_registry_updates(state)
    process_slashings(state)
    process_pending_deposits(state)
    process_pending_consolidations(state)
    process_effective_balance_updates(state)
    process_slashings_reset(state)
    process_participation_flag_updates(state)
