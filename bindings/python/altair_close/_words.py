"""What goes in and comes back by value, the constants, and the words of the refusals. Written by bindings/generate from crates/exports and bindings/words."""
from typing import NamedTuple, Tuple

__all__ = ["REFUSALS", "VERSION", "FAR_FUTURE_EPOCH", "MOST_VALIDATORS", "LONGEST_VECTOR", "NUMBER_LIMIT", "EFFECTIVE_BALANCE",
           "SLASHED", "ACTIVATION_ELIGIBILITY_EPOCH", "ACTIVATION_EPOCH", "EXIT_EPOCH", "WITHDRAWABLE_EPOCH", "BALANCE",
           "PREVIOUS_EPOCH_PARTICIPATION", "CURRENT_EPOCH_PARTICIPATION", "INACTIVITY_SCORE", "VALIDATOR_LENGTH", "SOURCE_REWARD",
           "SOURCE_TAKEN", "TARGET_REWARD", "TARGET_TAKEN", "HEAD_REWARD", "HEAD_TAKEN", "INACTIVITY_REWARD", "INACTIVITY_TAKEN",
           "SLASHING_TAKEN", "AMOUNTS_LENGTH", "FORK_ALTAIR", "FORK_BELLATRIX", "ENTRY_START", "ENTRY_FORK", "ENTRY_SETTINGS",
           "ENTRY_BELLATRIX", "ENTRY_LENGTH", "PASSES_IN_NONE", "PASSES_IN_SOME", "PASSES_IN_ALL", "BOTH_KNOWN", "PREVIOUS_UNKNOWN",
           "CURRENT_UNKNOWN", "BOTH_UNKNOWN", "DEPOSITED", "CONSOLIDATED_OUT", "CONSOLIDATED_IN", "ELECTRA_AMOUNTS_LENGTH",
           "DEPOSIT_PUBKEY", "DEPOSIT_COMPOUNDING", "DEPOSIT_AMOUNT", "DEPOSIT_SLOT", "DEPOSIT_VALID", "DEPOSIT_LENGTH",
           "CONSOLIDATION_SOURCE", "CONSOLIDATION_TARGET", "CONSOLIDATION_LENGTH", "Settings", "MAINNET", "MINIMAL", "Bellatrix",
           "MAINNET_BELLATRIX", "Rules", "Clock", "MAINNET_CLOCK", "Checkpoint", "Finality", "ExitQueue", "Raised", "Justified",
           "Wait", "Total", "Deltas", "Header", "Head", "Line", "DenebRules", "MAINNET_DENEB", "MINIMAL_DENEB", "Electra",
           "MAINNET_ELECTRA", "MINIMAL_ELECTRA", "ElectraRules", "ExitChurn", "DepositNumbers", "Deposited"]

REFUSALS = {
    1: "a length, a vector's size or an index is not the one called for",
    2: "a setting is 0 where it divides, or 2^48 or more",
    3: "a slot, epoch, bit field or flag of the record is out of range",
    4: "a block root is wanted that the record does not keep",
    5: "a sum, product or difference that is evaluated leaves 64 bits",
    6: "a record file's header is not as it must be",
    7: "a net change, closing minus opening balance, does not fit signed 64 bits",
    8: "the exit queue's pair is not that of the registry",
    9: "an exit order's validator is unknown, not active or leaving already",
    10: "an exit order's start is ahead, or its validator has not been active for long enough",
    11: "the list of exit orders is full",
    12: "a new entry's start is not above that of the last entry",
    13: "the store has no entry for the epoch",
    14: "a second is before genesis",
    15: "seconds_per_slot is 0",
}

VERSION = 5
FAR_FUTURE_EPOCH = 2**64 - 1
MOST_VALIDATORS = 2**24
LONGEST_VECTOR = 65536
NUMBER_LIMIT = 2**48

# A validator is ten numbers of the registry; validator i has those from VALIDATOR_LENGTH * i on.
EFFECTIVE_BALANCE = 0
SLASHED = 1
ACTIVATION_ELIGIBILITY_EPOCH = 2
ACTIVATION_EPOCH = 3
EXIT_EPOCH = 4
WITHDRAWABLE_EPOCH = 5
BALANCE = 6
PREVIOUS_EPOCH_PARTICIPATION = 7
CURRENT_EPOCH_PARTICIPATION = 8
INACTIVITY_SCORE = 9
VALIDATOR_LENGTH = 10

# What a close books of a validator is nine numbers of the amounts; validator i has those from AMOUNTS_LENGTH * i on. A reward was
# added, then what is taken, as far as there was balance: for source, target, head and inactivity, whose reward is 0, and at the end
# by slashing. Opening balance plus rewards less what was taken is the closing balance.
SOURCE_REWARD = 0
SOURCE_TAKEN = 1
TARGET_REWARD = 2
TARGET_TAKEN = 3
HEAD_REWARD = 4
HEAD_TAKEN = 5
INACTIVITY_REWARD = 6
INACTIVITY_TAKEN = 7
SLASHING_TAKEN = 8
AMOUNTS_LENGTH = 9


class _Amounts(NamedTuple):
    """What a close books of a validator is nine numbers of the amounts; validator i has those from AMOUNTS_LENGTH * i on. A reward
    was added, then what is taken, as far as there was balance: for source, target, head and inactivity, whose reward is 0, and at
    the end by slashing. Opening balance plus rewards less what was taken is the closing balance."""

    source_reward: int
    source_taken: int
    target_reward: int
    target_taken: int
    head_reward: int
    head_taken: int
    inactivity_reward: int
    inactivity_taken: int
    slashing_taken: int


# Whose rules a close goes by.
FORK_ALTAIR = 0
FORK_BELLATRIX = 1

# Settings by starting epoch. A store is an array of entries of 23 numbers, lent with the count of those in use: starting epoch,
# fork, the nineteen settings and the pair. A read or a close, whole or by steps, goes by the last entry whose start is not above
# its epoch. Entries beyond the count are not looked at. put_entry writes one, add_rules adds one behind those in use.
ENTRY_START = 0
ENTRY_FORK = 1
ENTRY_SETTINGS = 2
ENTRY_BELLATRIX = 21
ENTRY_LENGTH = 23

# In how many fillings of the unknown flags a target's two-thirds test passes.
PASSES_IN_NONE = 0
PASSES_IN_SOME = 1
PASSES_IN_ALL = 2

# A validator's mark: which of its two target flags are unknown.
BOTH_KNOWN = 0
PREVIOUS_UNKNOWN = 1
CURRENT_UNKNOWN = 2
BOTH_UNKNOWN = 3

# What an Electra close books of a validator is twelve numbers of its amounts; validator i has those from ELECTRA_AMOUNTS_LENGTH * i
# on: the nine of enum amount, what deposits added, and what consolidations took to another and brought from another. Opening
# balance, 0 of one that a deposit made, plus rewards, deposited and consolidated_in less what was taken and consolidated_out is the
# closing balance.
DEPOSITED = 9
CONSOLIDATED_OUT = 10
CONSOLIDATED_IN = 11
ELECTRA_AMOUNTS_LENGTH = 12


class _ElectraAmounts(NamedTuple):
    """What an Electra close books of a validator is twelve numbers of its amounts; validator i has those from
    ELECTRA_AMOUNTS_LENGTH * i on: the nine of enum amount, what deposits added, and what consolidations took to another and brought
    from another. Opening balance, 0 of one that a deposit made, plus rewards, deposited and consolidated_in less what was taken and
    consolidated_out is the closing balance."""

    source_reward: int
    source_taken: int
    target_reward: int
    target_taken: int
    head_reward: int
    head_taken: int
    inactivity_reward: int
    inactivity_taken: int
    slashing_taken: int
    deposited: int
    consolidated_out: int
    consolidated_in: int


# A deposit of the queue is five numbers: its key, 1 where its credentials begin with 0x02, its amount in Gwei, its slot, and 1
# where its signature is valid. Deposit i has those from DEPOSIT_LENGTH * i on.
DEPOSIT_PUBKEY = 0
DEPOSIT_COMPOUNDING = 1
DEPOSIT_AMOUNT = 2
DEPOSIT_SLOT = 3
DEPOSIT_VALID = 4
DEPOSIT_LENGTH = 5

# A consolidation of the queue is two validators' numbers; consolidation i has those from CONSOLIDATION_LENGTH * i on.
CONSOLIDATION_SOURCE = 0
CONSOLIDATION_TARGET = 1
CONSOLIDATION_LENGTH = 2


class Settings(NamedTuple):
    """The nineteen settings of a network."""

    slots_per_epoch: int
    slots_per_historical_root: int
    epochs_per_slashings_vector: int
    effective_balance_increment: int
    max_effective_balance: int
    hysteresis_quotient: int
    hysteresis_downward_multiplier: int
    hysteresis_upward_multiplier: int
    base_reward_factor: int
    min_epochs_to_inactivity_penalty: int
    inactivity_score_bias: int
    inactivity_score_recovery_rate: int
    inactivity_penalty_quotient_altair: int
    proportional_slashing_multiplier_altair: int
    max_seed_lookahead: int
    min_validator_withdrawability_delay: int
    ejection_balance: int
    min_per_epoch_churn_limit: int
    churn_limit_quotient: int


# Those of mainnet, and the public test preset minimal.
MAINNET = Settings(32, 8192, 8192, 1000000000, 32000000000, 4, 1, 5, 64, 4, 4, 16, 50331648, 2, 4, 256, 16000000000, 4, 65536)
MINIMAL = Settings(8, 64, 64, 1000000000, 32000000000, 4, 1, 5, 64, 4, 4, 16, 50331648, 2, 4, 256, 16000000000, 2, 32)


class Bellatrix(NamedTuple):
    """The two numbers that Bellatrix uses in place of inactivity_penalty_quotient_altair and
    proportional_slashing_multiplier_altair."""

    inactivity_penalty_quotient_bellatrix: int = 0
    proportional_slashing_multiplier_bellatrix: int = 0


# Mainnet's pair, which minimal has too.
MAINNET_BELLATRIX = Bellatrix(16777216, 3)


class Rules(NamedTuple):
    """What a close goes by: settings, fork and pair. Under fork 0 the pair is not read and may be anything; under fork 1 it stands
    in the place of the Altair two, which are tested all the same. under_altair and under_bellatrix make one; in Rust and Python
    settings alone are those of Altair."""

    settings: Settings
    fork: int = 0
    bellatrix: Bellatrix = Bellatrix()


class Clock(NamedTuple):
    """A network's clock. Seconds are those of Unix time; genesis_time is the first second of slot 0."""

    genesis_time: int
    seconds_per_slot: int
    slots_per_epoch: int


# Mainnet's clock.
MAINNET_CLOCK = Clock(1606824023, 12, 32)


class Checkpoint(NamedTuple):
    """An epoch and the root of its first block, any 32 bytes."""

    epoch: int = 0
    root: bytes = bytes(32)


class Finality(NamedTuple):
    """Slot, bits and the three checkpoints. Bit i of justification_bits counts 2^i; bit 0 is the current epoch's."""

    slot: int = 0
    justification_bits: int = 0
    previous_justified_checkpoint: Checkpoint = Checkpoint()
    current_justified_checkpoint: Checkpoint = Checkpoint()
    finalized_checkpoint: Checkpoint = Checkpoint()


class ExitQueue(NamedTuple):
    """The exit queue's pair of a registry: the largest exit epoch below FAR, or 0 where there is none, and how many validators have
    exactly it. exit_queue works it out and a record carries it on; in Rust and Python none in its place has it worked out."""

    last_epoch: int = 0
    number: int = 0


class Raised(NamedTuple):
    """Which totals were raised to one increment, since their plain sum was below it: of the active, and of those that hit the
    target of the previous and of the current epoch. None up to epoch 1 and on refusal."""

    active: bool = False
    previous: bool = False
    current: bool = False


class Justified(NamedTuple):
    """The finality after the call, which totals were raised, and which of the four finality tests, 1 to 4 in their order, last set
    the finalized checkpoint, or 0. Or the refusal, the finality that was handed in, and zeros."""

    finality: Finality
    raised: Raised
    test: int


class FullValues(NamedTuple):
    """The finality after the close, the exit queue's pair after it, which totals were raised, and which of the four finality tests,
    1 to 4 in their order, last set the finalized checkpoint, or 0. Beside a refusal finality and pair are those that were handed
    in."""

    finality: Finality
    queue: ExitQueue
    raised: Raised
    test: int


class Wait(NamedTuple):
    """Whether a validator waits for activation, how many are ahead of it, and how many further closes it takes at most; zeros where
    it does not wait."""

    waits: bool
    ahead: int
    closes: int


class Total(NamedTuple):
    """A total balance, and whether its plain sum was below one increment, so that the total was raised to it."""

    balance: int
    raised: bool


class Deltas(NamedTuple):
    """What one validator gains and loses by one rule."""

    reward: int
    penalty: int


class Header(NamedTuple):
    """How much a record file holds. Its first byte is its version, 1 or 2; version 1 has no room for the exit queue's pair. Its
    roots are the 32 * roots bytes from ROOTS_AT(file[0], validators) on; version 2 is written, and is FILE_LENGTH bytes long."""

    validators: int
    roots: int
    slashings: int


class Read(NamedTuple):
    """position is where reading stopped: the file's length where it was accepted. queue is the file's pair, of version 1 worked
    out."""

    position: int
    settings: Settings
    finality: Finality
    queue: ExitQueue


class Head(NamedTuple):
    """The numbers of a listing's first line."""

    epoch: int
    justified_epoch: int
    finalized_epoch: int
    justification_bits: int
    charged: int
    raised: Raised


class Line(NamedTuple):
    """The numbers of one validator's line: effective balance and score are those after the close, net_change is closing minus
    opening balance."""

    index: int  # type: ignore[assignment]
    opening_balance: int
    closing_balance: int
    effective_balance: int
    inactivity_score: int
    net_change: int


class VotesValues(NamedTuple):
    """What votes not yet counted can come to. The first `count` of finalized_epochs, at most three, rise, and zeros stand behind
    them. previous_target and current_target are of enum passes."""

    count: int  # type: ignore[assignment]
    finalized_epochs: Tuple[int, int, int]
    previous_target: int
    current_target: int


class DenebRules(NamedTuple):
    """What a Deneb call goes by: the nineteen settings, the Bellatrix pair, which stands in the place of the Altair two, and how
    many may be activated in an epoch at most. That number is below 2^48, else 2, and may be 0: then nobody is activated."""

    settings: Settings
    bellatrix: Bellatrix
    max_per_epoch_activation_churn_limit: int


# Those of mainnet, and of the public test preset minimal.
MAINNET_DENEB = DenebRules(MAINNET, MAINNET_BELLATRIX, 8)
MINIMAL_DENEB = DenebRules(MINIMAL, MAINNET_BELLATRIX, 4)


class Electra(NamedTuple):
    """The five numbers that Electra adds to the settings of a network."""

    min_activation_balance: int
    max_effective_balance_electra: int
    min_per_epoch_churn_limit_electra: int
    max_per_epoch_activation_exit_churn_limit: int
    max_pending_deposits_per_epoch: int


# Those of mainnet, and of the public test preset minimal.
MAINNET_ELECTRA = Electra(32000000000, 2048000000000, 128000000000, 256000000000, 16)
MINIMAL_ELECTRA = Electra(32000000000, 2048000000000, 64000000000, 128000000000, 16)


class ElectraRules(NamedTuple):
    """What an Electra call goes by: the nineteen settings, the Bellatrix pair and Electra's five. Of the nineteen
    max_effective_balance, min_per_epoch_churn_limit and the Altair two are not read; they are tested all the same.
    min_per_epoch_churn_limit_electra is at least the increment and max_per_epoch_activation_exit_churn_limit not 0, so that a churn
    limit is never 0: 2 otherwise."""

    settings: Settings
    bellatrix: Bellatrix
    electra: Electra


class ExitChurn(NamedTuple):
    """The record's two numbers of the exit queue: what may still leave at the earliest exit epoch, in Gwei, and that epoch. Any
    numbers."""

    exit_balance_to_consume: int = 0
    earliest_exit_epoch: int = 0


class DepositNumbers(NamedTuple):
    """What the record holds of the deposits' queue by value: what the last close left to be processed, in Gwei, and how far the
    bridge's deposits have come. Any numbers; the two indices are only read."""

    deposit_balance_to_consume: int = 0
    eth1_deposit_index: int = 0
    deposit_requests_start_index: int = 0


class Deposited(NamedTuple):
    """What the next close may process more, how many validators there are now, and how many deposits are left in the queue. Or the
    refusal and what the opening has."""

    deposit_balance_to_consume: int
    validators: int
    deposits: int


class ElectraValues(NamedTuple):
    """The finality after the close, which totals were raised, and which of the four finality tests, 1 to 4 in their order, last set
    the finalized checkpoint, or 0; how many validators there are, how many deposits and consolidations are left, what the next
    close may process of deposits more, in Gwei, and the two numbers of the exit queue. Beside a refusal they are the opening's,
    none raised and test 0."""

    finality: Finality
    raised: Raised
    test: int
    validators: int
    deposits: int
    consolidations: int
    deposit_balance_to_consume: int
    churn: ExitChurn
