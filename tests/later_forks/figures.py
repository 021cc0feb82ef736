"""The figures of documents 01 and 03 that the model must meet before anything is held to it."""
from . import text
from .text import FAR

MAINNET = dict(zip(text.SETTINGS + text.PAIR + text.DENEB + text.ELECTRA, [
    32, 8192, 8192, 10**9, 32 * 10**9, 4, 1, 5, 64, 4, 4, 16, 50331648, 2, 4, 256, 16 * 10**9, 4, 65536, 16777216, 3, 8,
    32 * 10**9, 2048 * 10**9, 128 * 10**9, 256 * 10**9, 16]))
GWEI = 10**9


def validator(effective=32 * GWEI, compounding=0, **changed):
    numbers = dict(zip(text.COLUMNS, [effective, 0, 0, 0, FAR, FAR, effective, 7, 7, 0]), **changed)
    return text.Validator(numbers.values(), compounding, None)


def state(fork, validators, slot=31, finalized=1, slashings=(0,) * 64, churn=(0, 0), **rules):
    rules = text.Rules(fork, dict(MAINNET, slots_per_epoch=8, slots_per_historical_root=64, epochs_per_slashings_vector=64, **rules))
    root = bytes(32)
    for i, one in enumerate(validators):
        one.key = i
    return text.State(rules, slot, 3, [(1, root), (2, root), (finalized, root)], validators, slashings, [root] * 64, churn)


def balances(made):
    return [one.balance for one in made.validators]


def listing():
    """01: the close that the listing prints."""
    made = state("altair", [validator() for _ in range(4)] + [validator(previous_flags=0, current_flags=0)])
    text.close(made)
    return [made.current_justified[0], made.finalized[0], sum(bit << i for i, bit in enumerate(made.bits)), *balances(made)]


def cut():
    """01: source and target missed, head hit by four, balance 1000000; after the rewards step."""
    made = state("altair", [validator(previous_flags=flags) for flags in (3, 7, 7, 7)] + [validator(previous_flags=4, balance=10**6)])
    text.process_rewards_and_penalties(made)
    return made.validators[4].balance


def slashing(step):
    """01: the slashings sum to 32, a penalty is due; 03's goes by whole increments."""
    made = state("altair", [validator() for _ in range(4)] + [validator(slashed=1, withdrawable_epoch=35)], slashings=(32 * GWEI,) + (0,) * 63)
    step(made)
    return made.validators[4].amounts[8]


def moved(effective, balance, fork="altair", **changed):
    made = state(fork, [validator(effective, balance=balance, **changed)])
    (text.process_effective_balance_updates if fork == "electra" else text.process_effective_balance_updates_one_maximum)(made)
    return made.validators[0].effective_balance


def queue(**rules):
    """03, F-1: ten active that leave and ten that wait: how many leave in one epoch, and how many are activated."""
    leaving = [validator(16 * GWEI) for _ in range(10)]
    made = state("deneb", leaving + [validator(activation_epoch=FAR) for _ in range(10)], **rules)
    text.process_registry_updates_by_count(made)
    epochs = [one.exit_epoch for one in leaving]
    return epochs.count(min(epochs)), sum(one.activation_epoch != FAR for one in made.validators[10:])


def exits():
    """03, F-3: an epoch that gets one limit and what the first exit had used up of the one before."""
    made = state("electra", [validator(11 * GWEI), validator(9 * GWEI)], min_per_epoch_churn_limit_electra=10 * GWEI)
    text.process_registry_updates(made)
    return [one.exit_epoch for one in made.validators] + [made.exit_balance_to_consume, made.earliest_exit_epoch]


FIGURES = [
    ("the listing", listing, [3, 2, 7, *[32003456000] * 4, 31996800000]),
    ("each reward before its penalty, pair by pair", cut, 896000),
    ("Altair's slashing", lambda: slashing(text.process_slashings_by_balance), 12 * GWEI),
    ("Electra's, of the same record, by whole increments", lambda: slashing(text.process_slashings), 12800000000),
    ("31.75 stays", lambda: moved(32 * GWEI, 31750000000), 32 * GWEI),
    ("one less does not", lambda: moved(32 * GWEI, 31749999999), 31 * GWEI),
    ("32.25 stays", lambda: moved(31 * GWEI, 32250000000), 31 * GWEI),
    ("one more does not", lambda: moved(31 * GWEI, 32250000001), 32 * GWEI),
    ("compounding up to 2048", lambda: moved(2047 * GWEI, 2050 * GWEI, "electra", compounding=1), 2048 * GWEI),
    ("another up to 32", lambda: moved(31 * GWEI, 2050 * GWEI, "electra"), 32 * GWEI),
    ("a churn limit of 10: 10 leave and 8 enter", lambda: queue(churn_limit_quotient=1), (10, 8)),
    ("a churn limit of 4: 4 and 4", lambda: queue(), (4, 4)),
    ("a limit of 0 lets nobody in", lambda: queue(max_per_epoch_activation_churn_limit=0), (4, 0)),
    ("an exit epoch that is full", exits, [9, 9, 0, 9]),
]


def wrong():
    """What the model gives otherwise."""
    found = [(name, work(), figure) for name, work, figure in FIGURES]
    return [f"{name}: {given} where {figure} is wanted" for name, given, figure in found if given != figure]
