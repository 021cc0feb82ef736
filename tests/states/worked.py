"""One case for each of the eight steps, worked out by hand from the figures of document 01: (step, pre, post).

Five validators of 32 * 10^9, all active, at the last slot of epoch 3; what is not named is random, and stays."""
import random

import encoder

ETH = 10**9
FAR = encoder.FAR
VALIDATORS = 5


def state(preset, fork):
    made = encoder.random_state(random.Random(f"{preset} {fork}"), preset, fork, VALIDATORS, 2)
    slots, _, _, slashings, _ = encoder.SIZES[preset]
    made["slot"] = 4 * slots - 1
    made["slashings"] = [0] * slashings
    made["justification_bits"] = b"\3"
    for name, epoch in ("previous_justified", 1), ("current_justified", 2), ("finalized", 1):
        made[f"{name}_checkpoint"]["epoch"] = epoch
    columns = dict(effective_balance=32 * ETH, slashed=False, activation_eligibility_epoch=0, activation_epoch=0, exit_epoch=FAR)
    columns.update(withdrawable_epoch=FAR, balances=32 * ETH, inactivity_scores=0)
    return set_(made, **columns, previous_epoch_participation=7, current_epoch_participation=7)


def set_(made, **changed):
    """The state with fields set; of a validator's columns one number is for all of them."""
    made = {**made, "validators": [dict(v) for v in made["validators"]]}
    for name, value in changed.items():
        values = value if isinstance(value, list) else [value] * VALIDATORS
        if name in made["validators"][0]:
            for v, one in zip(made["validators"], values):
                v[name] = one
        elif isinstance(made[name], list) and len(made[name]) == VALIDATORS:
            made[name] = values
        else:
            made[name] = value
    return made


def one_misses(all_, one):
    return [all_] * 4 + [one]


def cases(preset, fork):
    slots = encoder.SIZES[preset][0]
    slashings = encoder.SIZES[preset][3]
    base = state(preset, fork)

    # 4 of 5 for both targets: bits 0011 shift to 0110 and take both; the current justified one, an epoch back, is final
    pre = set_(base, previous_epoch_participation=one_misses(7, 5), current_epoch_participation=one_misses(2, 0))
    yield "justification_and_finalization", pre, {
        **pre,
        "justification_bits": b"\7",
        "previous_justified_checkpoint": pre["current_justified_checkpoint"],
        "current_justified_checkpoint": {"epoch": 3, "root": pre["block_roots"][3 * slots]},
        "finalized_checkpoint": pre["current_justified_checkpoint"],
    }

    # no leak. a target hit: 1 less, then 16 less; a miss: 4 more, then 16 less
    pre = set_(base, inactivity_scores=[10, 100, 0, 10, 100], previous_epoch_participation=[7, 7, 7, 5, 5])
    yield "inactivity_updates", pre, set_(pre, inactivity_scores=[0, 83, 0, 0, 88])

    # root of 160 * 10^9 is 400000, a base reward 5120000. four of five hit: 4/5 of 14/64 + 26/64 + 14/64; a miss of all pays
    # 14/64 + 26/64, and for a score of 100 besides 15894 by Altair's quotient, 47683 by Bellatrix's
    pre = set_(base, previous_epoch_participation=one_misses(7, 0), inactivity_scores=one_misses(0, 100))
    for_score = 15894 if fork == "altair" else 47683
    paid = one_misses(32 * ETH + 3456000, 32 * ETH - 3200000 - for_score)
    yield "rewards_and_penalties", pre, set_(pre, balances=paid)

    # 1 waits and is let in at 3 + 1 + 4; 2 is new and joins the queue; 3 is ejected; 4 waits for a later finalized epoch
    pre = set_(
        base,
        activation_eligibility_epoch=[0, 1, FAR, 0, 2],
        activation_epoch=[0, FAR, FAR, 0, FAR],
        effective_balance=[32 * ETH, 32 * ETH, 32 * ETH, 16 * ETH, 32 * ETH],
    )
    post = set_(pre, activation_eligibility_epoch=[0, 1, 4, 0, 2], activation_epoch=[0, 8, FAR, 0, FAR])
    yield "registry_updates", pre, set_(post, exit_epoch=[FAR, FAR, FAR, 8, FAR], withdrawable_epoch=[FAR, FAR, FAR, 264, FAR])

    # 32 of 160 increments slashed, doubled (Altair) or tripled (Bellatrix): 32 * 64 / 160 is 12, 32 * 96 / 160 is 19
    sums = [0] * (slashings - 1) + [32 * ETH]
    pre = set_(base, slashings=sums, slashed=[True, True, False, False, False])
    pre = set_(pre, withdrawable_epoch=[3 + slashings // 2, 4 + slashings // 2, FAR, FAR, FAR])
    left = 32 * ETH - (12 if fork == "altair" else 19) * ETH
    yield "slashings", pre, set_(pre, balances=[left] + [32 * ETH] * 4)

    pre = set_(base, effective_balance=[32 * ETH] * 2 + [31 * ETH] * 2 + [0])
    pre = set_(pre, balances=[31750000000, 31749999999, 32250000000, 32250000001, 99 * ETH])
    yield "effective_balance_updates", pre, set_(pre, effective_balance=[32 * ETH, 31 * ETH, 31 * ETH, 32 * ETH, 32 * ETH])

    pre = set_(base, slashings=list(range(1, slashings + 1)))
    yield "slashings_reset", pre, set_(pre, slashings=[1, 2, 3, 4, 0] + list(range(6, slashings + 1)))

    pre = set_(base, previous_epoch_participation=[1, 2, 3, 4, 255], current_epoch_participation=[0, 7, 255, 1, 2])
    post = set_(pre, previous_epoch_participation=[0, 7, 255, 1, 2], current_epoch_participation=0)
    yield "participation_flag_updates", pre, post
