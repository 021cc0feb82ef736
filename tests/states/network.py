"""States as a network has them, for statements: most validators active and voting, one absent, one waiting, one leaving."""
import random

import encoder

ETH = 10**9
FAR = encoder.FAR
GENESIS = 1606824023
VERSIONS = {"mainnet": 0, "minimal": 1}


def validator(rng, index, epoch):
    """The state's entry, balance and flags (previous, current) of a validator, by its number modulo 10."""
    v = dict(pubkey=rng.randbytes(48), withdrawal_credentials=b"\1" + rng.randbytes(31), effective_balance=32 * ETH, slashed=False,
             activation_eligibility_epoch=0, activation_epoch=0, exit_epoch=FAR, withdrawable_epoch=FAR)
    flags = 7
    kind = index % 10
    if kind == 3:
        flags = 0
    elif kind == 5:  # waits for activation
        v.update(activation_eligibility_epoch=max(0, epoch - 4), activation_epoch=FAR)
        flags = 0
    elif kind == 6:  # new: joins the queue at this close
        v.update(activation_eligibility_epoch=FAR, activation_epoch=FAR)
        flags = 0
    elif kind == 7:  # leaves
        v.update(exit_epoch=epoch + 3, withdrawable_epoch=epoch + 3 + 256)
    elif kind == 8:
        flags = 3
    elif kind == 9:
        v.update(withdrawal_credentials=b"\2" + rng.randbytes(31))
    return v, 32 * ETH + rng.randrange(ETH // 100), flags


def state(preset, fork, epoch, validators, seed=1):
    """The state after the last slot of an epoch of at least 4."""
    rng = random.Random(f"{seed} {preset} {fork}")
    made = encoder.random_state(rng, preset, fork, 0, 2)
    slots, _, _, slashings, _ = encoder.SIZES[preset]
    rng = random.Random(seed)  # the same validators in every fork
    entries, balances, flags = map(list, zip(*(validator(rng, i, epoch) for i in range(validators)))) if validators else ([], [], [])
    version = bytes([1 + encoder.FORKS.index(fork), 0, 0, VERSIONS[preset]])
    made.update(
        genesis_time=GENESIS, genesis_validators_root=b"N" * 32, slot=(epoch + 1) * slots - 1, slashings=[0] * slashings,
        fork={"previous_version": version, "current_version": version, "epoch": 0}, validators=entries, balances=balances,
        previous_epoch_participation=flags, current_epoch_participation=flags, inactivity_scores=[0] * validators, justification_bits=b"\7",
    )  # fmt: skip
    for name, back in ("previous_justified", 2), ("current_justified", 1), ("finalized", 2):
        made[f"{name}_checkpoint"] = {"epoch": epoch - back, "root": bytes(32)}
    if fork in encoder.SINCE["electra"]:  # sixteen new keys' deposits, and a consolidation that is not due
        deposits = [dict(pubkey=bytes([k]) * 48, withdrawal_credentials=b"\2" + bytes(31), amount=32 * ETH, signature=bytes(96), slot=0)
                    for k in range(200, 216)]
        made.update(eth1_deposit_index=5, deposit_requests_start_index=5, deposit_balance_to_consume=0, exit_balance_to_consume=0,
                    earliest_exit_epoch=0, pending_deposits=deposits, pending_consolidations=[dict(source_index=0, target_index=1)])
    return made
