"""The calls: the table of their signatures, and the functions. Written by bindings/generate from crates/exports and bindings/words."""
from typing import Any, Optional, Sequence, Tuple, Union

from . import _lengths as lengths
from ._arguments import (CHANGED_STORE, FLAGS, NUMBER, ROOT, SIGNED, STORE, TRUTH, Bytes, Changed, Kept, Numbers, Octets,
                         as_long_as, struct_of)
from ._lengths import longest, of
from ._signatures import CODE, ITSELF, PROMISES, SIGNATURES, TOLD, Answer, Signature, buffers, call, pair_of
from ._types import (Bellatrix, Checkpoint, Clock, Closed, Deltas, DenebRules, DepositNumbers, Deposited, Electra, ElectraClosed,
                     ElectraRules, ElectraValues, ExitChurn, ExitQueue, Finality, FullValues, Head, Header, Justified, Line, Queued,
                     Raised, Read, Rules, Running, Settings, Told, Total, Votes, VotesValues, Wait, Buffer, BytesLike, NumbersLike,
                     StoreLike)

SIGNATURES.update({
    "version": Signature(ITSELF),
    # The close
    "close": Signature(Answer(struct_of(FullValues)), given=Closed.given, store=STORE, finality=struct_of(Finality),
                       queue=struct_of(ExitQueue), registry=Numbers(row=10), slashings=Numbers(), roots=Bytes(row=32),
                       closing_registry=Numbers(row=10, written=as_long_as("registry")),
                       closing_slashings=Numbers(written=as_long_as("slashings")),
                       amounts=Numbers(row=9, written=of(lambda N: 9 * N, ("registry", 10)))),
    "read_rules": Signature(Answer(struct_of(Rules)), store=STORE, epoch=NUMBER),
    "add_rules": Signature(Answer(NUMBER), store=CHANGED_STORE, start=NUMBER, rules=struct_of(Rules)),
    "charged": Signature(Answer(NUMBER), settings=struct_of(Settings), state_slot=NUMBER, registry=Numbers(row=10)),
    "activation_wait": Signature(Answer(struct_of(Wait)), settings=struct_of(Settings), finalized_epoch=NUMBER,
                                 registry=Numbers(row=10), index=NUMBER),
    # The listing of a close
    "listing_head": Signature(Answer(struct_of(Head)), settings=struct_of(Settings), state_slot=NUMBER, closing=struct_of(Finality),
                              opening=Numbers(row=10)),
    "listing_line": Signature(Answer(struct_of(Line, net_change=SIGNED)), opening=Numbers(row=10), closing=Numbers(row=10),
                              index=NUMBER),
    "net_change": Signature(Answer(SIGNED), opening=NUMBER, closing=NUMBER),
    # A record file
    "read_header": Signature(Answer(struct_of(Header)), file=Bytes()),
    "read_file": Signature(Answer(struct_of(Read)), file=Bytes(), registry=Numbers(row=10, written=lengths.held_registry),
                           slashings=Numbers(written=lengths.held_slashings)),
    "write_file": Signature(CODE, settings=struct_of(Settings), finality=struct_of(Finality), queue=struct_of(ExitQueue),
                            registry=Numbers(row=10), roots=Bytes(row=32), slashings=Numbers(),
                            file=Bytes(written=of(lambda L, N, S: 384 + 80 * N + 32 * S + 8 * L, ("slashings", 1), ("registry", 10), ("roots", 32)))),
    # A shelf of records
    "close_shelf": Signature(CODE, files=Bytes(), lengths=Numbers(), closing=Bytes(written=as_long_as("files"), blank=True),
                             opening_numbers=Numbers(written=of(lambda LONGEST: (LONGEST + 7) // 8, ("lengths", longest))),
                             closing_numbers=Numbers(written=of(lambda LONGEST: (LONGEST + 7) // 8, ("lengths", longest))),
                             answers=Numbers(written=as_long_as("lengths")), fork=NUMBER, bellatrix=struct_of(Bellatrix)),
    # A close by steps, and exit orders meanwhile
    "close_step": Signature(TOLD, number=NUMBER, running=struct_of(Running), store=STORE, finality=struct_of(Finality),
                            queue=struct_of(ExitQueue), registry=Numbers(row=10), slashings=Numbers(), roots=Bytes(row=32),
                            closing_registry=Kept(row=10), closing_slashings=Kept(), amounts=Kept(row=9)),
    "take_order": Signature(TOLD, running=struct_of(Running), validator=NUMBER, start=NUMBER, orders=Kept()),
    "carry_out": Signature(TOLD, store=STORE, shard_committee_period=NUMBER, running=struct_of(Running),
                           closing_registry=Kept(row=10), orders=Numbers(), answers=Kept()),
    # The eight steps, in the order of the close
    "process_justification_and_finalization": Signature(
        Answer(struct_of(Justified)), settings=struct_of(Settings), roots=Bytes(row=32), finality=struct_of(Finality),
        registry=Numbers(row=10)),
    "process_inactivity_updates": Signature(CODE, settings=struct_of(Settings), state_slot=NUMBER, finalized_epoch=NUMBER,
                                            opening=Numbers(row=10), closing=Numbers(row=10, written=as_long_as("opening"))),
    "process_rewards_and_penalties": Signature(CODE, rules=struct_of(Rules), state_slot=NUMBER, finalized_epoch=NUMBER,
                                               opening=Numbers(row=10), closing=Numbers(row=10, written=as_long_as("opening"))),
    "process_registry_updates": Signature(Answer(struct_of(ExitQueue)), given=Queued.given, settings=struct_of(Settings),
                                          state_slot=NUMBER, finalized_epoch=NUMBER, queue=struct_of(ExitQueue),
                                          opening=Numbers(row=10), closing=Numbers(row=10, written=as_long_as("opening"))),
    "process_registry_updates_to": Signature(Answer(struct_of(ExitQueue)), given=Queued.given, stop=NUMBER,
                                             settings=struct_of(Settings), state_slot=NUMBER, finalized_epoch=NUMBER,
                                             queue=struct_of(ExitQueue), opening=Numbers(row=10),
                                             closing=Numbers(row=10, written=as_long_as("opening"))),
    "process_slashings": Signature(CODE, rules=struct_of(Rules), state_slot=NUMBER, slashings=Numbers(), opening=Numbers(row=10),
                                   closing=Numbers(row=10, written=as_long_as("opening"))),
    "process_effective_balance_updates": Signature(
        CODE, settings=struct_of(Settings), opening=Numbers(row=10), closing=Numbers(row=10, written=as_long_as("opening"))),
    "process_slashings_reset": Signature(CODE, settings=struct_of(Settings), state_slot=NUMBER, opening=Numbers(),
                                         closing=Numbers(written=as_long_as("opening"))),
    "process_participation_flag_updates": Signature(
        CODE, opening=Numbers(row=10), closing=Numbers(row=10, written=as_long_as("opening"))),
    # Slots and epochs
    "integer_sqrt": Signature(ITSELF, n=NUMBER),
    "compute_epoch_at_slot": Signature(Answer(NUMBER), settings=struct_of(Settings), slot=NUMBER),
    "compute_start_slot_at_epoch": Signature(Answer(NUMBER), settings=struct_of(Settings), epoch=NUMBER),
    "compute_activation_exit_epoch": Signature(Answer(NUMBER), settings=struct_of(Settings), epoch=NUMBER),
    "get_current_epoch": Signature(Answer(NUMBER), settings=struct_of(Settings), state_slot=NUMBER),
    "get_previous_epoch": Signature(Answer(NUMBER), settings=struct_of(Settings), state_slot=NUMBER),
    # Opening hours: slots and epochs by the wall clock
    "slot_at_time": Signature(Answer(NUMBER), clock=struct_of(Clock), second=NUMBER),
    "epoch_at_time": Signature(Answer(NUMBER), clock=struct_of(Clock), second=NUMBER),
    "is_in_closing_window": Signature(Answer(TRUTH), clock=struct_of(Clock), second=NUMBER),
    "first_second_of_slot": Signature(Answer(NUMBER), clock=struct_of(Clock), slot=NUMBER),
    "last_second_of_slot": Signature(Answer(NUMBER), clock=struct_of(Clock), slot=NUMBER),
    "first_second_of_epoch": Signature(Answer(NUMBER), clock=struct_of(Clock), epoch=NUMBER),
    "last_second_of_epoch": Signature(Answer(NUMBER), clock=struct_of(Clock), epoch=NUMBER),
    # One validator: `validator` has ten numbers
    "is_active_validator": Signature(Answer(TRUTH), validator=Numbers(row=10), epoch=NUMBER),
    "is_eligible_for_activation_queue": Signature(
        Answer(TRUTH), settings=struct_of(Settings), validator=Numbers(row=10)),
    "is_eligible_for_activation": Signature(Answer(TRUTH), finalized_epoch=NUMBER, validator=Numbers(row=10)),
    "is_eligible": Signature(Answer(TRUTH), settings=struct_of(Settings), state_slot=NUMBER, validator=Numbers(row=10)),
    "increase_balance": Signature(CODE, validator=Changed(row=10), delta=NUMBER),
    "decrease_balance": Signature(CODE, validator=Changed(row=10), delta=NUMBER),
    "has_flag": Signature(Answer(TRUTH), flags=FLAGS, flag_index=NUMBER),
    "add_flag": Signature(Answer(NUMBER), flags=FLAGS, flag_index=NUMBER),
    "is_unslashed_participating": Signature(Answer(TRUTH), settings=struct_of(Settings), state_slot=NUMBER, flag_index=NUMBER,
                                            epoch=NUMBER, validator=Numbers(row=10)),
    # Block roots
    "get_block_root_at_slot": Signature(Answer(ROOT), settings=struct_of(Settings), roots=Bytes(row=32), state_slot=NUMBER,
                                        slot=NUMBER),
    "get_block_root": Signature(Answer(ROOT), settings=struct_of(Settings), roots=Bytes(row=32), state_slot=NUMBER, epoch=NUMBER),
    # The registry
    "get_total_active_balance": Signature(Answer(struct_of(Total)), settings=struct_of(Settings), state_slot=NUMBER,
                                          registry=Numbers(row=10)),
    "get_participating_balance": Signature(Answer(struct_of(Total)), settings=struct_of(Settings), state_slot=NUMBER,
                                           flag_index=NUMBER, epoch=NUMBER, registry=Numbers(row=10)),
    "get_validator_churn_limit": Signature(Answer(NUMBER), settings=struct_of(Settings), state_slot=NUMBER,
                                           registry=Numbers(row=10)),
    "exit_queue": Signature(Answer(struct_of(ExitQueue)), registry=Numbers(row=10)),
    "initiate_validator_exit": Signature(Answer(struct_of(ExitQueue)), given=Queued.given, settings=struct_of(Settings),
                                         state_slot=NUMBER, index=NUMBER, queue=struct_of(ExitQueue), registry=Changed(row=10)),
    # Rewards
    "get_base_reward_per_increment": Signature(Answer(NUMBER), settings=struct_of(Settings), total=NUMBER),
    "get_base_reward": Signature(Answer(NUMBER), settings=struct_of(Settings), total=NUMBER, validator=Numbers(row=10)),
    "get_flag_index_deltas": Signature(Answer(struct_of(Deltas)), settings=struct_of(Settings), state_slot=NUMBER,
                                       finalized_epoch=NUMBER, flag_index=NUMBER, index=NUMBER, registry=Numbers(row=10)),
    "get_inactivity_penalty_deltas": Signature(Answer(struct_of(Deltas)), rules=struct_of(Rules), state_slot=NUMBER,
                                               validator=Numbers(row=10)),
    # Finality
    "get_finality_delay": Signature(Answer(NUMBER), settings=struct_of(Settings), state_slot=NUMBER, finalized_epoch=NUMBER),
    "is_in_inactivity_leak": Signature(Answer(TRUTH), settings=struct_of(Settings), state_slot=NUMBER, finalized_epoch=NUMBER),
    "weigh_justification_and_finalization": Signature(
        Answer(struct_of(Finality)), settings=struct_of(Settings), roots=Bytes(row=32), finality=struct_of(Finality), total=NUMBER,
        previous=NUMBER, current=NUMBER),
    # Votes not yet counted
    "unknown_votes": Signature(Answer(struct_of(VotesValues)), given=Votes.given, settings=struct_of(Settings), roots=Bytes(row=32),
                               finality=struct_of(Finality), registry=Numbers(row=10), marks=Numbers()),
    # Deneb's registry step and close
    "deneb_process_registry_updates": Signature(Answer(struct_of(ExitQueue)), given=Queued.given, rules=struct_of(DenebRules),
                                                state_slot=NUMBER, finalized_epoch=NUMBER, queue=struct_of(ExitQueue),
                                                opening=Numbers(row=10), closing=Numbers(row=10, written=as_long_as("opening"))),
    "deneb_close": Signature(Answer(struct_of(FullValues)), given=Closed.given, rules=struct_of(DenebRules),
                             finality=struct_of(Finality), queue=struct_of(ExitQueue), registry=Numbers(row=10),
                             slashings=Numbers(), roots=Bytes(row=32),
                             closing_registry=Numbers(row=10, written=as_long_as("registry")),
                             closing_slashings=Numbers(written=as_long_as("slashings")),
                             amounts=Numbers(row=9, written=of(lambda N: 9 * N, ("registry", 10)))),
    # Electra's close
    "electra_close": Signature(Answer(struct_of(ElectraValues)), given=ElectraClosed.given, rules=struct_of(ElectraRules),
                               finality=struct_of(Finality), churn=struct_of(ExitChurn), numbers=struct_of(DepositNumbers),
                               registry=Numbers(row=10), compounding=Numbers(), slashings=Numbers(), roots=Bytes(row=32),
                               deposits=Numbers(row=5), consolidations=Numbers(row=2),
                               closing_registry=Numbers(row=10, written=of(lambda D, N: 10 * (N + D), ("deposits", 5), ("registry", 10)), blank=True),
                               closing_compounding=Numbers(written=of(lambda D, N: N + D, ("deposits", 5), ("registry", 10)), blank=True),
                               closing_slashings=Numbers(written=as_long_as("slashings")),
                               closing_deposits=Numbers(row=5, written=as_long_as("deposits"), blank=True),
                               closing_consolidations=Numbers(row=2, written=as_long_as("consolidations"), blank=True),
                               amounts=Numbers(row=12, written=of(lambda D, N: 12 * (N + D), ("deposits", 5), ("registry", 10)), blank=True),
                               places=Numbers(written=of(lambda D: D, ("deposits", 5)), scratch=True)),
    # Electra's steps
    "electra_process_registry_updates": Signature(
        Answer(struct_of(ExitChurn)), rules=struct_of(ElectraRules), state_slot=NUMBER, finalized_epoch=NUMBER,
        churn=struct_of(ExitChurn), opening=Numbers(row=10), closing=Numbers(row=10, written=as_long_as("opening"))),
    "electra_process_slashings": Signature(CODE, rules=struct_of(ElectraRules), state_slot=NUMBER, slashings=Numbers(),
                                           opening=Numbers(row=10), closing=Numbers(row=10, written=as_long_as("opening"))),
    "electra_process_pending_deposits": Signature(
        Answer(struct_of(Deposited)), rules=struct_of(ElectraRules), state_slot=NUMBER, finalized_epoch=NUMBER,
        numbers=struct_of(DepositNumbers), registry=Numbers(row=10), compounding=Numbers(), deposits=Numbers(row=5),
        closing_registry=Numbers(row=10, written=of(lambda D, N: 10 * (N + D), ("deposits", 5), ("registry", 10)), blank=True),
        closing_compounding=Numbers(written=of(lambda D, N: N + D, ("deposits", 5), ("registry", 10)), blank=True),
        closing_deposits=Numbers(row=5, written=as_long_as("deposits"), blank=True),
        places=Numbers(written=of(lambda D: D, ("deposits", 5)), scratch=True)),
    "electra_process_pending_consolidations": Signature(
        Answer(NUMBER), rules=struct_of(ElectraRules), state_slot=NUMBER, registry=Numbers(row=10), consolidations=Numbers(row=2),
        closing_registry=Numbers(row=10, written=as_long_as("registry")),
        closing_consolidations=Numbers(row=2, written=as_long_as("consolidations"), blank=True)),
    "electra_process_effective_balance_updates": Signature(
        CODE, rules=struct_of(ElectraRules), compounding=Numbers(), opening=Numbers(row=10),
        closing=Numbers(row=10, written=as_long_as("opening"))),
    # Electra's helpers
    "electra_get_balance_churn_limit": Signature(Answer(NUMBER), rules=struct_of(ElectraRules), state_slot=NUMBER,
                                                 registry=Numbers(row=10)),
    "electra_get_activation_exit_churn_limit": Signature(
        Answer(NUMBER), rules=struct_of(ElectraRules), state_slot=NUMBER, registry=Numbers(row=10)),
    "electra_get_max_effective_balance": Signature(
        Answer(NUMBER), rules=struct_of(ElectraRules), compounding=NUMBER),
    "electra_compute_exit_epoch_and_update_churn": Signature(
        Answer(struct_of(ExitChurn)), rules=struct_of(ElectraRules), state_slot=NUMBER, churn=struct_of(ExitChurn),
        exit_balance=NUMBER, registry=Numbers(row=10)),
    "electra_initiate_validator_exit": Signature(Answer(struct_of(ExitChurn)), rules=struct_of(ElectraRules), state_slot=NUMBER,
                                                 index=NUMBER, churn=struct_of(ExitChurn), registry=Changed(row=10)),
})

__all__ = ["version", "read_rules", "charged", "activation_wait", "listing_head", "listing_line", "net_change", "read_header",
           "write_file", "process_justification_and_finalization", "process_inactivity_updates", "process_rewards_and_penalties",
           "process_registry_updates", "process_registry_updates_to", "process_slashings", "process_effective_balance_updates",
           "process_slashings_reset", "process_participation_flag_updates", "integer_sqrt", "compute_epoch_at_slot",
           "compute_start_slot_at_epoch", "compute_activation_exit_epoch", "get_current_epoch", "get_previous_epoch",
           "slot_at_time", "epoch_at_time", "is_in_closing_window", "first_second_of_slot", "last_second_of_slot",
           "first_second_of_epoch", "last_second_of_epoch", "is_active_validator", "is_eligible_for_activation_queue",
           "is_eligible_for_activation", "is_eligible", "increase_balance", "decrease_balance", "has_flag", "add_flag",
           "is_unslashed_participating", "get_block_root_at_slot", "get_block_root", "get_total_active_balance",
           "get_participating_balance", "get_validator_churn_limit", "exit_queue", "initiate_validator_exit",
           "get_base_reward_per_increment", "get_base_reward", "get_flag_index_deltas", "get_inactivity_penalty_deltas",
           "get_finality_delay", "is_in_inactivity_leak", "weigh_justification_and_finalization", "unknown_votes",
           "deneb_process_registry_updates", "electra_process_registry_updates", "electra_process_slashings",
           "electra_process_pending_deposits", "electra_process_pending_consolidations",
           "electra_process_effective_balance_updates", "electra_get_balance_churn_limit",
           "electra_get_activation_exit_churn_limit", "electra_get_max_effective_balance",
           "electra_compute_exit_epoch_and_update_churn", "electra_initiate_validator_exit"]

# what the functions that are written by hand promise
PROMISES.update({
    "close": ("Closes by the last of the store's `count` entries whose start is not above the record's epoch: the closed record's "
        "finality and pair, which totals were raised and which test finalized. Closing buffers hold the closed record and amounts"
        " what each rule gave and took (enum amount). With a store of no entry lengths that a setting calls for are not tested. "
        "Refused with 1, 2, 13, 3, 8, 4 or 5. After 1, 2, 13, 3 and 8 the buffers hold what they held before; after 4 and 5 "
        "closing buffers hold the opening's numbers, and amounts zeros. Beside a refusal finality and pair are those handed in."),
    "add_rules": ("The count with one more: the store holds the new entry behind the `count` in use, and else what it held. Reading an "
        "epoch below the start gives what it gave before. Refused with 1, 2 or 12. After a refusal store is as it was."),
    "read_file": ("Settings, finality, pair and where reading stopped. Registry and slashings hold the file's numbers; registry has ten "
        "numbers a validator of the header. Refused with 6, 1, 2, 3 or 8. After a refusal registry and slashings are as they "
        "were."),
    "close_shelf": ("Closes record files that stand one behind another in `files`, of these lengths, each as if it were alone; under one "
        "fork, with its pair. answers holds 0 for each file that was closed, or 6, 1, 2, 3, 8, 4 or 5; only files of version 2 "
        "are taken, and 1 and 2 are also those of fork and pair. closing holds in a file's place the closed record's file; after "
        "4 and 5 the file's own bytes, after another refusal what it held before. The working lists opening_numbers and "
        "closing_numbers hold anything. As a whole it is refused where the lengths do not add up to the bytes, closing has "
        "another length than files, a working list has fewer bytes than the longest file, or there are not as many answers as "
        "lengths. Refused with 1. After a refusal nothing is written."),
    "close_step": ("Runs step `number`: refused with 1 for a call out of turn. The first call makes every test of the whole close and, "
        "refused, ends it. In a later one 1, 2, 13, 3 and 8 turn away that call alone, which may be made again; it tests the "
        "record so far, and not the opening's contents again. 4 and 5 end the close. Closing buffers hold the record so far, and "
        "amounts what was booked so far; they are lent again at the next call. Refused with 1, 2, 13, 3, 8, 4 or 5. After 4 and 5"
        " closing buffers hold the opening's numbers, and amounts zeros; after another refusal all is as before."),
    "take_order": ("Takes an exit order, a validator's number and a starting epoch, after the first step and before the end. orders has two "
        "numbers an order, and the new one stands behind those in the list. Refused with 1 or 11. After a refusal orders is as it"
        " was."),
    "carry_out": ("The ninth call, after the eight: tries the orders in order of arrival, each on the record as it then stands, as phase0's"
        " voluntary exits without the signature, and ends the close. answers has a number an order that there is room for. 2 is "
        "also for a shard_committee_period of 2^48 or more; mainnet's is 256. Refused, the call may be made again. "
        "closing_registry holds the record with the exits, answers 0, 9, 10 or 5 for each order that was tried and else what it "
        "held. Refused with 1, 2, 13, 3 or 8. After a refusal closing_registry and answers are as they were."),
    "deneb_close": ("Closes by Deneb's rules: the closed record's finality and pair, which totals were raised and which test finalized. "
        "Closing buffers hold the closed record and amounts what each rule gave and took (enum amount). There is no store: the "
        "rules are those of the record's epoch. Refused with 1, 2, 3, 8, 4 or 5. After 1, 2, 3 or 8 closing_registry, "
        "closing_slashings and amounts are as they were, after 4 or 5 closing buffers hold the opening's numbers, and amounts "
        "zeros."),
    "electra_close": ("Closes an epoch of Electra or Fulu: the closed record's finality, which totals were raised and which test finalized, how"
        " many validators there are then, how many deposits and consolidations are left, and the queues' three numbers. "
        "compounding, deposits, consolidations and places are those of electra_process_pending_deposits and "
        "electra_process_pending_consolidations. Closing buffers hold the closed record and amounts what each rule gave and took,"
        " twelve numbers a validator (enum electra_amount), at their front; what stands behind it stays. A deposit that is left "
        "has its five numbers, its key in the opening's numbering; validators that deposits made stand behind those of the "
        "opening, in the order of their first valid deposits. Refused with 1, 2, 3, 4 or 5. After 1, 2 and 3 all buffers hold "
        "what they held; after 4 and 5 closing buffers hold the opening's numbers at their front and amounts 12 * N zeros, and "
        "behind them what they held. places may hold anything. Beside a refusal the answer has what was handed in: the finality, "
        "the counts and the queues' numbers."),
})


def version() -> int:
    """The number of the interface of the library that was linked: VERSION of its header. It refuses nothing."""
    return call("version")


# The close


def read_rules(store: StoreLike, epoch: int) -> Rules:
    """The rules of the last of the store's `count` entries whose start is not above the epoch. Refused with 1, 2 or 13."""
    return call("read_rules", store, epoch)


def charged(settings: Settings, state_slot: int, registry: NumbersLike) -> int:
    """How many validators of the opening registry are charged: active in the previous epoch, or slashed with the previous epoch + 1
    below the withdrawable epoch; nobody at epoch 0. Refused with 1, 2 or 3."""
    return call("charged", settings, state_slot, registry)


def activation_wait(settings: Settings, finalized_epoch: int, registry: NumbersLike, index: int) -> Wait:
    """Whether validator `index` waits for activation: its eligibility epoch is at most the finalized epoch and it has no activation
    epoch. If it does, how many wait ahead of it, k: with a smaller eligibility epoch, or the same one and a smaller number; and
    closes, floor(k / m) + 1 with min_per_epoch_churn_limit as m: once so many further closes are accepted, whole or by steps, each
    of a later epoch, it has its activation epoch. closes is 0 where m is, since then no number of closes will do. Refused with 1, 2
    or 3."""
    return call("activation_wait", settings, finalized_epoch, registry, index)


# The listing of a close


def listing_head(settings: Settings, state_slot: int, closing: Finality, opening: NumbersLike) -> Head:
    """The numbers of the first line, of the opening's slot and registry and the closing finality. `settings` are those that the
    close went by: of a close by a store the settings of its entry for the epoch, which read_rules reads, and not the record's own.
    Refused with 1, 2 or 3."""
    return call("listing_head", settings, state_slot, closing, opening)


def listing_line(opening: NumbersLike, closing: NumbersLike, index: int) -> Line:
    """The numbers of validator `index`'s line, from the opening and the closing registry; 3 is asked of its own numbers in either,
    and of no other's. A listing is only `refused 7` where one of its lines is: ask for all of them before the first is printed. The
    close itself is not refused. Refused with 1, 3 or 7."""
    return call("listing_line", opening, closing, index)


def net_change(opening: int, closing: int) -> int:
    """Closing minus opening of any two balances, from -2^63 to 2^63 - 1. Refused with 7."""
    return call("net_change", opening, closing)


# A record file


def read_header(file: BytesLike) -> Header:
    """How many validators, roots and slashings the file holds. Refused with 6."""
    return call("read_header", file)


def write_file(settings: Settings, finality: Finality, queue: Optional[ExitQueue], registry: NumbersLike, roots: BytesLike,
               slashings: NumbersLike, *, out: Optional[Buffer] = None) -> Buffer:
    """The record's file, of version 2: `file` is FILE_LENGTH bytes long. Refused with 1, 2, 3 or 8. After a refusal file is as it
    was."""
    return call("write_file", settings, finality, pair_of(queue, registry), registry, roots, slashings, out)


# The eight steps, in the order of the close


def process_justification_and_finalization(settings: Settings, roots: BytesLike, finality: Finality,
                                           registry: NumbersLike) -> Justified:
    """The finality after justification, which totals were raised and which test finalized. Refused with 1, 2, 3, 4 or 5."""
    return call("process_justification_and_finalization", settings, roots, finality, registry)


def process_inactivity_updates(settings: Settings, state_slot: int, finalized_epoch: int, opening: NumbersLike, *,
                               out: Optional[Buffer] = None) -> Buffer:
    """The registry with the new inactivity scores. Refused with 1, 2, 3 or 5. After 1, 2 or 3 closing is as it was, after 5 it
    holds the opening's numbers."""
    return call("process_inactivity_updates", settings, state_slot, finalized_epoch, opening, out)


def process_rewards_and_penalties(rules: Union[Rules, Settings], state_slot: int, finalized_epoch: int, opening: NumbersLike, *,
                                  out: Optional[Buffer] = None) -> Buffer:
    """The registry with the new balances. Refused with 1, 2, 3 or 5. After 1, 2 or 3 closing is as it was, after 5 it holds the
    opening's numbers."""
    return call("process_rewards_and_penalties", rules, state_slot, finalized_epoch, opening, out)


def process_registry_updates(settings: Settings, state_slot: int, finalized_epoch: int, queue: Optional[ExitQueue],
                             opening: NumbersLike, *, out: Optional[Buffer] = None) -> Queued:
    """The registry after queueing, ejecting and activating; answered is the pair after the step, which counts the ejections.
    Refused with 1, 2, 3, 8 or 5. After 1, 2, 3 or 8 closing is as it was, after 5 it holds the opening's numbers."""
    return call("process_registry_updates", settings, state_slot, finalized_epoch, pair_of(queue, opening), opening, out)


def process_registry_updates_to(stop: int, settings: Settings, state_slot: int, finalized_epoch: int, queue: Optional[ExitQueue],
                                opening: NumbersLike, *, out: Optional[Buffer] = None) -> Queued:
    """The registry after the registry step with a stop, a validator's number or N: from it up the opening's activation epochs stay,
    all else is as without one; answered is the pair after the step. 1 is also for a stop above N. Refused with 1, 2, 3, 8 or 5.
    After 1, 2, 3 or 8 closing is as it was, after 5 it holds the opening's numbers."""
    return call("process_registry_updates_to", stop, settings, state_slot, finalized_epoch, pair_of(queue, opening), opening, out)


def process_slashings(rules: Union[Rules, Settings], state_slot: int, slashings: NumbersLike, opening: NumbersLike, *,
                      out: Optional[Buffer] = None) -> Buffer:
    """The registry less the slashing penalties. Refused with 1, 2, 3 or 5. After 1, 2 or 3 closing is as it was, after 5 it holds
    the opening's numbers."""
    return call("process_slashings", rules, state_slot, slashings, opening, out)


def process_effective_balance_updates(settings: Settings, opening: NumbersLike, *, out: Optional[Buffer] = None) -> Buffer:
    """The registry with the new effective balances. Refused with 1, 2, 3 or 5. After 1, 2 or 3 closing is as it was, after 5 it
    holds the opening's numbers."""
    return call("process_effective_balance_updates", settings, opening, out)


def process_slashings_reset(settings: Settings, state_slot: int, opening: NumbersLike, *, out: Optional[Buffer] = None) -> Buffer:
    """The slashings with the next epoch's place 0: opening and closing are slashings. Refused with 1, 2 or 3. After a refusal
    closing is as it was."""
    return call("process_slashings_reset", settings, state_slot, opening, out)


def process_participation_flag_updates(opening: NumbersLike, *, out: Optional[Buffer] = None) -> Buffer:
    """The registry with current flags as previous ones and none current. Refused with 1 or 3. After a refusal closing is as it
    was."""
    return call("process_participation_flag_updates", opening, out)


# Slots and epochs


def integer_sqrt(n: int) -> int:
    """The largest number whose square is at most n. It refuses nothing."""
    return call("integer_sqrt", n)


def compute_epoch_at_slot(settings: Settings, slot: int) -> int:
    """slot / slots_per_epoch. Refused with 1 or 2."""
    return call("compute_epoch_at_slot", settings, slot)


def compute_start_slot_at_epoch(settings: Settings, epoch: int) -> int:
    """epoch * slots_per_epoch. Refused with 1, 2 or 5."""
    return call("compute_start_slot_at_epoch", settings, epoch)


def compute_activation_exit_epoch(settings: Settings, epoch: int) -> int:
    """epoch + 1 + max_seed_lookahead. Refused with 1, 2 or 5."""
    return call("compute_activation_exit_epoch", settings, epoch)


def get_current_epoch(settings: Settings, state_slot: int) -> int:
    """The epoch of the state's slot. Refused with 1, 2 or 3."""
    return call("get_current_epoch", settings, state_slot)


def get_previous_epoch(settings: Settings, state_slot: int) -> int:
    """The epoch before the state's, 0 at epoch 0. Refused with 1, 2 or 3."""
    return call("get_previous_epoch", settings, state_slot)


# Opening hours: slots and epochs by the wall clock


def slot_at_time(clock: Clock, second: int) -> int:
    """The slot of the second. Refused with 15, 2 or 14."""
    return call("slot_at_time", clock, second)


def epoch_at_time(clock: Clock, second: int) -> int:
    """The epoch of the second. Refused with 15, 2 or 14."""
    return call("epoch_at_time", clock, second)


def is_in_closing_window(clock: Clock, second: int) -> bool:
    """Whether the second is in the closing window, the last slot of its epoch. Refused with 15, 2 or 14."""
    return call("is_in_closing_window", clock, second)


def first_second_of_slot(clock: Clock, slot: int) -> int:
    """The first second of the slot. Refused with 15, 2 or 5."""
    return call("first_second_of_slot", clock, slot)


def last_second_of_slot(clock: Clock, slot: int) -> int:
    """The last second of the slot. Refused with 15, 2 or 5."""
    return call("last_second_of_slot", clock, slot)


def first_second_of_epoch(clock: Clock, epoch: int) -> int:
    """The first second of the epoch. Refused with 15, 2 or 5."""
    return call("first_second_of_epoch", clock, epoch)


def last_second_of_epoch(clock: Clock, epoch: int) -> int:
    """The last second of the epoch. Refused with 15, 2 or 5."""
    return call("last_second_of_epoch", clock, epoch)


# One validator: `validator` has ten numbers


def is_active_validator(validator: NumbersLike, epoch: int) -> bool:
    """Whether the validator is active in the epoch. Refused with 1 or 3."""
    return call("is_active_validator", validator, epoch)


def is_eligible_for_activation_queue(settings: Settings, validator: NumbersLike) -> bool:
    """Whether it may join the activation queue. Refused with 1, 2 or 3."""
    return call("is_eligible_for_activation_queue", settings, validator)


def is_eligible_for_activation(finalized_epoch: int, validator: NumbersLike) -> bool:
    """Whether it waits in the queue for activation. Refused with 1 or 3."""
    return call("is_eligible_for_activation", finalized_epoch, validator)


def is_eligible(settings: Settings, state_slot: int, validator: NumbersLike) -> bool:
    """Whether it earns and pays: active in the previous epoch, or slashed and withdrawable only later. Refused with 1, 2 or 3."""
    return call("is_eligible", settings, state_slot, validator)


def increase_balance(validator: NumbersLike, delta: int, *, out: Optional[Buffer] = None) -> Buffer:
    """The ten numbers with delta more on the balance. Refused with 1, 3 or 5. After a refusal validator is as it was."""
    return call("increase_balance", (validator, out), delta)


def decrease_balance(validator: NumbersLike, delta: int, *, out: Optional[Buffer] = None) -> Buffer:
    """The ten numbers with delta less on the balance, not below 0. Refused with 1 or 3. After a refusal validator is as it was."""
    return call("decrease_balance", (validator, out), delta)


def has_flag(flags: int, flag_index: int) -> bool:
    """Whether flag flag_index (0 source, 1 target, 2 head, up to 7) is in flags. Refused with 1."""
    return call("has_flag", flags, flag_index)


def add_flag(flags: int, flag_index: int) -> int:
    """The flags with flag flag_index (up to 7) in them. Refused with 1."""
    return call("add_flag", flags, flag_index)


def is_unslashed_participating(settings: Settings, state_slot: int, flag_index: int, epoch: int, validator: NumbersLike) -> bool:
    """Whether it is unslashed, active and has the flag (0 to 2) in the epoch, the previous or the current one. Refused with 1, 2 or
    3."""
    return call("is_unslashed_participating", settings, state_slot, flag_index, epoch, validator)


# Block roots


def get_block_root_at_slot(settings: Settings, roots: BytesLike, state_slot: int, slot: int) -> bytes:
    """The root at the slot; roots has 32 bytes a root. Refused with 1, 2, 3 or 4."""
    return call("get_block_root_at_slot", settings, roots, state_slot, slot)


def get_block_root(settings: Settings, roots: BytesLike, state_slot: int, epoch: int) -> bytes:
    """The root at the epoch's first slot; roots has 32 bytes a root. Refused with 1, 2, 3, 4 or 5."""
    return call("get_block_root", settings, roots, state_slot, epoch)


# The registry


def get_total_active_balance(settings: Settings, state_slot: int, registry: NumbersLike) -> Total:
    """The effective balance of all that are active, at least one increment, and whether it was raised to it. Refused with 1, 2, 3
    or 5."""
    return call("get_total_active_balance", settings, state_slot, registry)


def get_participating_balance(settings: Settings, state_slot: int, flag_index: int, epoch: int, registry: NumbersLike) -> Total:
    """The effective balance of the unslashed participants of a flag (0 to 2) in the previous or current epoch, and whether it was
    raised. Refused with 1, 2, 3 or 5."""
    return call("get_participating_balance", settings, state_slot, flag_index, epoch, registry)


def get_validator_churn_limit(settings: Settings, state_slot: int, registry: NumbersLike) -> int:
    """How many may enter or leave in an epoch. Refused with 1, 2 or 3."""
    return call("get_validator_churn_limit", settings, state_slot, registry)


def exit_queue(registry: NumbersLike) -> ExitQueue:
    """The exit queue's pair of the registry; zeros beside a refusal. Refused with 1 or 3."""
    return call("exit_queue", registry)


def initiate_validator_exit(settings: Settings, state_slot: int, index: int, queue: Optional[ExitQueue], registry: NumbersLike, *,
                            out: Optional[Buffer] = None) -> Queued:
    """The registry with an exit and a withdrawable epoch for validator `index`; answered is the pair afterwards. A validator whose
    exit epoch is not FAR keeps it. Else it leaves at current epoch + 1 + max_seed_lookahead or at the pair's last epoch, whichever
    is later; one epoch more where as many as the churn limit leave then. It is withdrawable min_validator_withdrawability_delay
    later; with delay 0 both can come out as FAR, which counts for nothing in the pair. Refused with 1, 2, 3, 8 or 5. After a
    refusal registry is as it was."""
    return call("initiate_validator_exit", settings, state_slot, index, pair_of(queue, registry), (registry, out))


# Rewards


def get_base_reward_per_increment(settings: Settings, total: int) -> int:
    """The base reward per increment at a total active balance. Refused with 1, 2 or 5."""
    return call("get_base_reward_per_increment", settings, total)


def get_base_reward(settings: Settings, total: int, validator: NumbersLike) -> int:
    """The validator's base reward at a total active balance. Refused with 1, 2, 3 or 5."""
    return call("get_base_reward", settings, total, validator)


def get_flag_index_deltas(settings: Settings, state_slot: int, finalized_epoch: int, flag_index: int, index: int,
                          registry: NumbersLike) -> Deltas:
    """What validator `index` gains and loses by a flag (0 to 2). Refused with 1, 2, 3 or 5."""
    return call("get_flag_index_deltas", settings, state_slot, finalized_epoch, flag_index, index, registry)


def get_inactivity_penalty_deltas(rules: Union[Rules, Settings], state_slot: int, validator: NumbersLike) -> Deltas:
    """What the validator loses by its score; the reward is 0. Refused with 1, 2, 3 or 5."""
    return call("get_inactivity_penalty_deltas", rules, state_slot, validator)


# Finality


def get_finality_delay(settings: Settings, state_slot: int, finalized_epoch: int) -> int:
    """Previous epoch less finalized epoch. Refused with 1, 2, 3 or 5."""
    return call("get_finality_delay", settings, state_slot, finalized_epoch)


def is_in_inactivity_leak(settings: Settings, state_slot: int, finalized_epoch: int) -> bool:
    """Whether previous epoch less finalized epoch is above min_epochs_to_inactivity_penalty. Refused with 1, 2, 3 or 5."""
    return call("is_in_inactivity_leak", settings, state_slot, finalized_epoch)


def weigh_justification_and_finalization(settings: Settings, roots: BytesLike, finality: Finality, total: int, previous: int,
                                         current: int) -> Finality:
    """The finality from three totals: of all that are active, and of those that hit the previous and the current target. Refused
    with 1, 2, 3, 4 or 5."""
    return call("weigh_justification_and_finalization", settings, roots, finality, total, previous, current)


# Votes not yet counted


def unknown_votes(settings: Settings, roots: BytesLike, finality: Finality, registry: NumbersLike, marks: NumbersLike) -> Votes:
    """Each finalized epoch that justification gives for some filling of the unknown target flags, and no other, and for either
    target epoch whether its two-thirds test passes in all, some or no fillings. marks has one of enum mark a validator; a flag that
    it calls unknown counts for nothing, whatever is stored. 3 is also for a mark over 3; 4 where either target's root cannot be
    looked up, wanted or not, and that before 5, which is given where some filling overflows. Up to epoch 1 the finalized epoch
    alone is listed, both tests pass in none, and neither 4 nor 5 is given. Refused with 1, 2, 3, 4 or 5."""
    return call("unknown_votes", settings, roots, finality, registry, marks)


# Deneb's registry step and close


def deneb_process_registry_updates(rules: DenebRules, state_slot: int, finalized_epoch: int, queue: Optional[ExitQueue],
                                   opening: NumbersLike, *, out: Optional[Buffer] = None) -> Queued:
    """The registry after queueing, ejecting and activating, and the pair after the step. As many are activated as the smaller of
    the churn limit and max_per_epoch_activation_churn_limit says; ejections go by the churn limit. Refused with 1, 2, 3, 8 or 5.
    After 1, 2, 3 or 8 closing is as it was, after 5 it holds the opening's numbers."""
    return call("deneb_process_registry_updates", rules, state_slot, finalized_epoch, pair_of(queue, opening), opening, out)


# Electra's steps


def electra_process_registry_updates(rules: ElectraRules, state_slot: int, finalized_epoch: int, churn: ExitChurn,
                                     opening: NumbersLike, *, out: Optional[Buffer] = None) -> Tuple[Buffer, ExitChurn]:
    """The registry after one loop in register order: who is queued, who is ejected by balance, and who is activated, of which there
    is no limit; answered are the exit queue's two numbers after the step. Refused with 1, 2, 3 or 5. After 1, 2 or 3 closing is as
    it was, after 5 it holds the opening's numbers."""
    return call("electra_process_registry_updates", rules, state_slot, finalized_epoch, churn, opening, out)


def electra_process_slashings(rules: ElectraRules, state_slot: int, slashings: NumbersLike, opening: NumbersLike, *,
                              out: Optional[Buffer] = None) -> Buffer:
    """The registry less the slashing penalties, which go by whole increments. Refused with 1, 2, 3 or 5. After 1, 2 or 3 closing is
    as it was, after 5 it holds the opening's numbers."""
    return call("electra_process_slashings", rules, state_slot, slashings, opening, out)


def electra_process_pending_deposits(rules: ElectraRules, state_slot: int, finalized_epoch: int, numbers: DepositNumbers,
                                     registry: NumbersLike, compounding: NumbersLike, deposits: NumbersLike, *,
                                     out: Sequence[Optional[Buffer]] = (None, None, None)) -> Tuple[Buffer, Buffer, Buffer, Deposited]:
    """The queue of deposits worked off, as far as the finalized slot, the churn limit and max_pending_deposits_per_epoch let it.
    compounding has a number a validator, 1 where its credentials begin with 0x02 and else 0; deposits five numbers each, in the
    queue's order: key, compounding, amount, slot, and 1 where the signature is valid, which the caller has found out. A key below N
    is that validator's, from N on one that no validator has, the same number for the same key; it is below N + D, where D deposits
    are lent. At the front of the closing buffers stand the validators with the new ones, their credentials, and the queue: the
    rest, and behind it those postponed; what stands behind them stays. places is a list of D numbers to work in: it may hold
    anything, and holds anything afterwards. Refused with 1, 2, 3 or 5. After 1, 2 or 3 closing_registry, closing_compounding and
    closing_deposits are as they were, after 5 they hold the opening's numbers at their front, and behind them what they held."""
    out = buffers(out, "closing_registry", "closing_compounding", "closing_deposits")
    return call("electra_process_pending_deposits", rules, state_slot, finalized_epoch, numbers, registry, compounding, deposits,
                out[0], out[1], out[2], None)


def electra_process_pending_consolidations(rules: ElectraRules, state_slot: int, registry: NumbersLike, consolidations: NumbersLike,
                                           *, out: Sequence[Optional[Buffer]] = (None, None)) -> Tuple[Buffer, Buffer, int]:
    """The queue of consolidations worked off: two numbers each, source and target, which are validators' numbers. A slashed source
    is passed over, one that is not yet withdrawable in the next epoch stops; of another the smaller of balance and effective
    balance goes to the target. What is left stands at the front of closing_consolidations, and what stands behind it stays. Refused
    with 1, 2, 3 or 5. After 1, 2 or 3 closing_registry and closing_consolidations are as they were, after 5 they hold the opening's
    numbers."""
    out = buffers(out, "closing_registry", "closing_consolidations")
    return call("electra_process_pending_consolidations", rules, state_slot, registry, consolidations, out[0], out[1])


def electra_process_effective_balance_updates(rules: ElectraRules, compounding: NumbersLike, opening: NumbersLike, *,
                                              out: Optional[Buffer] = None) -> Buffer:
    """The registry with the new effective balances: at most max_effective_balance_electra of a validator whose compounding is 1,
    and min_activation_balance of another. Refused with 1, 2, 3 or 5. After 1, 2 or 3 closing is as it was, after 5 it holds the
    opening's numbers."""
    return call("electra_process_effective_balance_updates", rules, compounding, opening, out)


# Electra's helpers


def electra_get_balance_churn_limit(rules: ElectraRules, state_slot: int, registry: NumbersLike) -> int:
    """How much balance may enter or leave in an epoch, in Gwei: a whole number of increments. Refused with 1, 2, 3 or 5."""
    return call("electra_get_balance_churn_limit", rules, state_slot, registry)


def electra_get_activation_exit_churn_limit(rules: ElectraRules, state_slot: int, registry: NumbersLike) -> int:
    """The smaller of electra_get_balance_churn_limit and max_per_epoch_activation_exit_churn_limit, in Gwei. Refused with 1, 2, 3
    or 5."""
    return call("electra_get_activation_exit_churn_limit", rules, state_slot, registry)


def electra_get_max_effective_balance(rules: ElectraRules, compounding: int) -> int:
    """The largest effective balance of a validator whose compounding is 1, or 0, in Gwei. Refused with 1, 2 or 3."""
    return call("electra_get_max_effective_balance", rules, compounding)


def electra_compute_exit_epoch_and_update_churn(rules: ElectraRules, state_slot: int, churn: ExitChurn, exit_balance: int,
                                                registry: NumbersLike) -> ExitChurn:
    """The exit queue's two numbers once a balance leaves: the earliest exit epoch is the epoch at which it does. What does not fit
    goes to further epochs, a churn limit each. Refused with 1, 2, 3 or 5."""
    return call("electra_compute_exit_epoch_and_update_churn", rules, state_slot, churn, exit_balance, registry)


def electra_initiate_validator_exit(rules: ElectraRules, state_slot: int, index: int, churn: ExitChurn, registry: NumbersLike, *,
                                    out: Optional[Buffer] = None) -> Tuple[Buffer, ExitChurn]:
    """The registry with an exit and a withdrawable epoch for validator `index`, by its effective balance; answered are the exit
    queue's two numbers afterwards. A validator whose exit epoch is not FAR keeps it. Refused with 1, 2, 3 or 5. After a refusal
    registry is as it was."""
    return call("electra_initiate_validator_exit", rules, state_slot, index, churn, (registry, out))
