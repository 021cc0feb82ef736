"""One close: what is kept of it for the chosen validators."""
from array import array
from datetime import datetime, timedelta, timezone
from typing import Any, NamedTuple, Optional

import altair_close as altair

from .. import closing
from ..errors import Bad
from ..keys import Extended

FAR = altair.FAR_FUTURE_EPOCH
# what a close books by rule; Electra's three stand behind Altair's nine
RULES = altair.Amounts._fields
ELECTRA = ("deposited", "consolidated_out", "consolidated_in")
ALL = (*RULES, *ELECTRA)
TAKEN = tuple(name for name in ALL if name.endswith(("_taken", "_out")))
GIVEN = tuple(name for name in ALL if name not in TAKEN)
KEPT = {"effective_balance": 0, "slashed": 1, "activation_eligibility_epoch": 2, "activation_epoch": 3, "exit_epoch": 4,
        "withdrawable_epoch": 5, "closing_balance": 6}


class Opening(NamedTuple):
    """What is closed, and where it comes from. `clock` is None where nobody has said when slot 0 began; `keys` where there are none."""

    name: str
    fork: str
    record: Any
    settings: Any
    clock: Optional[altair.Clock]
    keys: Any = None
    network: bytes = b""
    electra: Any = None  # the parts that Electra's record has beside Altair's

    @property
    def rules(self):
        return altair.Settings(*self.record.settings)

    @property
    def epoch(self):
        return altair.get_current_epoch(self.rules, self.record.slot)


class Epoch(NamedTuple):
    """A close. `chosen` are the validators that it is kept of, and `columns` a number for each of them under each name."""

    name: str
    fork: str
    number: int
    slot: int
    slots_per_epoch: int
    clock: Optional[altair.Clock]
    network: bytes
    chosen: Any
    columns: dict
    finality: altair.Finality
    validators: int
    joined: int = 0  # how many of them deposits made, in this close

    def dates(self):
        """The first and the last second, or None."""
        return self.clock and (altair.first_second_of_epoch(self.clock, self.number), altair.last_second_of_epoch(self.clock, self.number))


class After(NamedTuple):
    """What the last close left, for what comes next: `queue` is the exit queue's pair, from Electra on the two numbers of its churn, and
    `deposits` the pending ones."""

    opening: Opening
    finality: altair.Finality
    registry: Any
    queue: Any
    deposits: Any = ()
    keys: Any = None


def dated(second, seconds=True):
    when = datetime(1970, 1, 1, tzinfo=timezone.utc) + timedelta(seconds=min(second, 253402300799))
    return f"{when:%Y-%m-%d %H:%M:%S} UTC" if seconds else f"{when:%Y-%m-%d %H:%M} UTC"


def column(numbers, width, place, chosen):
    """One number of each chosen validator; 0 of one that the numbers do not reach."""
    if chosen is None:
        made = array("Q")
        made.frombytes(numbers[place::width].tobytes())
        return made
    return array("Q", [numbers[width * index + place] if width * index < len(numbers) else 0 for index in chosen])


def close(opening, choose):
    """The Epoch of an opening and what it left. `choose(count, keys)` says which of so many validators are kept, None for all. Refused where
    the library refuses."""
    record, of_electra, keys = opening.record, opening.electra, opening.keys
    try:
        closed = closing.electra_close(record, of_electra, opening.settings) if of_electra else closing.close(record, opening.fork, opening.settings)
    except altair.Refused as refused:
        raise Bad(f"{opening.name}: {refused}") from None
    before, after, amounts = (closing.numbers(part) for part in (record.registry, closed.registry, closed.amounts))
    rules, count = ALL if of_electra else RULES, len(after) // 10
    if of_electra and keys is not None:
        keys = Extended(keys, of_electra.joined(record.validators, count))
    chosen = choose(count, keys)
    # a validator that deposits made had nothing
    columns = {"opening_balance": column(before, 10, 6, chosen)}
    columns["opening_balance"].extend([0] * (count - record.validators) if chosen is None else ())
    for place, name in enumerate(rules):
        columns[name] = column(amounts, len(rules), place, chosen)
    for name, place in KEPT.items():
        columns[name] = column(after, 10, place, chosen)
    made = Epoch(opening.name, opening.fork, opening.epoch, record.slot, opening.rules.slots_per_epoch, opening.clock, opening.network,
                 range(count) if chosen is None else chosen, columns, closed.finality, count, count - record.validators)
    left = (closed.churn, closed.deposits, keys) if of_electra else (closed.queue, (), keys)
    return made, After(opening, closed.finality, after, *left)


def test_open(opening):
    """Refuses a record that has been closed already: demand 3 is about closes of later epochs. An epoch's close alone sets these."""
    record, epoch = opening.record, opening.epoch
    numbers, lookahead = closing.numbers(record.registry), opening.rules.max_seed_lookahead
    largest = lambda place: max(set(numbers[place::10].tolist()) - {FAR}, default=0)
    flagged = lambda place: any(numbers[place::10].tobytes())
    justified = int.from_bytes(record.checkpoints[40:48], "little")
    why = ""
    if epoch > 0 and justified >= epoch:
        why = f"its current justified epoch is {justified}"
    elif largest(altair.ACTIVATION_ELIGIBILITY_EPOCH) > epoch:
        why = f"an activation_eligibility_epoch is {largest(altair.ACTIVATION_ELIGIBILITY_EPOCH)}"
    elif largest(altair.ACTIVATION_EPOCH) > epoch + lookahead:
        why = f"an activation_epoch is {largest(altair.ACTIVATION_EPOCH)}"
    elif not flagged(altair.CURRENT_EPOCH_PARTICIPATION) and flagged(altair.PREVIOUS_EPOCH_PARTICIPATION):
        why = "nobody has a flag of this epoch"
    if why:
        raise Bad(f"{opening.name}: epoch {epoch} is closed already: {why}, which a close leaves; --anyway closes it all the same")


def status(columns, place, epoch):
    """The status at an epoch, by the Beacon API's names."""
    eligible, active, leaves, withdrawable = (columns[name][place] for name in (
        "activation_eligibility_epoch", "activation_epoch", "exit_epoch", "withdrawable_epoch"))
    slashed = columns["slashed"][place]
    if epoch < active:
        return "pending_initialized" if eligible == FAR else "pending_queued"
    if epoch < leaves:
        return "active_ongoing" if leaves == FAR else "active_slashed" if slashed else "active_exiting"
    if epoch < withdrawable:
        return "exited_slashed" if slashed else "exited_unslashed"
    return "withdrawal_possible" if columns["closing_balance"][place] else "withdrawal_done"
