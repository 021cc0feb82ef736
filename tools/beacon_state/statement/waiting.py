"""When validators start earning, and when one that is asked could leave: numbers of proved calls, and dates by the proved clock."""
from typing import NamedTuple, Optional

import altair_close as altair

from .. import closing
from ..containers import from_on
from ..errors import Bad
from .epoch import FAR, dated

MOST = 1000  # whose place in the queue is worked out: each takes a pass over the registry


class Wait(NamedTuple):
    """A validator that is not active yet. `closes` is how many further closes demand 3 promises it after, 0 where its activation epoch is
    set; `latest` the epoch that it is active from, at the latest. `why` says why there are no such numbers."""

    index: int
    ahead: Optional[int] = None
    closes: Optional[int] = None
    latest: Optional[int] = None
    date: Optional[str] = None
    why: str = ""


class Pending(NamedTuple):
    """A deposit that the last close left in the queue (document 03, F-3): how many are ahead of it (k), their amounts with its own (K), and
    floor(k / p) + max(1, ceil(K / c)), the number of further closes after which it has been applied or postponed; `latest` is the epoch that
    begins behind them. `why` says what that waits for, or why there is no such number."""

    place: int
    pubkey: str
    amount: int
    slot: int
    ahead: int
    sum: int
    closes: Optional[int] = None
    latest: Optional[int] = None
    date: Optional[str] = None
    why: str = ""


class Exit(NamedTuple):
    """What an order to leave would get now: the exit epoch, the withdrawable epoch and their dates."""

    index: int
    exit_epoch: Optional[int] = None
    exit_date: Optional[str] = None
    withdrawable_epoch: Optional[int] = None
    withdrawable_date: Optional[str] = None
    why: str = ""


def date_of(clock, epoch):
    """The first second of an epoch, as a date; '' where there is no clock or no such second."""
    try:
        return dated(altair.first_second_of_epoch(clock, epoch)) if clock else ""
    except altair.Refused:
        return ""


def waits(after, chosen):
    """A Wait for each chosen validator that is not yet active in the epoch that follows the last close."""
    numbers, opening = after.registry, after.opening
    epoch, settings, done = opening.epoch, smallest_limit(opening), 0
    for index in chosen:
        row = numbers[10 * index : 10 * index + 10]
        active = row[altair.ACTIVATION_EPOCH]
        if active <= epoch + 1 or row[altair.EXIT_EPOCH] != FAR:
            continue
        if active != FAR:
            yield Wait(index, 0, 0, active, date_of(opening.clock, active))
            continue
        eligible, finalized = row[altair.ACTIVATION_ELIGIBILITY_EPOCH], after.finality.finalized_checkpoint.epoch
        if eligible == FAR:
            yield Wait(index, why="it has not joined the queue: its effective balance is too low, or it was deposited after the last close")
        elif eligible > finalized:
            yield Wait(index, why=f"it joins those that wait once epoch {eligible} is finalized; epoch {finalized} is now")
        elif done < MOST:
            done += 1
            yield counted_wait(after, settings, index, epoch)
        else:
            yield Wait(index, why=f"not worked out, as it is of the first {MOST} that wait: --validators chooses it")


def counted_wait(after, settings, index, epoch):
    """Of one that waits in demand 3's words."""
    opening = after.opening
    if from_on(opening.fork, "electra"):
        ahead, closes = 0, 1  # no queue and no limit: the next accepted close (document 03, F-3)
    else:
        _, ahead, closes = altair.activation_wait(settings, after.finality.finalized_checkpoint.epoch, after.registry, index)
    latest = altair.compute_activation_exit_epoch(settings, epoch + closes)
    return Wait(index, ahead, closes, latest, date_of(opening.clock, latest))


def smallest_limit(opening):
    """The settings with the smallest activation churn limit that the fork allows in the place of m."""
    settings = opening.rules
    if opening.fork == "deneb":
        most = opening.settings["MAX_PER_EPOCH_ACTIVATION_CHURN_LIMIT"]
        return settings._replace(min_per_epoch_churn_limit=min(settings.min_per_epoch_churn_limit, most))
    return settings


def least_limits(settings):
    """p and c of the claim on deposits: the most deposits a close takes, and the smallest churn limit that the settings allow."""
    increment = settings["EFFECTIVE_BALANCE_INCREMENT"]
    least = settings["MIN_PER_EPOCH_CHURN_LIMIT_ELECTRA"] // increment * increment if increment else 0
    return settings["MAX_PENDING_DEPOSITS_PER_EPOCH"], min(least, settings["MAX_PER_EPOCH_ACTIVATION_EXIT_CHURN_LIMIT"])


def pending(after, is_chosen):
    """A Pending for each deposit of the closing queue whose key, or validator's number, is chosen: at most MOST of them."""
    opening, queue = after.opening, after.deposits
    if not opening.electra or not len(queue):
        return
    known, slots = opening.record.validators, opening.rules.slots_per_epoch
    p, c = least_limits(opening.settings)
    finalized = after.finality.finalized_checkpoint.epoch
    bridge = opening.electra.eth1_deposit_index < opening.electra.deposit_requests_start_index
    summed = latest_slot = done = 0
    any_request = False
    for place in range(len(queue) // 5):
        key, _, amount, slot, _ = queue[5 * place : 5 * place + 5]
        summed, latest_slot, any_request = summed + amount, max(latest_slot, slot), any_request or slot > 0
        pubkey = b"" if opening.keys is None else opening.keys[key] if key < known else opening.electra.new_keys[key - known]
        if not is_chosen(key if key < known else None, pubkey):
            continue
        done += 1
        if done > MOST:
            return
        found = Pending(place, "0x" + pubkey.hex() if pubkey else f"key {key}", amount, slot, place, summed)  # a record file has numbers
        if p == 0 or c == 0:
            yield found._replace(why="no number of closes will do: a limit of the settings is 0")
        elif bridge and any_request:
            yield found._replace(why="the bridge's deposits come first: none that came by a request is taken until they are all there")
        else:
            closes = place // p + max(1, -(-summed // c))
            wanted = -(-latest_slot // slots)  # the first epoch whose start slot is not below
            if wanted > finalized:
                why = f"counted from the close that finds epoch {wanted} finalized; epoch {finalized} is now"
                yield found._replace(closes=closes, why=why)
            else:
                latest = opening.epoch + closes + 1
                yield found._replace(closes=closes, latest=latest, date=date_of(opening.clock, latest))


def exits(after, asked):
    """An Exit for each that is asked for, each as if its order were the only one, taken in the epoch that follows the close."""
    opening, numbers = after.opening, after.registry
    period = opening.settings["SHARD_COMMITTEE_PERIOD"] if asked else 0
    epoch = opening.epoch + 1
    slot = altair.compute_start_slot_at_epoch(opening.rules, epoch)
    for index in asked:
        if index >= len(numbers) // 10:
            raise Bad(f"--exit {index}: there is no such validator: the record has {len(numbers) // 10}")
        row = numbers[10 * index : 10 * index + 10].tolist()
        if row[altair.EXIT_EPOCH] != FAR:
            yield Exit(index, why=f"it leaves already, at epoch {row[altair.EXIT_EPOCH]}")
        elif not altair.is_active_validator(row, epoch):
            yield Exit(index, why="it is not active: an order would be refused")
        elif epoch < row[altair.ACTIVATION_EPOCH] + period:
            first = row[altair.ACTIVATION_EPOCH] + period
            yield Exit(index, why=f"it has not been active for {period} epochs: an order is taken from epoch {first} on")
        else:
            yield ordered(after, slot, index, row)


def ordered(after, slot, index, row):
    """In the closed registry itself, without a copy of it: the validator's numbers are put back afterwards."""
    opening, numbers = after.opening, after.registry
    try:
        if opening.electra:  # by balance
            rules = closing.electra_rules(opening.record, opening.settings)
            altair.electra_initiate_validator_exit(rules, slot, index, after.queue, numbers, out=numbers)
        else:
            altair.initiate_validator_exit(opening.rules, slot, index, after.queue, numbers, out=numbers)
        leaves, withdrawable = numbers[10 * index + altair.EXIT_EPOCH], numbers[10 * index + altair.WITHDRAWABLE_EPOCH]
    except altair.Refused as refused:
        return Exit(index, why=str(refused))
    finally:
        for place, number in enumerate(row):
            numbers[10 * index + place] = number
    return Exit(index, leaves, date_of(opening.clock, leaves), withdrawable, date_of(opening.clock, withdrawable))
