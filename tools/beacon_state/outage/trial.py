"""Epochs tried through the library, for records of any size, with the text of the proved program try_outage (document 02, R-12)."""
from array import array
from typing import NamedTuple

import altair_close as altair

CURRENT = altair.CURRENT_EPOCH_PARTICIPATION
WIDTH = altair.VALIDATOR_LENGTH


class Trial(NamedTuple):
    """The head line of each close, 0 or the number of the refusal that ended it, the registry afterwards, and the balances of the watched
    validators: as they are in the record, and after each close."""

    heads: list
    refusal: int
    registry: memoryview
    balances: dict


def last_slot_of_next(slot, slots_per_epoch):
    return (slot // slots_per_epoch + 2) * slots_per_epoch - 1


def put_roots(roots, root, first, end):
    """The root at each slot from the first up to the one before the end; in a bytearray of 32 bytes a place."""
    places = len(roots) // 32
    if end - first >= places:
        roots[:] = root * places
        return
    begin, stop = first % places, end % places
    if begin <= stop:
        roots[32 * begin : 32 * stop] = root * (stop - begin)
    else:
        roots[32 * begin :] = root * (places - begin)
        roots[: 32 * stop] = root * stop


def is_away(pair, epoch):
    return pair[0] <= epoch <= pair[1]


def head_line(settings, slot, finality, registry):
    head = altair.listing_head(settings, slot, finality, registry)
    return (f"epoch {head.epoch} justified {head.justified_epoch} finalized {head.finalized_epoch} bits {head.justification_bits} "
            f"charged {head.charged} %d %d %d" % head.raised)


def numbers(values):
    """A writable copy of 64-bit numbers."""
    return memoryview(bytearray(memoryview(values).cast("B"))).cast("Q")


def tried(record, epochs, root, away, watched=(), progress=lambda done: None):
    """The Trial of a record. `away` has for a validator the first and the last epoch that it is absent."""
    settings, finality, queue, roots = record.settings, record.finality, record.queue, bytearray(record.roots)
    opening, slashings = numbers(record.registry), numbers(record.slashings)
    closing, slashings_after = numbers(record.registry), numbers(record.slashings)
    count = len(opening) // WIDTH
    amounts = memoryview(bytearray(72 * count)).cast("Q")
    there = memoryview(array("Q", [7]) * count)
    heads, balances, refusal = [], {who: [opening[WIDTH * who + altair.BALANCE]] for who in watched}, 0
    for done in range(epochs):
        slot = last_slot_of_next(finality.slot, settings.slots_per_epoch)
        put_roots(roots, root, finality.slot, slot)
        opening[CURRENT::WIDTH] = there
        for who, pair in away.items():
            if is_away(pair, slot // settings.slots_per_epoch):
                opening[WIDTH * who + CURRENT] = 0
        try:
            lent = finality._replace(slot=slot), queue, opening, slashings, bytes(roots)
            closed = altair.close(settings, *lent, out=(closing, slashings_after, amounts))
        except altair.Refused as refused:
            refusal = refused.number
            break
        heads.append(head_line(settings, slot, closed.finality, opening))
        finality, queue = closed.finality, closed.queue
        opening, closing, slashings, slashings_after = closing, opening, slashings_after, slashings
        for who in watched:
            balances[who].append(opening[WIDTH * who + altair.BALANCE])
        progress(done + 1)
    return Trial(heads, refusal, opening, balances)


def text(record, trial):
    """All that the program prints of it, line by line."""
    yield from trial.heads
    if trial.refusal:
        yield f"refused {trial.refusal}"
        return
    before, after = record.registry, trial.registry
    try:
        # all of them before the first is handed out: a net change may not fit
        yield from ["%d %d %d %d %d %d" % line for line in altair.listing_lines(before, after)]
    except altair.Refused as refused:
        yield f"refused {refused.number}"
