"""A close that is run one step a call, and exit orders that are taken meanwhile and carried out at its end."""
from array import array
from typing import List, Optional, Sequence

from ._arguments import Numbers, number as whole
from ._record import Record
from ._refusals import Fault, Refused
from ._signatures import buffers, call, fault, lend, pair_of, promised
from ._types import (AMOUNTS_LENGTH, VALIDATOR_LENGTH, Buffer, BytesLike, Closed, ExitQueue, Finality, NumbersLike, Running, StoreLike, Told,
                     held)


@promised
def close_step(number: int, running: Running, store: StoreLike, finality: Finality, queue: ExitQueue, registry: NumbersLike,
               slashings: NumbersLike, roots: BytesLike, *, out: Sequence[Buffer]) -> Told:
    """It gives Told, which has the close as it is now, and raises nothing where the call is refused. `store` and `out` are as those of
    `close`, and the same at every call of one close."""
    lent = buffers(out, "registry", "slashings", "amounts")
    return call("close_step", number, running, store, finality, queue, registry, slashings, roots, *lent)


@promised
def take_order(running: Running, validator: int, start: int, orders: Buffer) -> Told:
    """It gives Told, and raises nothing where the call is refused."""
    return call("take_order", running, validator, start, orders)


@promised
def carry_out(store: StoreLike, shard_committee_period: int, running: Running, closing_registry: Buffer, orders: NumbersLike,
              answers: Buffer) -> Told:
    """It gives Told, and raises nothing where the call is refused."""
    return call("carry_out", store, shard_committee_period, running, closing_registry, orders, answers)


class Ended(Exception):
    """The close had ended before the call: nothing was tested, and nothing changed."""


class Desk:
    """A close between its calls, with buffers of its own. The opening stays as it is until it has ended.

    >>> from altair_close import MINIMAL, Desk, Finality, Record, Store
    >>> validator = [32 * 10**9, 0, 0, 0, 2**64 - 1, 2**64 - 1, 32 * 10**9, 7, 7, 0]
    >>> desk = Desk(Record(MINIMAL, Finality(31), validator * 3, [0] * 64, bytes(32 * 64)), Store.of((3, MINIMAL)), room=2)
    >>> desk.step()
    >>> desk.order(1, 0)
    >>> desk.order(9, 0)
    >>> while desk.running.done < 8:
    ...     desk.step()
    >>> desk.carry_out(0)
    [0, 9]
    >>> desk.closed().queue
    ExitQueue(last_epoch=8, number=1)
    """

    def __init__(self, record: Record, store: StoreLike, room: int) -> None:
        """Of a record, by a Store, Rules or Settings, with room for so many orders."""
        if not isinstance(record, Record):
            raise TypeError(f"record: Record is wanted, not {type(record).__name__}")
        room = whole("room", room)
        lend("read_rules", (store, 0), {})  # what is wrong with the store is said now
        self.record, self.store, self.running = record, store, Running()
        self.queue = pair_of(record.queue, record.registry)
        self.registry, self.slashings = (held(self._checked(name)) for name in ("registry", "slashings"))
        self.amounts = array("Q", bytes(8 * AMOUNTS_LENGTH * (len(self.registry) // VALIDATOR_LENGTH)))
        # two numbers an order, of which the first running.orders were taken; they stay, also after a close that was refused
        self.orders, self.answers = array("Q", bytes(16 * room)), array("Q", bytes(8 * room))

    def _checked(self, name: str) -> memoryview:
        kind = Numbers(row=VALIDATOR_LENGTH if name == "registry" else None)
        return kind.checked(f"record.{name}", kind.made(f"record.{name}", getattr(self.record, name)), False).view

    def _told(self, name: str, *values: object) -> None:
        told = call(name, *values)
        self.running = told.running
        if told.ended:
            raise Ended("the close has ended")
        if told.refusal:
            raise Refused(told.refusal, fault=self._fault(name, values) if told.refusal == 1 else None)

    @staticmethod
    def _fault(name: str, values: Sequence[object]) -> Optional[Fault]:
        return fault(name, lend(name, values, {}))

    def step(self) -> None:
        """The next of the eight steps. Refused where it is; running.done is then 9 where that has ended the close."""
        r = self.record
        self._told("close_step", min(self.running.done + 1, 8), self.running, self.store, r.finality, self.queue, r.registry, r.slashings,
                   r.roots, self.registry, self.slashings, self.amounts)

    def order(self, validator: int, start: int) -> None:
        """Takes an exit order, between the first step and the end."""
        self._told("take_order", self.running, validator, start, self.orders)

    def carry_out(self, shard_committee_period: int) -> List[int]:
        """The ninth call: what came of each order, 0 or the refusal's number."""
        tried = self.running.orders
        self._told("carry_out", self.store, shard_committee_period, self.running, self.registry, self.orders, self.answers)
        return list(self.answers[:tried])

    def closed(self) -> Optional[Closed]:
        """What the whole close gives, once it has ended and was not refused, with the exits carried out; else None."""
        at = self.running
        if at.done != 9 or at.refusal:
            return None
        return Closed(at.finality, at.queue, self.registry, self.slashings, self.amounts, at.raised, at.test).went_by(self.store)
