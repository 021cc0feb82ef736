"""A record of Electra or Fulu, with buffers of its own; and its file."""
from typing import Any, Dict, Iterator, NamedTuple, Optional, Sequence, Union

from . import _electra_file
from ._calls import listing_head
from ._close import electra_close, listing_lines
from ._files import read_electra_record, write_whole
from ._record import Record
from ._refusals import Refused
from ._types import (DEPOSIT_LENGTH, DEPOSIT_PUBKEY, DEPOSIT_VALID, Bellatrix, Buffer, BytesLike, DepositNumbers, Electra,
                     ElectraAmounts, ElectraClosed, ElectraRules, ExitChurn, Finality, Raised, flat, held)


class _ElectraRecord(NamedTuple):
    rules: ElectraRules
    finality: Finality
    churn: ExitChurn
    numbers: DepositNumbers
    registry: Any
    compounding: Any
    slashings: Any
    roots: Any
    deposits: Any
    consolidations: Any


class ElectraRecord(_ElectraRecord):
    """All that a close of Electra or Fulu is handed, and hands back: the lists are buffers of 64-bit numbers, roots are bytes.

    >>> from altair_close import MAINNET, MAINNET_BELLATRIX, MAINNET_ELECTRA, DepositNumbers, ElectraRecord, ElectraRules, ExitChurn, Finality
    >>> settings = MAINNET._replace(slots_per_epoch=8, slots_per_historical_root=64, epochs_per_slashings_vector=64)
    >>> rules = ElectraRules(settings, MAINNET_BELLATRIX, MAINNET_ELECTRA)
    >>> validator = [32 * 10**9, 0, 0, 0, 2**64 - 1, 2**64 - 1, 32 * 10**9, 0, 0, 0]
    >>> record = ElectraRecord(rules, Finality(31), ExitChurn(), DepositNumbers(), validator * 5, [0] * 5, [0] * 64, bytes(32 * 64),
    ...                        [5, 0, 32 * 10**9, 0, 1], [])
    >>> closed = record.close()
    >>> closed.registry[6], len(closed.compounding), list(closed.booked())[5].deposited
    (31996800000, 6, 32000000000)
    """

    __slots__ = ()

    @classmethod
    def read(cls, file: BytesLike) -> "ElectraRecord":
        """The record of a file's bytes: a record file, and Electra's part behind it."""
        view = memoryview(bytes(memoryview(file)))
        fault = _electra_file.fault(view)
        if fault:
            raise Refused(fault.refusal, fault.position, fault.field)
        record, part = Record.read(view[: _electra_file.begins(view)]), _electra_file.Part(view)
        rules = ElectraRules(record.settings, part.of(Bellatrix), part.of(Electra))
        return cls(rules, record.finality, part.of(ExitChurn), part.of(DepositNumbers), record.registry, held(part.compounding()),
                   record.slashings, record.roots, held(part.deposits()), held(part.consolidations()))

    @classmethod
    def open(cls, path: Any) -> "ElectraRecord":
        """The record of the file at a path; '-' is standard input."""
        return cls.read(read_electra_record(path))

    def write(self) -> bytes:
        """The bytes of the record's file."""
        record = Record(self.rules.settings, self.finality, self.registry, self.slashings, self.roots)
        return record.write() + _electra_file.part((*self.rules.bellatrix, *self.rules.electra), (*self.churn, *self.numbers),
                                                   self.compounding, self.deposits, self.consolidations)

    def save(self, path: Any) -> None:
        """Writes the record's file to a path; what stood there stays where it cannot be written."""
        write_whole(path, [self.write()])

    def closing(self, *, out: Sequence[Optional[Buffer]] = (None,) * 6) -> ElectraClosed:
        """What the close says of this record, amounts too: ElectraClosed. `out` is as that of electra_close."""
        return electra_close(*self, out=out)

    def close(self) -> "ClosedElectraRecord":
        """The closed record; rules and roots stay. The deposits that are left have keys of its own numbering, so that it can be closed again."""
        closed = self.closing()
        deposits = renumbered(len(flat(self.compounding)), self.deposits, len(closed.compounding), closed.deposits)
        numbers = self.numbers._replace(deposit_balance_to_consume=closed.deposit_balance_to_consume)
        return ClosedElectraRecord(self.rules, closed.finality, closed.churn, numbers, closed.registry, closed.compounding, closed.slashings,
                                   self.roots, deposits, closed.consolidations).after(closed)

    def listing(self, closed: Union[ElectraClosed, "ElectraRecord"]) -> Iterator[str]:
        """The lines of the listing, as text, of this record and the closed one: a line for each validator that there is then, with an opening
        balance of 0 where a deposit made it. Refused, there is none of them."""
        after = flat(closed.registry)
        opening = held(self.registry)
        opening.extend([0] * (len(after) - len(opening)))
        lines = ["%d %d %d %d %d %d" % line for line in listing_lines(opening, after)]
        head = listing_head(self.rules.settings, self.finality.slot, closed.finality, self.registry)
        yield (
            f"epoch {head.epoch} justified {head.justified_epoch} finalized {head.finalized_epoch} "
            f"bits {head.justification_bits} charged {head.charged} %d %d %d" % head.raised
        )
        yield from lines

    def __reduce__(self) -> Any:
        return ElectraRecord, self._held()

    def _held(self) -> Any:
        rules, finality, churn, numbers, registry, compounding, slashings, roots, deposits, consolidations = self
        return (rules, finality, churn, numbers, held(registry), held(compounding), held(slashings), bytes(memoryview(roots)), held(deposits),
                held(consolidations))


class ClosedElectraRecord(ElectraRecord):
    """A closed record of Electra or Fulu, which knows its close: the amounts, which totals were raised, and which test finalized."""

    closed: Optional[ElectraClosed] = None  # none where it was made otherwise, as by _replace

    def after(self, closed: ElectraClosed) -> "ClosedElectraRecord":
        self.closed = closed
        return self

    def booked(self) -> Iterator[ElectraAmounts]:
        """The ElectraAmounts of every validator, in order."""
        return self._close().booked()

    @property
    def raised(self) -> Raised:
        return self._close().raised

    @property
    def test(self) -> int:
        return self._close().test

    def _close(self) -> ElectraClosed:
        if self.closed is None:
            raise ValueError("closed: this record was changed after its close, and knows it no more")
        return self.closed

    def __reduce__(self) -> Any:
        return _closed_again, (self._held(), self.closed)


def _closed_again(values: Any, closed: Optional[ElectraClosed]) -> ClosedElectraRecord:
    again = ClosedElectraRecord(*values)
    return again.after(closed) if closed else again


def renumbered(count: int, deposits: Any, after: int, left: Any) -> Any:
    """The deposits that a close has left, with keys of the closed record's numbering: `count` validators were there and `deposits` lent, and
    `after` are there now. Those that deposits made are numbered in the order of their first valid deposits; behind all validators come
    the keys that none has."""
    named: Dict[int, int] = {}
    opening = flat(deposits)
    for at in range(0, len(opening), DEPOSIT_LENGTH):
        key = opening[at + DEPOSIT_PUBKEY]
        if count + len(named) < after and key >= count and opening[at + DEPOSIT_VALID] == 1 and key not in named:
            named[key] = count + len(named)
    made = held(left)
    for at in range(DEPOSIT_PUBKEY, len(made), DEPOSIT_LENGTH):
        if made[at] >= count:
            made[at] = named.setdefault(made[at], count + len(named))
    return made
