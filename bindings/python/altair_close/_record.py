"""A record: its file over lent buffers, and one with buffers of its own."""
from typing import Any, Iterator, NamedTuple, Optional, Sequence, Union

from . import _layout
from ._arguments import number, struct_of
from ._calls import charged, listing_head, read_header, write_file
from ._close import close, deneb_close, listing_lines
from ._files import read_record, write_whole
from ._refusals import Refused
from ._signatures import buffers, call, promised
from ._types import (FORK_ALTAIR, Amounts, Bellatrix, Buffer, BytesLike, Closed, DenebRules, ExitQueue, Finality, Raised, Rules, Settings,
                     StoreLike, held)


@promised
def read_file(file: BytesLike, *, out: Sequence[Optional[Buffer]] = (None, None)) -> "Record":
    """It gives a Record. `out` is a pair of buffers for registry and slashings. Refused has the position at which reading stopped and the
    field at fault."""
    try:
        registry, slashings, read = call("read_file", file, *buffers(out, "registry", "slashings"))
    except Refused as refused:
        fault = _layout.fault(file)
        same = fault and (fault.refusal, fault.position) == (refused.number, refused.position)
        raise Refused(refused.number, refused.position, fault.field if same else None, refused.fault) from None
    validators, roots, _ = read_header(file)
    version = memoryview(file).cast("B")[0]
    part = slice(_layout.roots_at(validators, version), _layout.slashings_at(validators, roots, version))
    return Record(read.settings, read.finality, registry, slashings, bytes(memoryview(file).cast("B")[part]), read.queue)


class _Record(NamedTuple):
    settings: Settings
    finality: Finality
    registry: Any
    slashings: Any
    roots: Any
    queue: Optional[ExitQueue] = None


class Record(_Record):
    """All that a close is handed, and hands back: registry and slashings are buffers of 64-bit numbers, roots are bytes. `queue` is the
    exit queue's pair; None has it worked out.

    >>> from altair_close import MAINNET, Finality, Record
    >>> settings = MAINNET._replace(slots_per_epoch=8, slots_per_historical_root=64, epochs_per_slashings_vector=64)
    >>> validator = [32 * 10**9, 0, 0, 0, 2**64 - 1, 2**64 - 1, 32 * 10**9, 0, 0, 0]
    >>> record = Record(settings, Finality(31), validator * 5, [0] * 64, bytes(32 * 64))
    >>> record.close().registry[6]
    31996800000
    >>> next(record.closing().booked()).target_taken
    2080000
    """

    __slots__ = ()

    @classmethod
    def read(cls, file: BytesLike) -> "Record":
        """The record of a file's bytes."""
        return read_file(file)

    @classmethod
    def open(cls, path: Any) -> "Record":
        """The record of the file at a path; '-' is standard input."""
        return read_file(read_record(path))

    def write(self) -> bytes:
        """The bytes of the record's file."""
        return bytes(write_file(self.settings, self.finality, self.queue, self.registry, self.roots, self.slashings))

    def save(self, path: Any) -> None:
        """Writes the record's file to a path; what stood there stays where it cannot be written."""
        write_whole(path, [self.write()])

    def closing(self, *, fork: int = FORK_ALTAIR, bellatrix: Bellatrix = Bellatrix(0, 0),
                store: Union[StoreLike, DenebRules, None] = None, out: Sequence[Optional[Buffer]] = (None, None, None)) -> Closed:
        """What the close says of this record, amounts too, under a fork with Bellatrix's pair: Closed. `out` is as that of the function.
        A `store` stands in the place of the record's settings, fork and pair; so do DenebRules, and it is a Deneb close."""
        if isinstance(store, DenebRules):
            return deneb_close(store, self.finality, self.queue, self.registry, self.slashings, self.roots, out=out)
        if store is None:
            struct_of(Bellatrix).flat("bellatrix", bellatrix)
            store = Rules(self.settings, number("fork", fork), bellatrix)
        return close(store, self.finality, self.queue, self.registry, self.slashings, self.roots, out=out)

    def close(self, **how: Any) -> "ClosedRecord":
        """The closed record, as `closing` gives it; roots stay."""
        closed = self.closing(**how)
        return ClosedRecord(self.settings, closed.finality, closed.registry, closed.slashings, self.roots, closed.queue).after(closed)

    def charged(self) -> int:
        """How many validators are charged."""
        return charged(self.settings, self.finality.slot, self.registry)

    def listing(self, closed: Union[Closed, "Record"]) -> Iterator[str]:
        """The lines of the listing, as text, of this record and the closed one. The figures are those of the close: of one by a store by its
        entry. Of a record that does not know its close they are by the settings of this one. Refused, there is none of them."""
        close = closed.closed or closed if isinstance(closed, ClosedRecord) else closed
        if not isinstance(close, (Closed, Record)):
            raise TypeError(f"closed: a closed Record or Closed is wanted, not {type(closed).__name__}")
        # all of them before the first is handed out: a net change may not fit
        lines = ["%d %d %d %d %d %d" % line for line in listing_lines(self.registry, closed.registry)]
        settings = close.rules.settings if isinstance(close, Closed) and close.by is not None else self.settings
        head = listing_head(settings, self.finality.slot, closed.finality, self.registry)
        yield (
            f"epoch {head.epoch} justified {head.justified_epoch} finalized {head.finalized_epoch} "
            f"bits {head.justification_bits} charged {head.charged} %d %d %d" % (close.raised if isinstance(close, Closed) else head.raised)
        )
        yield from lines

    def __reduce__(self) -> Any:
        return Record, (*self[:2], held(self.registry), held(self.slashings), bytes(memoryview(self.roots)), self.queue)


class ClosedRecord(Record):
    """A closed record, which knows its close: the amounts, which totals were raised, which test finalized, and what it went by."""

    closed: Optional[Closed] = None  # none where it was made otherwise, as by _replace

    def after(self, closed: Closed) -> "ClosedRecord":
        self.closed = closed
        return self

    def booked(self) -> Iterator[Amounts]:
        """The Amounts of every validator, in order."""
        return self._close().booked()

    @property
    def raised(self) -> Raised:
        return self._close().raised

    @property
    def test(self) -> int:
        return self._close().test

    def _close(self) -> Closed:
        if self.closed is None:
            raise ValueError("closed: this record was changed after its close, and knows it no more")
        return self.closed

    def __reduce__(self) -> Any:
        return _closed_again, (super().__reduce__()[1], self.closed)


def _closed_again(values: Any, closed: Optional[Closed]) -> ClosedRecord:
    again = ClosedRecord(*values)
    return again.after(closed) if closed else again
