"""What goes in and comes back: the named tuples of _words.py, and those that hold buffers or say more."""
from array import array
from typing import Any, Iterator, NamedTuple, Sequence, Tuple, Union

from ._words import *
from ._words import ElectraValues, FullValues, Read, VotesValues, _Amounts, _ElectraAmounts

PRESETS = {"mainnet": MAINNET, "minimal": MINIMAL}

# what a type checker cannot say: a C-contiguous buffer of 64-bit unsigned numbers or of bytes, and what goes in for one
Buffer = Any
NumbersLike = Any
BytesLike = Any


def _call(name: str, *values: Any) -> Any:
    from ._signatures import call  # it stands on this module

    return call(name, *values)


def flat(numbers: Any) -> memoryview:
    """A buffer's numbers in one row, or a list's or tuple's in a buffer of their own."""
    view = memoryview(array("Q", numbers) if isinstance(numbers, (list, tuple)) else numbers)
    return view.cast("B").cast("Q") if view.nbytes else memoryview(array("Q"))  # one of no rows cannot be cast


def lent(name: str, numbers: Any, row: int) -> memoryview:
    """The same of what a user has put into a tuple: what is wrong with it is said by this name."""
    from ._arguments import Numbers

    kind = Numbers(row=row)
    return flat(kind.checked(name, kind.made(name, numbers), False).view)


def held(numbers: Any) -> "array[int]":
    """The numbers in a buffer that is nobody else's, and that can be pickled."""
    return array("Q", flat(numbers).tobytes())


class Amounts(_Amounts):
    __doc__ = _Amounts.__doc__
    __slots__ = ()

    @property
    def net(self) -> int:
        """Closing minus opening balance."""
        return sum(self[:SLASHING_TAKEN:2]) - sum(self[1:SLASHING_TAKEN:2]) - self.slashing_taken


class ElectraAmounts(_ElectraAmounts):
    __doc__ = _ElectraAmounts.__doc__
    __slots__ = ()

    @property
    def net(self) -> int:
        """Closing minus opening balance."""
        return Amounts(*self[:AMOUNTS_LENGTH]).net + self.deposited + self.consolidated_in - self.consolidated_out


class Entry(NamedTuple):
    """An entry of a store: from the start on, up to the next entry's, a close goes by these rules."""

    start: int
    rules: Rules


class Store(NamedTuple):
    """Entries of 23 numbers, also one a row, and how many of them are in use. Where a close wants a store, Rules or Settings alone are one
    of one entry that starts at epoch 0.

    >>> from altair_close import FORK_BELLATRIX, MAINNET, MAINNET_BELLATRIX, Rules, Store
    >>> store = Store.of((10, MAINNET), (20, Rules(MAINNET, FORK_BELLATRIX, MAINNET_BELLATRIX)))
    >>> [store.rules_at(epoch).fork for epoch in (10, 19, 20)]
    [0, 0, 1]
    """

    numbers: Any = ()
    count: int = 0  # type: ignore[assignment]  # a tuple has a method of this name

    @classmethod
    def of(cls, *entries: Tuple[int, Union[Rules, Settings]]) -> "Store":
        """A store of these entries, each a start and Rules or Settings. Refused where one of them cannot be added."""
        from ._store import added  # it stands on this module

        store, refused = added(entries)
        if refused:
            raise refused
        return store

    def adding(self, start: int, rules: Union[Rules, Settings]) -> "Store":
        """The store with an entry more, for which room is made."""
        from ._store import add_rules, with_room

        return add_rules(with_room(self), start, rules)

    def rules_at(self, epoch: int) -> Rules:
        """The Rules that an epoch goes by."""
        return _call("read_rules", self, epoch)

    def used(self) -> memoryview:
        """The numbers of the entries in use, in one row."""
        from ._arguments import number

        return lent("numbers", self.numbers, ENTRY_LENGTH)[: ENTRY_LENGTH * number("count", self.count)]

    def entries(self) -> Iterator[Entry]:
        """The entries in use: start and Rules."""
        numbers = self.used()
        for at in range(0, len(numbers), ENTRY_LENGTH):
            start, fork, *rest = numbers[at : at + ENTRY_LENGTH].tolist()
            yield Entry(start, Rules(Settings(*rest[:19]), fork, Bellatrix(*rest[19:])))

    def __reduce__(self) -> Any:
        return Store, (held(self.numbers), self.count)


StoreLike = Union[Store, Rules, Settings, Sequence[Any]]


def entry_numbers(start: int, rules: Rules) -> Any:
    """The 23 numbers of an entry: start, fork, the nineteen settings and the pair."""
    return [start, rules.fork, *rules.settings, *rules.bellatrix]


class Queued(NamedTuple):
    """A registry after the registry step or an exit, and its exit queue's pair."""

    registry: Any
    queue: ExitQueue

    @classmethod
    def given(cls, queue: ExitQueue, registry: Any) -> "Queued":
        return cls(registry, queue)

    def __reduce__(self) -> Any:
        return Queued, (held(self.registry), self.queue)


class _Closed(NamedTuple):
    finality: Finality
    queue: ExitQueue
    registry: Any
    slashings: Any
    amounts: Any
    raised: Raised
    test: int


class Closed(_Closed):
    """A closed record with its exit queue's pair: registry, slashings and amounts, nine numbers a validator, are the buffers of `out`,
    or memoryviews of 64-bit numbers. And which totals were raised, and which test finalized, as in Justified."""

    by: Any = None  # what the close went by: a store, rules of Deneb or of another fork, or settings

    @classmethod
    def given(cls, values: FullValues, registry: Any, slashings: Any, amounts: Any) -> "Closed":
        return cls(values.finality, values.queue, registry, slashings, amounts, values.raised, values.test)

    def went_by(self, store: Any) -> "Closed":
        """The same, which knows what it went by."""
        self.by = store
        return self

    @property
    def rules(self) -> Union[Rules, DenebRules]:
        """The rules that the close went by: of a store those of its entry for the record's epoch."""
        if isinstance(self.by, (Rules, DenebRules)):
            return self.by
        if isinstance(self.by, Settings):
            return Rules(self.by)
        return _call("read_rules", self.by, self.finality.slot // flat(self.by[0])[ENTRY_SETTINGS])

    def booked(self) -> Iterator[Amounts]:
        """The Amounts of every validator, in order."""
        numbers = lent("amounts", self.amounts, AMOUNTS_LENGTH)
        return (Amounts(*numbers[at : at + AMOUNTS_LENGTH]) for at in range(0, len(numbers), AMOUNTS_LENGTH))

    def __reduce__(self) -> Any:
        finality, queue, *buffers, raised, test = self
        return _closed_again, ((finality, queue, *map(held, buffers), raised, test), self.by)


def _closed_again(values: Any, by: Any) -> Closed:
    return Closed(*values).went_by(by)


class _ElectraClosed(NamedTuple):
    finality: Finality
    churn: ExitChurn
    deposit_balance_to_consume: int
    registry: Any
    compounding: Any
    slashings: Any
    deposits: Any
    consolidations: Any
    amounts: Any
    raised: Raised
    test: int


class ElectraClosed(_ElectraClosed):
    """A closed record of Electra or Fulu with its queues: the lists are memoryviews of 64-bit numbers, of each buffer the front that the
    close has written. Validators that deposits made stand behind the others; amounts are twelve numbers a validator. A deposit's key is
    in the opening's numbering. And which totals were raised, and which test finalized, as in Justified."""

    @classmethod
    def given(cls, values: ElectraValues, registry: Any, compounding: Any, slashings: Any, deposits: Any, consolidations: Any,
              amounts: Any) -> "ElectraClosed":
        def front(numbers: Any, count: int) -> memoryview:
            return flat(numbers)[:count]

        n = values.validators
        return cls(values.finality, values.churn, values.deposit_balance_to_consume, front(registry, VALIDATOR_LENGTH * n),
                   front(compounding, n), flat(slashings), front(deposits, DEPOSIT_LENGTH * values.deposits),
                   front(consolidations, CONSOLIDATION_LENGTH * values.consolidations), front(amounts, ELECTRA_AMOUNTS_LENGTH * n),
                   values.raised, values.test)

    def booked(self) -> Iterator[ElectraAmounts]:
        """The ElectraAmounts of every validator, in order."""
        numbers = lent("amounts", self.amounts, ELECTRA_AMOUNTS_LENGTH)
        return (ElectraAmounts(*numbers[at : at + ELECTRA_AMOUNTS_LENGTH]) for at in range(0, len(numbers), ELECTRA_AMOUNTS_LENGTH))

    def __reduce__(self) -> Any:
        finality, churn, left, *buffers, raised, test = self
        return ElectraClosed, (finality, churn, left, *map(held, buffers), raised, test)


class Running(NamedTuple):
    """A close between its calls. done is how many of its nine calls are done, 9 once it has ended, refused or not; refusal to test are what
    the whole close answers, as far as it has come; orders is how many exit orders are in the list. Running() begins one."""

    done: int = 0
    refusal: int = 0
    finality: Finality = Finality(0)
    queue: ExitQueue = ExitQueue(0, 0)
    raised: Raised = Raised(False, False, False)
    test: int = 0
    orders: int = 0


class Told(NamedTuple):
    """What a call of a close by steps answers: 0 or the refusal's number, whether the close had ended before the call, and the close as it
    is now."""

    refusal: int
    ended: bool
    running: Running


class Shelf(NamedTuple):
    """A shelf after its close: the closed files, each in its place, and an answer for each, 0 or the refusal's number. The part of a file
    that is refused with 4 or 5 has its own bytes; with another number it is as it was before."""

    closing: Any
    answers: Any


class Votes(NamedTuple):
    """What votes not yet counted can come to: the finalized epochs, rising, and PASSES_IN_.. of each target's test."""

    finalized_epochs: Tuple[int, ...]
    previous_target: int
    current_target: int

    @classmethod
    def given(cls, values: VotesValues) -> "Votes":
        return cls(values.finalized_epochs[: values.count], values.previous_target, values.current_target)

