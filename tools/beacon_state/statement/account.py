"""A run of closes, as one account: each validator's balance carried from one close to the next.

Opening balance + what closes gave - what they took + what blocks did between closes + what happened in epochs that were not given
= closing balance, of each validator and in total."""
from itertools import zip_longest
from typing import NamedTuple

from ..errors import Bad
from .epoch import ALL, ELECTRA, GIVEN, RULES, TAKEN, status


class Gap(NamedTuple):
    """Epochs between two closes of which no state was given."""

    first: int
    last: int

    def __str__(self):
        return f"epoch {self.first}" if self.first == self.last else f"epochs {self.first} to {self.last}"


class Row(NamedTuple):
    """A validator's line, over the epochs from first to last. Amounts are in Gwei."""

    index: int
    first: int
    last: int
    opening_balance: int
    amounts: tuple
    blocks: int
    gaps: int
    closing_balance: int
    effective_balance: int
    status: str

    @property
    def net(self):
        return self.closing_balance - self.opening_balance


def net_of(amounts):
    """What the rules gave less what they took."""
    return sum(n if name in GIVEN else -n for name, n in zip(ALL, amounts))


def added(one, other):
    """Amounts of nine rules or of twelve, together."""
    return tuple(a + b for a, b in zip_longest(one, other, fillvalue=0))


def gap_between(before, after):
    return Gap(before + 1, after - 1) if after - before > 1 else None


def test_follows(before, opening):
    """Refuses an opening that does not follow a close: an epoch twice, a step back, another network."""
    epoch, slots = opening.epoch, opening.rules.slots_per_epoch
    if slots != before.slots_per_epoch:
        raise Bad(f"{opening.name}: {slots} slots an epoch, and {before.name} has {before.slots_per_epoch}: another network")
    if opening.network and before.network and opening.network != before.network:
        raise Bad(f"{opening.name}: its genesis_validators_root is not that of {before.name}: another network")
    if epoch == before.number:
        raise Bad(f"{opening.name}: epoch {epoch} is closed already, by {before.name}: each close is of a later epoch")
    if epoch < before.number:
        raise Bad(f"{opening.name}: epoch {epoch} stands behind epoch {before.number} of {before.name}: give them in order")
    if opening.record.validators < before.validators:
        raise Bad(f"{opening.name}: {opening.record.validators} validators, and {before.name} has {before.validators}: another network")


class Account:
    """The epochs in order, and their validators' lines."""

    def __init__(self):
        self.epochs, self.gaps, self.keys = [], [], None

    def add(self, epoch):
        if self.epochs:
            gap = gap_between(self.epochs[-1].number, epoch.number)
            self.gaps += [gap] if gap else []
        self.epochs.append(epoch)

    @property
    def last(self):
        return self.epochs[-1]

    @property
    def rules(self):
        """The names of the amounts: Electra's three among them where one of the closes is Electra's or Fulu's."""
        return ALL if any(ELECTRA[0] in epoch.columns for epoch in self.epochs) else RULES

    def by_epoch(self):
        """The rows of each epoch in turn. The opening balance is what the close before left, carried forward."""
        left, before = {}, None
        for epoch in self.epochs:
            gap = before is not None and gap_between(before, epoch.number)
            columns, none = epoch.columns, [0] * len(epoch.chosen)
            rules = [columns.get(name, none) for name in self.rules]
            for place, index in enumerate(epoch.chosen):
                opened, closed = columns["opening_balance"][place], columns["closing_balance"][place]
                # one that has joined since had nothing: its deposit is what blocks did
                carried = opened if before is None else left.get(index, 0)
                between = opened - carried
                amounts = tuple(rule[place] for rule in rules)
                yield Row(index, epoch.number, epoch.number, carried, amounts, 0 if gap else between, between if gap else 0, closed,
                          columns["effective_balance"][place], status(columns, place, epoch.number + 1))
            left, before = dict(zip(epoch.chosen, columns["closing_balance"])), epoch.number

    def rows(self):
        """A row for each validator, over all epochs."""
        if len(self.epochs) == 1:
            yield from self.by_epoch()
            return
        sums = {}
        for row in self.by_epoch():
            was = sums.get(row.index)
            if was is not None:
                amounts = added(was.amounts, row.amounts)
                row = row._replace(first=was.first, opening_balance=was.opening_balance, amounts=amounts, blocks=was.blocks + row.blocks,
                                   gaps=was.gaps + row.gaps)
            sums[row.index] = row
        for index in sorted(sums):
            yield sums[index]


class Totals:
    """The sums over rows, counted as they pass."""

    def __init__(self):
        self.count = self.opening_balance = self.closing_balance = self.blocks = self.gaps = 0
        self.amounts = (0,) * len(RULES)  # grows by Electra's three where a row has them

    def over(self, rows):
        for row in rows:
            self.count += 1
            self.opening_balance += row.opening_balance
            self.closing_balance += row.closing_balance
            self.blocks += row.blocks
            self.gaps += row.gaps
            self.amounts = added(self.amounts, row.amounts)
            yield row

    @property
    def net(self):
        return self.closing_balance - self.opening_balance

    @property
    def given(self):
        return sum(n for name, n in zip(ALL, self.amounts) if name in GIVEN)

    @property
    def taken(self):
        return sum(n for name, n in zip(ALL, self.amounts) if name in TAKEN)
