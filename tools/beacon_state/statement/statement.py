"""All that a statement says, before it is put into a form."""
from typing import Any, NamedTuple

from ..forks import title
from .account import Account
from .epoch import dated


class Statement(NamedTuple):
    account: Account
    waits: list
    exits: list
    by_epoch: bool
    keys: Any  # of the last state, or None
    pending: list = []  # deposits that the last close left in the queue

    @property
    def epochs(self):
        return self.account.epochs

    @property
    def last(self):
        return self.account.last

    def rows(self):
        return self.account.by_epoch() if self.by_epoch else self.account.rows()

    def key(self, index):
        """A validator's public key in hexadecimal, '' where nobody has named it."""
        return "0x" + self.keys[index].hex() if self.keys is not None else ""

    def heading(self):
        first, last = self.epochs[0].number, self.last.number
        if len(self.epochs) == 1:
            return f"Statement of epoch {first}"
        return f"Statement of epochs {first} to {last}, {len(self.epochs)} closes"

    def period(self):
        """From when to when, or ''."""
        first, last = self.epochs[0].dates(), self.last.dates()
        return f"{dated(first[0])} to {dated(last[1])}" if first and last else ""

    def forks(self):
        return ", ".join(dict.fromkeys(title(epoch.fork) for epoch in self.epochs))

    def gaps(self):
        """What is missing between the closes, in words; '' where nothing is."""
        if not self.account.gaps:
            return ""
        missing = ", ".join(map(str, self.account.gaps))
        return f"no state was given of {missing}: what changed there, closes and blocks together, is the figure 'gaps'"


def taken_as_valid(statement):
    """What is said of the validators that deposits made; '' where there are none. A record file says itself which deposits are valid."""
    joined = sum(epoch.joined for epoch in statement.epochs if epoch.network)
    if not joined:
        return ""
    made = "1 validator was made by a deposit" if joined == 1 else f"{joined} validators were made by deposits"
    return f"{made}; signatures of deposits are not checked here, and were taken as valid but for those that --invalid-deposits named"


PENDING = ("bounds, not forecasts: applied or postponed after at most so many further accepted closes, where finality does not go back and others "
           "only add deposits at the end; a new key's signature is not checked here")
BOUND = ("bounds, not forecasts: activation comes after at most so many further accepted closes, whatever others do meanwhile "
         "(demand 3), and often earlier; the date supposes a close in every epoch")
EARLIEST = "an order that comes behind others gets a later epoch"
